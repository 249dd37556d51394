"""What each thread did, as a picture shows it: stretches of running, being ready and waiting, marks, the capacity of its server,
and beside the threads the owners of mutexes and who woke whom.
"""
from __future__ import annotations

from bisect import bisect_right
from dataclasses import dataclass, field
from enum import Enum

from .facts import Facts
from .lines import Closing, Killed, Trace
from .wakes import Wake


class Kind(Enum):
    """Members are themselves alone, so they are found by identity, which is quicker than by name."""

    __hash__ = object.__hash__


class State(Kind):
    RUNNING = "running"
    READY = "ready"
    WAITING = "waiting"
    OFF = "not running"


class MarkKind(Kind):
    START = "start"
    EXIT = "exit"
    RETURN = "return"
    ERROR = "error"
    CLOCK = "clock"
    CANCEL = "cancel"
    DELIVER = "deliver"
    ACTIVATE = "activate"
    EXHAUST = "exhaust"
    PLAN = "plan"
    REFILL = "refill"
    RELEASE = "release"
    LATE = "late"


@dataclass(slots=True)
class Span:
    """A stretch of one state, from `start` up to and without `end`.

    `priority` is that of the dispatch, 0 where the thread does not run; of a detail it is the execution priority. `high`
    says of a sporadic thread that runs whether it is at its server's high priority, and is None otherwise. `call` names the
    call that a wait was in. Only of a detail `kind` is what sort of thing a wait is for and `what` its name, `until` when its
    time limit is, `frame` the body of the handler in which the thread is, `cleanup` whether that is a cleanup handler.
    """

    start: int
    end: int
    state: State
    priority: int = 0
    high: bool | None = None
    call: str = ""
    kind: str = ""
    what: str = ""
    until: int | None = None
    frame: str = ""
    cleanup: bool = False


@dataclass(slots=True)
class Mark:
    """An event of one thread: when, of which kind, a short label, and the number of its line, from 0.

    The release of a job and the deadline that it missed have no line, and a sentence in its place.
    """

    time: int
    kind: MarkKind
    label: str
    line: int
    sentence: str = ""

    def told(self, lines: list[str]) -> str:
        """What a title says of it."""
        return self.sentence or lines[self.line]


@dataclass(slots=True)
class Planned:
    """A replenishment: when it was planned, its amount, when it is due, and when it was carried out, if it was."""

    time: int
    amount: int
    due: int
    refilled: int | None = None


@dataclass(slots=True)
class Capacity:
    """A server's capacity from `start` to `end`: `value` at the start and, where it falls, one less after each tick."""

    start: int
    end: int
    value: int
    falls: bool

    def at(self, time: int) -> int:
        return max(0, self.value - (time - self.start)) if self.falls else self.value

    @property
    def last(self) -> int:
        return self.at(self.end)


@dataclass(slots=True)
class ThreadLine:
    """One thread: its stretches in order, what happened in it, and when it ended, if it did.

    `over` says of a part of a run that the thread had ended before it begins.
    """

    name: str
    spans: list[Span] = field(default_factory=list)
    runs: list[tuple[int, int]] = field(default_factory=list)
    marks: list[Mark] = field(default_factory=list)
    plans: list[Planned] = field(default_factory=list)
    capacity: list[Capacity] = field(default_factory=list)
    closing: Closing | None = None
    ended: int | None = None
    over: bool = False

    @property
    def is_sporadic(self) -> bool:
        return bool(self.capacity or self.plans)

    @property
    def ticks(self) -> int:
        return sum(span.end - span.start for span in self.spans if span.state is State.RUNNING)

    @property
    def high_ticks(self) -> int:
        return sum(span.end - span.start for span in self.spans if span.state is State.RUNNING and span.high)

    def span_at(self, time: int) -> Span | None:
        """The stretch that the tick from `time` on lies in; None where the thread has not started or has ended."""
        at = bisect_right(self.spans, time, key=lambda span: span.start) - 1
        return self.spans[at] if at >= 0 and time < self.spans[at].end else None

    def capacity_at(self, time: int) -> int | None:
        """The capacity that the tick from `time` on begins with; None where the server is not known yet."""
        at = bisect_right(self.capacity, time, key=lambda piece: piece.start) - 1
        return self.capacity[at].at(min(time, self.capacity[at].end)) if at >= 0 else None


@dataclass(slots=True)
class Owned:
    """A mutex: from where up to where which thread owns it, and how many threads then wait for it, at most."""

    name: str
    bars: list[tuple[int, int, str, int]]


@dataclass(slots=True)
class Timeline:
    """A whole trace: the threads in order of declaration, when the run was over, idle stretches, and what killed it.

    `start` is where the picture begins, and `scale` has the priorities of the whole run, by which stretches are coloured.
    Of a detail there are also mutexes with their owners, and who woke whom.
    """

    threads: list[ThreadLine]
    end: int
    idle: list[tuple[int, int]]
    killed: Killed | None
    finished: bool
    trace: Trace
    start: int = 0
    facts: Facts = field(default_factory=lambda: Facts(()))
    mutexes: list[Owned] = field(default_factory=list)
    wakes: list[Wake] = field(default_factory=list)
    title: str = ""
    tick: str = ""
    scale: list[int] = field(default_factory=list)

    @property
    def is_detail(self) -> bool:
        return bool(self.trace.facts)

    @property
    def instants(self) -> list[int]:
        """The instants at which something happens, the releases and missed deadlines of jobs too, rising, with the beginning and the end."""
        times = {event[0] for event in self.trace.events if not isinstance(event, Closing)}
        times |= {mark.time for thread in self.threads for mark in thread.marks if mark.sentence}
        return sorted({time for time in times if self.start <= time <= self.end} | {self.start, self.end})

    @property
    def priorities(self) -> list[int]:
        """The priorities at which a thread ran, the highest first."""
        return sorted({s.priority for t in self.threads for s in t.spans if s.state is State.RUNNING}, reverse=True)
