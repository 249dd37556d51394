"""A value change dump (IEEE 1364, 18) for GTKWave and other wave viewers. A tick is written as a nanosecond, or as --tick says.

All variables stand in one scope, with the names that a viewer shows: `processor`, who runs or `idle`; for each thread
`low.state` and `low.priority`, and of a server `low.capacity`; of a detail for each mutex `data.owner`, and the values of
semaphores and the numbers of messages in queues. No value is unknown: what is not there is `dormant`, `ended` or 0.
"""
from __future__ import annotations

from collections.abc import Iterator
from operator import itemgetter

from .kinds import labels
from .steps import steps_at_most
from .timeline import Span, State, ThreadLine, Timeline
from .values import capacity, owner_at, priorities, queues, semaphores

Change = tuple[int, str]


def draw(timeline: Timeline) -> str:
    tick = timeline.tick or "1ns"
    dump = _Dump(timeline)
    unit = tick.lstrip("0123456789")
    head = [f"$comment a run of pse52: one tick is {tick} $end", f"$timescale {_timescale(tick)} {unit} $end", "$scope module pse52 $end",
            *dump.head, "$upscope $end", "$enddefinitions $end"]
    return "\n".join(head + _dumped(dump.changes, timeline.start, timeline.end, _factor(tick))) + "\n"


def _timescale(tick: str) -> int:
    """The number of the unit of the dump: 1, 10 or 100, the only ones that there are."""
    number = int(tick.rstrip("nsum"))
    return next(scale for scale in (100, 10, 1) if number % scale == 0)


def _factor(tick: str) -> int:
    return int(tick.rstrip("nsum")) // _timescale(tick)


class _Dump:
    """The declarations of the variables, and all their changes."""

    def __init__(self, timeline: Timeline) -> None:
        self._codes = _codes()
        self.head: list[str] = []
        self.changes: list[Change] = []
        self._text("processor", _processor(timeline))
        most = steps_at_most(timeline)
        for thread in timeline.threads:
            self._text(f"{thread.name}.state", _states(thread, timeline.start))
            self._number(f"{thread.name}.priority", 8, priorities(timeline, thread), timeline.start)
            if thread.is_sporadic:
                self._number(f"{thread.name}.capacity", 64, capacity(thread, most), timeline.start)
        for mutex in timeline.mutexes:
            times = [timeline.start, *(time for time, _ in timeline.facts.changes("mutex", mutex.name) if timeline.start < time <= timeline.end)]
            self._text(f"{mutex.name}.owner", ((time, owner_at(timeline.facts, mutex.name, time)) for time in times))
        for name, steps in semaphores(timeline).items():
            self._number(f"{name}.value", 16, steps, timeline.start)
        for name, steps in queues(timeline).items():
            self._number(f"{name}.messages", 8, steps, timeline.start)

    def _text(self, name: str, changes: Iterator[tuple[int, str]]) -> None:
        code = next(self._codes)
        self.head.append(f"$var string 1 {code} {name} $end")
        self.changes += ((time, f"s{value} {code}") for time, value in changes)

    def _number(self, name: str, bits: int, steps: list[tuple[int, int]], start: int) -> None:
        code = next(self._codes)
        self.head.append(f"$var integer {bits} {code} {name} $end")
        if not steps or steps[0][0] > start:
            self.changes.append((start, f"b0 {code}"))
        self.changes += ((max(time, start), f"b{value:b} {code}") for time, value in steps)


def _codes() -> Iterator[str]:
    """Short names of variables: the printed bytes, then two of them, and so on."""
    letters = [chr(code) for code in range(33, 127)]
    yield from letters
    for first in letters:
        for second in letters:
            yield first + second


def _processor(timeline: Timeline) -> Iterator[tuple[int, str]]:
    """Who runs. Of what is told for one instant the last holds."""
    yield timeline.start, "idle"
    for start, _ in timeline.idle:
        yield start, "idle"
    for thread in timeline.threads:
        for start, _ in thread.runs:
            yield start, thread.name


def state_word(span: Span) -> str:
    """A state as one word: of a wait what it is for, of a handler its name."""
    match span.state:
        case State.RUNNING:
            return f"running_{span.frame}" if span.frame else "running"
        case State.READY:
            return "ready"
        case State.WAITING:
            return "_".join(["waiting", *labels(span)[0].split()]) if span.kind else "waiting"
    return "not_running"


def _states(thread: ThreadLine, start: int) -> Iterator[tuple[int, str]]:
    yield start, "ended" if thread.over else "dormant"
    for span in thread.spans:
        yield span.start, state_word(span)
    if thread.ended is not None:
        yield thread.ended, "ended"


def _dumped(changes: list[Change], start: int, end: int, factor: int) -> list[str]:
    """The changes in the order of their times. Of those of one instant the last holds; the first are the values at the beginning."""
    changes.sort(key=itemgetter(0))
    last: dict[str, str] = {}
    pending: dict[str, str] = {}
    lines, now = [], start
    for time, change in changes:
        if time != now:
            _flush(pending, last, lines, now * factor, now == start)
            now = time
        value, _, code = change.rpartition(" ")
        pending[code] = value
    _flush(pending, last, lines, now * factor, now == start)
    if now < end:
        lines.append(f"#{end * factor}")
    return lines


def _flush(pending: dict[str, str], last: dict[str, str], lines: list[str], now: int, first: bool) -> None:
    changed = [f"{value} {code}" for code, value in pending.items() if last.get(code) != value]
    last.update(pending)
    pending.clear()
    if changed:
        lines += [f"#{now}", "$dumpvars", *changed, "$end"] if first else [f"#{now}", *changed]
