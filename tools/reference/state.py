"""The records of the machine: threads and their frames, servers, objects, pending signals, events."""
from __future__ import annotations

from dataclasses import dataclass, field
from enum import Enum
from typing import Union

from script import Block, Call, Guard, Loop, MutexKind, Policy, QueueKind, Res, Run, Sporadic, Strict, Test, TimerKind

GREATEST_REGISTER = 2 * 10**18
CANCELED = 3 * 10**18
GREATEST_COUNT = 65_535
GREATEST_SEM = 32_767
GREATEST_OVERRUN = 2_147_483_647
GREATEST_PENDING = 64


class ThreadState(Enum):
    DORMANT = "dormant"
    READY = "ready"
    BLOCKED = "blocked"
    ENDED = "ended"


class WaitKind(Enum):
    """What a blocked thread waits for. A contending thread waits for the mutex of its condition."""

    MUTEX = "mutex"
    CONTENTION = "contention"
    COND = "cond"
    JOIN = "join"
    SEM = "sem"
    SLEEP = "sleep"
    SEND = "send"
    RECEIVE = "receive"
    SIGNAL = "signal"


class CondEnd(Enum):
    """How the condition wait of a contending thread ended."""

    SIGNALLED = "signalled"
    TIMEDOUT = "timed out"
    CANCELLED = "cancelled"


class SigCode(Enum):
    USER = "USER"
    QUEUE = "QUEUE"
    TIMER = "TIMER"
    MESGQ = "MESGQ"


class FrameKind(Enum):
    MAIN = "main"
    CLEANUP = "cleanup"
    SIGNAL = "signal"


class Plain(Enum):
    """The units that carry nothing."""

    JUMP = "jump"
    FINISH = "finish"


Unit = Union[Run, Call, Plain]


@dataclass(frozen=True)
class Reading:
    """A time of CLOCK_REALTIME: what is due at it is due at each instant at which that clock reads at least this."""

    value: int


Due = Union[int, Reading]
"""When a timeout or a timer is due: a tick, which no setting moves, or a reading."""


@dataclass
class Level:
    """A place in one block: the next step, and the passes left where a loop opened the block."""

    block: Block
    opener: Loop | Test | Guard | None = None
    index: int = 0
    passes: int | None = None


@dataclass
class Frame:
    """One activation of a body; `left` ticks of its present unit are not yet done."""

    kind: FrameKind
    levels: list[Level]
    register: int = 0
    result: Res = Res.ZERO
    value: int = 0
    unit: Unit = Plain.FINISH
    left: int = 0


@dataclass
class Replenishment:
    amount: int
    due: int


@dataclass
class History:
    """What happened to a server since it was new, for checks alone: the high ticks, and each kind of change."""

    high_ticks: list[int] = field(default_factory=list)
    activations: list[int] = field(default_factory=list)
    plans: list[tuple[int, Replenishment]] = field(default_factory=list)
    refills: list[tuple[int, Replenishment]] = field(default_factory=list)


class Server:
    """A server: what is left of its budget, what was used since its activation, what comes back when."""

    def __init__(self, parameters: Sporadic, now: int) -> None:
        self.parameters = parameters
        self.high = parameters.high
        self.capacity = parameters.budget
        self.activation = now
        self.consumed = 0
        self.pending: list[Replenishment] = []
        self.high_total = 0
        self.refilled_total = 0
        self.history = History()

    @property
    def is_strict(self) -> bool:
        return isinstance(self.parameters, Strict)

    @property
    def is_high(self) -> bool:
        if self.is_strict:
            return self.capacity > 0
        return self.capacity > 0 and len(self.pending) < self.parameters.limit

    def charge(self, tick: int) -> None:
        self.capacity -= 1
        self.consumed += 1
        self.high_total += 1
        self.history.high_ticks.append(tick)

    def activate(self, now: int) -> None:
        self.activation = now
        self.history.activations.append(now)

    def plan(self, now: int) -> Replenishment:
        """The consumed ticks come back one period after the activation; a strict server joins what is one too many."""
        planned = Replenishment(self.consumed, self.activation + self.parameters.period)
        if self.is_strict and len(self.pending) == self.parameters.limit:
            joined = self.pending.pop()
            self.pending.append(Replenishment(joined.amount + planned.amount, planned.due))
        else:
            self.pending.append(planned)
        self.consumed = 0
        self.history.plans.append((now, planned))
        return planned

    def refill(self, now: int) -> Replenishment:
        """Carries out the oldest pending replenishment."""
        done = self.pending.pop(0)
        self.capacity = min(self.capacity + done.amount, self.parameters.budget)
        self.refilled_total += done.amount
        self.history.refills.append((now, done))
        return done


@dataclass
class Message:
    length: int
    urgency: int
    value: int


@dataclass
class Wait:
    """What a blocked thread waits for: an object of a kind, in which call, since which serial, until when."""

    kind: WaitKind
    call: Call
    target: int | None = None
    serial: int | None = None
    due: Due | None = None
    mutex: int | None = None
    end: CondEnd | None = None
    message: Message | None = None
    signals: int = 0


@dataclass
class Joiner:
    """Who waits to join a thread; `joined` where somebody has joined it."""

    waiting: int | None = None
    joined: bool = False


@dataclass
class Thread:
    number: int
    name: str
    policy: Policy
    start: int | None
    body: Block
    state: ThreadState = ThreadState.DORMANT
    server: Server | None = None
    slice: int = 0
    ticks: int = 0
    mask: int = 0
    frames: list[Frame] = field(default_factory=list)
    wait: Wait | None = None
    requested: bool = False
    enabled: bool = True
    ending: bool = False
    exit_value: int = 0
    cleanups: list[int] = field(default_factory=list)
    joiner: Joiner = field(default_factory=Joiner)

    @property
    def is_live(self) -> bool:
        return self.state in (ThreadState.READY, ThreadState.BLOCKED)

    @property
    def is_ready(self) -> bool:
        return self.state is ThreadState.READY

    @property
    def frame(self) -> Frame:
        return self.frames[-1]

    @property
    def in_signal_frame(self) -> bool:
        return bool(self.frames) and self.frame.kind is FrameKind.SIGNAL

    def waits_in(self, *kinds: WaitKind) -> bool:
        return self.wait is not None and self.wait.kind in kinds


@dataclass
class Mutex:
    kind: MutexKind
    owner: int | None = None
    count: int = 0


@dataclass
class Queue:
    kind: QueueKind
    messages: list[Message] = field(default_factory=list)
    registration: tuple[int, int] | None = None


@dataclass
class Timer:
    kind: TimerKind
    due: Due | None = None
    interval: int = 0
    extra: int = 0
    overrun: int = 0


@dataclass
class Record:
    """A signal that was generated; `target` is a thread, or None for the process."""

    signal: int
    code: SigCode
    value: int
    target: int | None = None
    timer: int | None = None
    queue: int | None = None
    serial: int = 0


@dataclass(frozen=True)
class Event:
    """One line of the trace: its time and the words after it."""

    time: int
    words: tuple[str | int, ...]
