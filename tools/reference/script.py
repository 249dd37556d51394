"""The parts of a script that was read, and its canonical text."""
from __future__ import annotations

from dataclasses import dataclass, field
from enum import Enum
from typing import Union

from forms import OPERAND, REAL, SIGNAL, SIGNAL_SET, USES, Form, ObjectKind, is_place

ALL_SIGNALS = 2**32 - 1
DEFAULT_QUANTUM = 10


class Res(Enum):
    """The result of a call."""

    ZERO = "0"
    AGAIN = "EAGAIN"
    BUSY = "EBUSY"
    DEADLK = "EDEADLK"
    INTR = "EINTR"
    INVAL = "EINVAL"
    MSGSIZE = "EMSGSIZE"
    OVERFLOW = "EOVERFLOW"
    PERM = "EPERM"
    SRCH = "ESRCH"
    TIMEDOUT = "ETIMEDOUT"


@dataclass(frozen=True)
class Operand:
    """A number, or the register where the number is None."""

    number: int | None


@dataclass(frozen=True)
class Fifo:
    priority: int


@dataclass(frozen=True)
class Rr:
    priority: int


@dataclass(frozen=True)
class Sporadic:
    """Priorities, then ticks: a budget in each period, with at most `limit` pending replenishments."""

    high: int
    low: int
    period: int
    budget: int
    limit: int


@dataclass(frozen=True)
class Strict(Sporadic):
    """The same parameters, with the rules of a strict server."""


Policy = Union[Fifo, Rr, Sporadic, Strict]


@dataclass(frozen=True)
class Call:
    """A call: its form and the operands at the places of the form, names as object numbers."""

    form: Form
    operands: tuple

    @property
    def word(self) -> str:
        return self.form.head

    @property
    def choice(self) -> str:
        """The keyword that follows the first word or the first operand."""
        return next(word for word in self.form.words[1:] if not is_place(word))

    @property
    def is_real(self) -> bool:
        """Whether the call's absolute time is one of CLOCK_REALTIME."""
        return self.form.words[-1] == REAL


@dataclass(frozen=True)
class Run:
    ticks: int


@dataclass(frozen=True)
class SetRegister:
    number: int


@dataclass(frozen=True)
class AddRegister:
    number: int


@dataclass(frozen=True)
class TakeValue:
    pass


@dataclass
class Test:
    """A block that is done where the last result is (`equal`) or is not `res`."""

    res: Res
    equal: bool
    body: "Block"


@dataclass
class Loop:
    """A block that is done `times` times, or for ever where that is None."""

    times: int | None
    body: "Block"


@dataclass
class Guard:
    """A block with a cleanup pushed before it and popped after it, where `run` says so to run it."""

    cleanup: int
    push: Call
    body: "Block"
    pop: Call | None = None


Step = Union[Run, Call, SetRegister, AddRegister, TakeValue, Test, Loop, Guard]
Block = list[Step]


@dataclass
class ThreadKind:
    policy: Policy
    start: int | None
    body: Block


@dataclass
class HandlerKind:
    body: Block


@dataclass
class CleanupKind:
    body: Block


@dataclass
class MutexKind:
    """`ceiling` stands for the protocol protect, `inherit` for inherit, neither for none."""

    inherit: bool
    ceiling: int | None
    recursive: bool

    @property
    def boosting(self) -> bool:
        return self.inherit or self.ceiling is not None


@dataclass
class CondKind:
    pass


@dataclass
class SemKind:
    value: int


@dataclass
class QueueKind:
    depth: int
    greatest: int
    nonblock: bool


@dataclass
class TimerKind:
    """`real` puts the timer's absolute times on CLOCK_REALTIME."""

    signal: int
    value: int
    real: bool = False


Kind = Union[ThreadKind, HandlerKind, CleanupKind, MutexKind, CondKind, SemKind, QueueKind, TimerKind]
KIND_TYPES: dict[ObjectKind, type] = {
    ObjectKind.THREAD: ThreadKind, ObjectKind.HANDLER: HandlerKind, ObjectKind.CLEANUP: CleanupKind,
    ObjectKind.MUTEX: MutexKind, ObjectKind.COND: CondKind, ObjectKind.SEM: SemKind,
    ObjectKind.QUEUE: QueueKind, ObjectKind.TIMER: TimerKind}


@dataclass
class Named:
    name: str
    kind: Kind


@dataclass
class Action:
    """What a signal does: run a handler, or nothing where that is None."""

    signal: int
    handler: int | None


@dataclass
class Script:
    version: int = 1
    quantum: int = DEFAULT_QUANTUM
    declarations: list[Named | Action] = field(default_factory=list)

    def objects(self, kind: ObjectKind) -> list[Named]:
        """The declared objects of one kind; their places in this list are their numbers."""
        wanted = KIND_TYPES[kind]
        return [d for d in self.declarations if isinstance(d, Named) and isinstance(d.kind, wanted)]

    def actions(self) -> dict[int, int | None]:
        return {d.signal: d.handler for d in self.declarations if isinstance(d, Action)}


def signal_text(signal: int) -> str:
    return f"rt{signal}"


def set_text(signals: int) -> str:
    """A set of signals as `all`, `none`, or its signals rising."""
    if signals == ALL_SIGNALS:
        return "all"
    return ",".join(signal_text(s) for s in range(32) if signals >> s & 1) or "none"


def operand_text(operand: Operand) -> str:
    return "reg" if operand.number is None else str(operand.number)


def policy_text(policy: Policy) -> str:
    match policy:
        case Fifo(priority):
            return f"fifo {priority}"
        case Rr(priority):
            return f"rr {priority}"
        case Sporadic(high, low, period, budget, limit):
            word = "strict" if isinstance(policy, Strict) else "sporadic"
            return f"{word} {high} {low} {period} {budget} {limit}"


class CanonicalText:
    """The canonical text of one script."""

    def __init__(self, script: Script) -> None:
        self.script = script
        self.names = {kind: [named.name for named in script.objects(kind)] for kind in ObjectKind}

    def lines(self, with_quantum: bool = True) -> list[str]:
        found = ["version 2"] if self.script.version == 2 else []
        found += [f"quantum {self.script.quantum}"] if with_quantum else []
        for declaration in self.script.declarations:
            found += self.declaration(declaration)
        return found

    def declaration(self, declaration: Named | Action) -> list[str]:
        if isinstance(declaration, Action):
            if declaration.handler is None:
                return [f"action {signal_text(declaration.signal)} ignore"]
            handler = self.names[ObjectKind.HANDLER][declaration.handler]
            return [f"action {signal_text(declaration.signal)} run {handler}"]
        name = declaration.name
        match declaration.kind:
            case ThreadKind(policy, start, body):
                begin = "dormant" if start is None else f"at {start}"
                return [f"thread {name} {policy_text(policy)} {begin}", *self.block(body), "end"]
            case HandlerKind(body):
                return [f"handler {name}", *self.block(body), "end"]
            case CleanupKind(body):
                return [f"cleanup {name}", *self.block(body), "end"]
            case MutexKind(inherit, ceiling, recursive):
                protocol = "inherit" if inherit else "none" if ceiling is None else f"protect {ceiling}"
                return [f"mutex {name} {protocol}{' recursive' if recursive else ''}"]
            case CondKind():
                return [f"cond {name}"]
            case SemKind(value):
                return [f"sem {name} {value}"]
            case QueueKind(depth, greatest, nonblock):
                return [f"queue {name} {depth} {greatest}{' nonblock' if nonblock else ''}"]
            case TimerKind(signal, value, real):
                return [f"timer {name} {signal_text(signal)} {value}{f' {REAL}' if real else ''}"]
        raise AssertionError(declaration)

    def block(self, body: Block) -> list[str]:
        return [line for step in body for line in self.step(step)]

    def step(self, step: Step) -> list[str]:
        match step:
            case Run(ticks):
                return [f"run {ticks}"]
            case SetRegister(number):
                return [f"set {number}"]
            case AddRegister(number):
                return [f"add {number}"]
            case TakeValue():
                return ["take"]
            case Call():
                return [self.call(step)]
            case Test(res, equal, body):
                return [f"{'if' if equal else 'unless'} {res.value}", *self.block(body), "end"]
            case Loop(times, body):
                return ["forever" if times is None else f"loop {times}", *self.block(body), "end"]
            case Guard(_, push, body, pop):
                assert pop is not None
                return [self.call(push), *self.block(body), self.call(pop)]

    def call(self, call: Call) -> str:
        operands = iter(call.operands)
        return " ".join(self.word(word, operands) if is_place(word) else word for word in call.form.words)

    def word(self, place: str, operands) -> str:
        operand = next(operands)
        if place in USES:
            return self.names[USES[place]][operand]
        if place == SIGNAL:
            return signal_text(operand)
        if place == SIGNAL_SET:
            return set_text(operand)
        return operand_text(operand) if place == OPERAND else str(operand)


def canonical_text(script: Script, with_quantum: bool = True) -> str:
    """The canonical text, each line with its line end."""
    return "".join(line + "\n" for line in CanonicalText(script).lines(with_quantum))
