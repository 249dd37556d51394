"""The forms of a script line: one table, from which lines are read and printed.

A form is a row of words. A word in angle brackets is a place for an operand,
every other word is a keyword that stands as written. Each form belongs to the
stage from which on it is built.
"""
from __future__ import annotations

from dataclasses import dataclass
from enum import Enum, IntEnum
from functools import lru_cache

GREATEST_NUMBER = 10**18


class Stage(IntEnum):
    """How much of the language is known. Each stage holds the forms of those before it.

    The whole language has two versions; scripts that are generated for the stage after it are of version 2.
    """

    FIRST = 1
    LANGUAGE = 2
    THREADS = 3
    SERVERS = 4
    MUTEXES = 5
    SEMAPHORES = 6
    WAITING = 7
    LIVES = 8
    SIGNALS = 9
    TIMERS = 10
    QUEUES = 11
    CLOCK = 12
    WHOLE = 13
    VERSION2 = 14

    @staticmethod
    def named(name: str) -> "Stage":
        return Stage[name.upper()]


class Role(Enum):
    """What a line of a form is in the text."""

    QUANTUM = "quantum"
    DECLARATION = "declaration"
    BODY = "declaration that opens a body"
    STEP = "step"
    BLOCK = "step that opens a block"
    CLOSE = "closing line"


class ObjectKind(Enum):
    """The kinds of things that have a name."""

    THREAD = "thread"
    HANDLER = "handler"
    CLEANUP = "cleanup"
    MUTEX = "mutex"
    COND = "cond"
    SEM = "sem"
    QUEUE = "queue"
    TIMER = "timer"


DECLARED = "<name>"
SIGNAL = "<sig>"
SIGNAL_SET = "<set>"
OPERAND = "<operand>"
USES: dict[str, ObjectKind] = {f"<{kind.value}>": kind for kind in ObjectKind}

RANGES: dict[str, tuple[int, int]] = {
    OPERAND: (0, GREATEST_NUMBER),
    "<number>": (0, GREATEST_NUMBER),
    "<ticks>": (1, GREATEST_NUMBER),
    "<times>": (1, GREATEST_NUMBER),
    "<priority>": (1, 255),
    "<count>": (0, 32_767),
    "<depth>": (1, 64),
    "<greatest>": (1, 65_536),
    "<length>": (0, 65_536),
    "<urgency>": (0, 31),
}

ERRORS = ("EAGAIN", "EBUSY", "EDEADLK", "EINTR", "EINVAL", "EMSGSIZE", "EOVERFLOW", "EPERM", "ESRCH", "ETIMEDOUT")
RESULTS = ("0",) + ERRORS


@dataclass(frozen=True)
class Form:
    """One form: its words, what such a line is, and the stage that builds it."""

    role: Role
    stage: Stage
    words: tuple[str, ...]

    @property
    def head(self) -> str:
        return self.words[0]

    @property
    def places(self) -> tuple[str, ...]:
        """The places for operands, in order."""
        return tuple(word for word in self.words if is_place(word))

    @property
    def version(self) -> int:
        """The version of the language that has the form first."""
        return 2 if "strict" in self.words else 1

    @property
    def declares(self) -> ObjectKind | None:
        """The kind of the name that a line of this form declares."""
        return ObjectKind(self.head) if DECLARED in self.words else None

    def agrees(self, line: list[str]) -> bool:
        """Each keyword stands at its place, or the line ends before that place."""
        return all(is_place(want) or want == have for want, have in zip(self.words, line))


def is_place(word: str) -> bool:
    return word.startswith("<")


FIFO, RR = "fifo <priority>", "rr <priority>"
SERVER, STRICT = [f"{word} <priority> <priority> <number> <number> <number>" for word in ("sporadic", "strict")]
SERVER_WORDS = ("sporadic", "strict")
REAL = "real"
ABSOLUTE_WAITS = (
    "timedlock <mutex> <operand>", "timedwait <cond> <mutex> <operand>", "sem_timedwait <sem> <operand>",
    "clock_nanosleep <operand>", "mq_timedsend <queue> <length> <urgency> <operand> <operand>",
    "mq_timedreceive <queue> <operand>")


def threads(policy: str) -> list[str]:
    return [f"thread <name> {policy} at <number>", f"thread <name> {policy} dormant"]


def each(word: str, choices: tuple[str, ...]) -> list[str]:
    return [f"{word} {choice}" for choice in choices]


_TABLE: list[tuple[Stage, Role, list[str]]] = [
    (Stage.FIRST, Role.BODY, threads(FIFO)[:1]),
    (Stage.FIRST, Role.STEP, ["run <ticks>"]),
    (Stage.FIRST, Role.CLOSE, ["end"]),
    (Stage.LANGUAGE, Role.QUANTUM, ["quantum <ticks>"]),
    (Stage.LANGUAGE, Role.BODY, threads(FIFO)[1:] + ["handler <name>", "cleanup <name>"]),
    (Stage.LANGUAGE, Role.STEP, ["yield", "set <number>", "add <number>", "take"]),
    (Stage.LANGUAGE, Role.BLOCK, each("if", RESULTS) + each("unless", RESULTS) + ["loop <times>", "forever"]),
    (Stage.THREADS, Role.BODY, threads(RR)),
    (Stage.THREADS, Role.STEP, [
        "create <thread>", "setprio <thread> <priority>", f"setsched <thread> {FIFO}", f"setsched <thread> {RR}"]),
    (Stage.SERVERS, Role.BODY, threads(SERVER)),
    (Stage.SERVERS, Role.STEP, [f"setsched <thread> {SERVER}", "nanosleep <number>", "gettime"]),
    (Stage.MUTEXES, Role.DECLARATION, [
        f"mutex <name> {protocol}{last}"
        for protocol in ("none", "inherit", "protect <priority>") for last in ("", " recursive")]),
    (Stage.MUTEXES, Role.STEP, ["lock <mutex>", "trylock <mutex>", "unlock <mutex>"]),
    (Stage.SEMAPHORES, Role.DECLARATION, ["sem <name> <count>"]),
    (Stage.SEMAPHORES, Role.STEP, [
        "timedlock <mutex> <operand>",
        "sem_wait <sem>", "sem_timedwait <sem> <operand>", "sem_trywait <sem>", "sem_getvalue <sem>", "sem_post <sem>",
        "clock_nanosleep <operand>"]),
    (Stage.WAITING, Role.DECLARATION, ["cond <name>"]),
    (Stage.WAITING, Role.STEP, [
        "wait <cond> <mutex>", "timedwait <cond> <mutex> <operand>", "signal <cond>", "broadcast <cond>"]),
    (Stage.LIVES, Role.STEP, [
        "cancel <thread>", "testcancel", "setcancel enable", "setcancel disable", "exit <operand>", "join <thread>"]),
    (Stage.LIVES, Role.BLOCK, ["push <cleanup>"]),
    (Stage.LIVES, Role.CLOSE, ["pop 0", "pop 1"]),
    (Stage.SIGNALS, Role.DECLARATION, ["action <sig> ignore", "action <sig> run <handler>"]),
    (Stage.SIGNALS, Role.STEP, [
        "kill <sig>", "tkill <thread> <sig>", "sigqueue <sig> <operand>",
        "sigmask block <set>", "sigmask unblock <set>", "sigmask set <set>",
        "sigwaitinfo <set>", "sigtimedwait <set> <number>"]),
    (Stage.TIMERS, Role.DECLARATION, ["timer <name> <sig> <number>"]),
    (Stage.TIMERS, Role.STEP, [
        "timer_settime <timer> rel <number> <number>", "timer_settime <timer> abs <operand> <number>",
        "timer_gettime <timer>", "timer_getoverrun <timer>"]),
    (Stage.QUEUES, Role.DECLARATION, ["queue <name> <depth> <greatest>", "queue <name> <depth> <greatest> nonblock"]),
    (Stage.QUEUES, Role.STEP, [
        "mq_send <queue> <length> <urgency> <operand>", "mq_timedsend <queue> <length> <urgency> <operand> <operand>",
        "mq_receive <queue>", "mq_timedreceive <queue> <operand>", "mq_notify <queue> <sig> <operand>"]),
    (Stage.CLOCK, Role.DECLARATION, [f"timer <name> <sig> <number> {REAL}"]),
    (Stage.CLOCK, Role.STEP, ["clock_settime <operand>", "real_gettime", *[f"{wait} {REAL}" for wait in ABSOLUTE_WAITS]]),
    (Stage.WHOLE, Role.BODY, threads(STRICT)),
    (Stage.WHOLE, Role.STEP, [f"setsched <thread> {STRICT}"]),
]

FORMS: list[Form] = [
    Form(role, stage, tuple(text.split())) for stage, role, texts in _TABLE for text in texts]

BARRED_FROM_HANDLERS_AND_CLEANUPS = frozenset((
    "lock", "timedlock", "join", "testcancel", "push", "exit", "wait", "timedwait", "sem_wait", "sem_timedwait",
    "nanosleep", "clock_nanosleep", "mq_send", "mq_timedsend", "mq_receive", "mq_timedreceive",
    "sigwaitinfo", "sigtimedwait"))
BARRED_FROM_HANDLERS = frozenset(("sigmask",))


@lru_cache(maxsize=None)
def built_forms(stage: Stage, version: int = 1) -> dict[str, tuple[Form, ...]]:
    """The forms of a version that are known at a stage, by their first word."""
    found: dict[str, tuple[Form, ...]] = {}
    for form in FORMS:
        if form.stage <= stage and form.version <= version:
            found[form.head] = found.get(form.head, ()) + (form,)
    return found
