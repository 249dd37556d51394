"""The reader of trace lines, and of the facts between them. docs/TRACE.md and docs/FACTS.md
say what each line is; this reader takes exactly those.

Each line becomes one event: a named tuple with its time first. The closing lines become `End` and `Closing`. The facts of a
detail are kept beside the events. Nothing here knows of pictures, so that whatever reads traces can stand on it.
"""
from __future__ import annotations

import re
from collections.abc import Callable, Iterable
from typing import BinaryIO, NamedTuple

from .facts import FORMS as FACT_FORMS
from .facts import Fact, WrongFact, fact_of

GREATEST_TIME = 10**18
GREATEST_DUE = 2 * 10**18
GREATEST_VALUE = 2**64 - 1
LONGEST_LINE = 256
# So many lines take 0.9 to 3.8 GB of memory, by what is made of them: 350 to 1,500 bytes a line.
MOST_LINES = 2_500_000
PART = 1 << 20

RESULTS = frozenset((
    "0", "EAGAIN", "EBUSY", "EDEADLK", "EINTR", "EINVAL", "EMSGSIZE", "EOVERFLOW", "EPERM", "ESRCH", "ETIMEDOUT"))
CODES = frozenset(("USER", "QUEUE", "TIMER", "MESGQ"))
SIGNALS = frozenset(f"rt{number}" for number in range(32))
CALLS = frozenset((
    "yield", "create", "join", "exit", "cancel", "testcancel", "setcancel", "push", "pop", "setprio", "setsched",
    "lock", "timedlock", "trylock", "unlock", "wait", "timedwait", "signal", "broadcast",
    "sem_wait", "sem_timedwait", "sem_trywait", "sem_getvalue", "sem_post",
    "nanosleep", "clock_nanosleep", "gettime", "clock_settime", "real_gettime",
    "timer_settime", "timer_gettime", "timer_getoverrun",
    "kill", "tkill", "sigqueue", "sigmask", "sigwaitinfo", "sigtimedwait",
    "mq_send", "mq_timedsend", "mq_receive", "mq_timedreceive", "mq_notify"))


class Dispatch(NamedTuple):
    time: int
    name: str
    priority: int


class Idle(NamedTuple):
    time: int


class Start(NamedTuple):
    time: int
    name: str


class Exit(NamedTuple):
    time: int
    name: str


class Return(NamedTuple):
    time: int
    name: str
    call: str
    result: str
    value: int


class Cancel(NamedTuple):
    time: int
    name: str


class Deliver(NamedTuple):
    time: int
    name: str
    signal: str
    code: str
    value: int


class Killed(NamedTuple):
    time: int
    signal: str


class Activate(NamedTuple):
    time: int
    name: str
    capacity: int


class Exhaust(NamedTuple):
    time: int
    name: str


class Plan(NamedTuple):
    time: int
    name: str
    amount: int
    due: int


class Refill(NamedTuple):
    time: int
    name: str
    amount: int
    capacity: int


class End(NamedTuple):
    time: int


class Budget(NamedTuple):
    """What the closing line of a live sporadic thread says of its server, in ticks."""

    high: int
    init: int
    refilled: int
    capacity: int


class Closing(NamedTuple):
    """A closing line: the ticks of a thread, and its budget where the line has one."""

    name: str
    ticks: int
    budget: Budget | None


Event = (Dispatch | Idle | Start | Exit | Return | Cancel | Deliver | Killed | Activate | Exhaust | Plan | Refill
         | End | Closing)


class NotATraceLine(Exception):
    """A line that no trace has at its place: its number, from 1, its text, and why it is refused."""

    def __init__(self, number: int, text: str, why: str) -> None:
        super().__init__(number, text, why)
        self.number, self.text, self.why = number, text, why

    def __str__(self) -> str:
        return f"line {self.number} is no trace line, since {self.why}" + (f": {self.text}" if self.text else "")


class TooManyLines(Exception):
    """There are more lines than are read."""

    def __str__(self) -> str:
        return f"the run has more than {MOST_LINES} lines, and no more are read; take a nearer horizon"


class _Wrong(Exception):
    """Why a line is none."""


class Trace(NamedTuple):
    """The events of a trace, and the line of each: `lines[i]` is the text of `events[i]`. A detail has facts beside them."""

    events: list[Event]
    lines: list[str]
    facts: list[Fact] = []


_NAME = re.compile(r"[a-z][a-z0-9_]{0,31}")


class _Words:
    """Reads words of a line, and remembers the names that it has checked and the time that it has read."""

    def __init__(self) -> None:
        self._names: set[str] = set()
        self._time_word, self._time = "0", 0

    def time(self, word: str) -> int:
        if word != self._time_word:
            self._time_word, self._time = word, _number(word, GREATEST_TIME, "time")
        return self._time

    def name(self, word: str) -> str:
        if word not in self._names:
            if not _NAME.fullmatch(word):
                raise _Wrong(f"'{word}' is no name")
            self._names.add(word)
        return word


def _number(word: str, most: int, what: str, least: int = 0) -> int:
    if word.isdigit() and word.isascii() and (word[0] != "0" or word == "0") and len(word) <= 20:
        number = int(word)
        if least <= number <= most:
            return number
    raise _Wrong(f"'{word}' is no {what}")


def _one_of(word: str, words: frozenset[str], what: str) -> str:
    if word not in words:
        raise _Wrong(f"'{word}' is no {what}")
    return word


Maker = Callable[[int, list[str], _Words], Event]


# The form of each kind of line: how many words it has, and its event. `w` has all words, the time and the kind first.
_FORMS: dict[str, tuple[int, Maker]] = {
    "dispatch": (4, lambda t, w, of: Dispatch(t, of.name(w[2]), _number(w[3], 255, "priority", 1))),
    "idle": (2, lambda t, w, of: Idle(t)),
    "start": (3, lambda t, w, of: Start(t, of.name(w[2]))),
    "exit": (3, lambda t, w, of: Exit(t, of.name(w[2]))),
    "return": (6, lambda t, w, of: Return(
        t, of.name(w[2]), _one_of(w[3], CALLS, "call"), _one_of(w[4], RESULTS, "result"),
        _number(w[5], GREATEST_VALUE, "value"))),
    "cancel": (3, lambda t, w, of: Cancel(t, of.name(w[2]))),
    "deliver": (6, lambda t, w, of: Deliver(
        t, of.name(w[2]), _one_of(w[3], SIGNALS, "signal"), _one_of(w[4], CODES, "code"),
        _number(w[5], GREATEST_VALUE, "value"))),
    "killed": (3, lambda t, w, of: Killed(t, _one_of(w[2], SIGNALS, "signal"))),
    "activate": (4, lambda t, w, of: Activate(t, of.name(w[2]), _number(w[3], GREATEST_TIME, "capacity"))),
    "exhaust": (3, lambda t, w, of: Exhaust(t, of.name(w[2]))),
    "plan": (5, lambda t, w, of: Plan(
        t, of.name(w[2]), _number(w[3], GREATEST_TIME, "amount", 1), _number(w[4], GREATEST_DUE, "due tick"))),
    "refill": (5, lambda t, w, of: Refill(
        t, of.name(w[2]), _number(w[3], GREATEST_TIME, "amount", 1), _number(w[4], GREATEST_TIME, "capacity"))),
    "end": (2, lambda t, w, of: End(t)),
}


def _event_of(words: list[str], of: _Words) -> Event:
    form = _FORMS.get(words[1]) if len(words) > 1 else None
    if form is None:
        raise _Wrong("no event has this word")
    count, make = form
    if len(words) != count:
        raise _Wrong(f"'{words[1]}' has {count} words")
    return make(of.time(words[0]), words, of)


def _closing_of(words: list[str], of: _Words) -> Closing:
    if len(words) not in (4, 12) or words[2] != "ticks":
        raise _Wrong("no closing line has these words")
    name, ticks = of.name(words[1]), _number(words[3], GREATEST_TIME, "number of ticks")
    if len(words) == 4:
        return Closing(name, ticks, None)
    if words[4::2] != ["high", "init", "refilled", "capacity"]:
        raise _Wrong("no closing line has these words")
    return Closing(name, ticks, Budget(*(_number(word, GREATEST_VALUE, "number of ticks") for word in words[5::2])))


# Lines that were read, without their times: the kind of their event and what else it has. A trace says most of them many times.
_KNOWN: dict[str, tuple[type[Event], tuple[object, ...]]] = {}
MOST_KNOWN = 10_000


class _Reader:
    """Reads lines one after another, and knows what may come next."""

    def __init__(self) -> None:
        self._of = _Words()
        self._time = 0
        self._ended = False
        self._killed = False
        self._closed: set[str] = set()

    def event(self, text: str, after: int) -> Event | Fact:
        """The event of a line, or its fact; `after` events stand before it."""
        word, _, rest = text.partition(" ")
        known = _KNOWN.get(rest)
        if known is not None and not (self._ended or self._killed):
            time = self._of.time(word)
            if time >= self._time:
                self._time = time
                return tuple.__new__(known[0], (time, *known[1]))
        if rest.partition(" ")[0] in FACT_FORMS:
            return self._fact(text.split(" "), after)
        return self._first(text, rest)

    def _fact(self, words: list[str], after: int) -> Fact:
        """A fact stands behind the lines of its instant, and before those of a later one."""
        time = self._of.time(words[0])
        if self._ended or self._killed or time < self._time:
            raise _Wrong("no fact stands here")
        self._time = time
        try:
            return fact_of(time, words, after)
        except WrongFact as wrong:
            raise _Wrong(str(wrong)) from None

    def _first(self, text: str, rest: str) -> Event:
        """Reads a line that is not known yet, or that may not come here."""
        if len(text) > LONGEST_LINE:
            raise _Wrong(f"it has more than {LONGEST_LINE} bytes")
        words = text.split(" ")
        if words[0] == "refused":
            raise _Wrong("it says that the script is refused: mend the script first")
        if text.endswith("\r"):
            raise _Wrong("it has a Windows line end")
        if not text:
            raise _Wrong("it is empty")
        if words[0] == "thread":
            return self._closing(words)
        event = _event_of(words, self._of)
        time = event[0]
        if self._ended:
            raise _Wrong("the run is over")
        if self._killed and not isinstance(event, End):
            raise _Wrong("the process was killed")
        if time < self._time:
            raise _Wrong(f"its time is before {self._time}, the time of the line above")
        self._time = time
        self._ended = isinstance(event, End)
        self._killed = isinstance(event, Killed)
        if not (self._ended or self._killed) and len(_KNOWN) < MOST_KNOWN:
            _KNOWN[rest] = type(event), event[1:]
        return event

    def _closing(self, words: list[str]) -> Closing:
        closing = _closing_of(words, self._of)
        if not self._ended:
            raise _Wrong("no 'end' stands before it")
        if closing.name in self._closed:
            raise _Wrong(f"'{closing.name}' has a closing line")
        self._closed.add(closing.name)
        return closing


def read_trace(lines: Iterable[bytes], tell: Callable[[int, int], None] | None = None) -> Trace:
    """Reads a whole trace or detail, or its beginning where a write failed. `tell` hears the lines and bytes read, now and then.

    Raises NotATraceLine for the first line that no trace has at its place, and for a text without a line, and TooManyLines.
    """
    reader, events, texts, size = _Reader(), [], [], 0
    facts: list[Fact] = []
    for number, line in enumerate(lines, 1):
        if number > MOST_LINES:
            raise TooManyLines
        text = line.rstrip(b"\n").decode("ascii", "backslashreplace")
        try:
            event = reader.event(text, len(events))
        except _Wrong as wrong:
            raise NotATraceLine(number, shown(text), str(wrong)) from None
        if type(event) is Fact:
            facts.append(event)
        else:
            events.append(event)
            texts.append(text)
        size += len(line)
        if tell is not None and number % 20_000 == 0:
            tell(number, size)
    if not events:
        raise NotATraceLine(1, "", "the text is empty")
    return Trace(events, texts, facts)


def written_by(program: BinaryIO) -> bytes:
    """All that a program writes into a pipe. Raises TooManyLines as soon as that is more than is read."""
    parts, lines = [], 0
    while part := program.read(PART):
        parts.append(part)
        lines += part.count(b"\n")
        if lines > MOST_LINES:
            raise TooManyLines
    return b"".join(parts)


def shown(text: str) -> str:
    """A line as it can be printed: what is not printed ASCII is escaped, and a long line is cut."""
    escaped = "".join(c if " " <= c <= "~" else c.encode("unicode_escape").decode() for c in text)
    return escaped if len(escaped) <= LONGEST_LINE else escaped[:LONGEST_LINE] + " ..."
