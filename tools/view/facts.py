"""The reader of facts: the lines of `pse52 detail` that stand behind those of the trace. docs/FACTS.md says what each is.

A fact is told where it changes, and holds up to its next line. Before its first line it is what it is at the opening: all
threads dormant, the semaphores at their declared values, and all others empty.
"""
from __future__ import annotations

from bisect import bisect_right
from collections import defaultdict
from collections.abc import Iterable
from typing import NamedTuple


class Fact(NamedTuple):
    """A line of a fact: its time, its word, whose it is, what it says, and how many events stand before it."""

    time: int
    word: str
    subject: str
    values: tuple[str, ...]
    after: int


class ThreadFact(NamedTuple):
    """What the fact `thread` says: the state, the assigned and the execution priority, the call in which the thread is blocked,
    what it waits for, which is empty for a sleep, and the due tick of its time limit."""

    state: str
    assigned: int = 0
    execution: int = 0
    call: str = ""
    what: str = ""
    until: int | None = None

    @property
    def is_ready(self) -> bool:
        return self.state == "ready"

    @property
    def is_blocked(self) -> bool:
        return self.state == "blocked"

    @property
    def is_live(self) -> bool:
        return self.is_ready or self.is_blocked


DORMANT = ThreadFact("dormant")

# How many words each fact may have behind its subject: at least and at most.
FORMS: dict[str, tuple[int, int]] = {
    "list": (0, 256), "thread": (1, 7), "frames": (0, 2), "mask": (0, 1), "cancelability": (0, 3), "cleanups": (0, 16),
    "pending": (0, 80_000), "mutex": (0, 2), "waiters": (0, 256), "sem": (1, 1), "messages": (0, 128), "senders": (0, 256),
    "receivers": (0, 256), "notify": (0, 2), "timer": (0, 2), "signal": (0, 1_000)}


class WrongFact(Exception):
    """Why a line is no fact."""


def fact_of(time: int, words: list[str], after: int) -> Fact:
    """The fact of a line: `words` are all its words, the time first. Raises WrongFact."""
    if len(words) < 3:
        raise WrongFact(f"'{words[1]}' names nothing")
    word, subject, *values = words[1:]
    least, most = FORMS[word]
    if not least <= len(values) <= most or not all(words):
        raise WrongFact(f"'{word}' has other words")
    if word == "thread":
        thread_fact_of(values)
    return Fact(time, word, subject, tuple(values), after)


def thread_fact_of(values: Iterable[str]) -> ThreadFact:
    """What the words of a fact `thread` behind its name say. Raises WrongFact."""
    match list(values):
        case ["dormant" | "ended" as state]:
            return ThreadFact(state)
        case ["ready", assigned, execution]:
            return ThreadFact("ready", _number(assigned), _number(execution))
        case ["blocked", assigned, execution, call, *what, "until", due] if len(what) <= 1:
            return ThreadFact("blocked", _number(assigned), _number(execution), call, "".join(what), _number(due))
        case ["blocked", assigned, execution, call, *what] if len(what) <= 1:
            return ThreadFact("blocked", _number(assigned), _number(execution), call, "".join(what))
    raise WrongFact("a thread is dormant, ended, ready at two priorities, or blocked in a call")


def _number(word: str) -> int:
    if word.isascii() and word.isdigit():
        return int(word)
    raise WrongFact(f"'{word}' is no number")


Value = tuple[str, ...]


class Facts:
    """All facts of a detail: of each the times at which it changes, rising, and what it says from there on."""

    def __init__(self, facts: Iterable[Fact]) -> None:
        self._times: dict[tuple[str, str], list[int]] = defaultdict(list)
        self._values: dict[tuple[str, str], list[Value]] = defaultdict(list)
        for fact in facts:
            key = fact.word, fact.subject
            self._times[key].append(fact.time)
            self._values[key].append(fact.values)

    def subjects(self, word: str) -> list[str]:
        """Whose facts of this word are told, in the order in which they first are."""
        return [subject for kind, subject in self._times if kind == word]

    def changes(self, word: str, subject: str) -> list[tuple[int, Value]]:
        """When the fact changes, and what it says from there on."""
        key = word, subject
        return list(zip(self._times.get(key, ()), self._values.get(key, ())))

    def at(self, word: str, subject: str, time: int) -> Value | None:
        """What the fact says at an instant; None where it has not been told by then."""
        key = word, subject
        place = bisect_right(self._times.get(key, ()), time) - 1
        return self._values[key][place] if place >= 0 else None

    def stretches(self, word: str, subject: str, end: int) -> list[tuple[int, int, Value]]:
        """From where up to where the fact says what, from its first line up to `end`."""
        changes = self.changes(word, subject)
        times = [time for time, _ in changes[1:]] + [end]
        return [(start, stop, value) for (start, value), stop in zip(changes, times) if stop > start]

    def thread(self, name: str) -> list[tuple[int, ThreadFact]]:
        """When the state of a thread changes, and what it is from there on."""
        return [(time, thread_fact_of(values)) for time, values in self.changes("thread", name)]

    def thread_at(self, name: str, time: int) -> ThreadFact:
        values = self.at("thread", name, time)
        return DORMANT if values is None else thread_fact_of(values)
