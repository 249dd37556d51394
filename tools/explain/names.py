"""The faults of names, of ranges and of limits."""
from __future__ import annotations

from forms import SERVER_WORDS, USES, ObjectKind
from reader import GREATEST_LIMIT, Entry, Fault, FaultKind
from words import is_signal

from .found import Aside, Found, Word
from .lines import declared_word, number_fault, used_words
from .patterns import SERVER, nearest, pattern_of

KINDS = {ObjectKind.THREAD: "a thread", ObjectKind.HANDLER: "a signal handler", ObjectKind.CLEANUP: "a cleanup handler",
         ObjectKind.MUTEX: "a mutex", ObjectKind.COND: "a condition", ObjectKind.SEM: "a semaphore", ObjectKind.QUEUE: "a queue",
         ObjectKind.TIMER: "a timer"}
DECLARATIONS = {ObjectKind.THREAD: "thread {} fifo 5 dormant", ObjectKind.HANDLER: "handler {}", ObjectKind.CLEANUP: "cleanup {}",
                ObjectKind.MUTEX: "mutex {} inherit", ObjectKind.COND: "cond {}", ObjectKind.SEM: "sem {} 0",
                ObjectKind.QUEUE: "queue {} 8 64", ObjectKind.TIMER: "timer {} rt0 0"}


def explained(fault: Fault, entries: list[Entry], guessed: list[Entry], words: list[Word]) -> Found | None:
    """What is told of a fault of names, ranges or limits. A name that only a faulty line declares is not told as unknown."""
    entry = next((entry for entry in entries if entry.line == fault.line), None)
    match fault.kind:
        case FaultKind.DuplicateName:
            return _twice(entry, entries, words)
        case FaultKind.UnknownName:
            return _unknown(entry, entries, guessed, words)
        case FaultKind.WrongKind:
            return _wrong_kind(entry, entries, words)
        case FaultKind.NumberRange:
            word, wrong = number_fault(entry, words)
            return Found(3, entry.line, fault.kind, word, wrong, "choose a number in it")
        case FaultKind.ServerRange:
            return _server(entry, words)
        case FaultKind.TooMany:
            return _too_many(entry, entries, words)
        case _:
            return Found(3, fault.line, fault.kind, None, "no thread is declared", "declare one: `thread NAME fifo P at N`, and its `end`")


def _first_of(entries: list[Entry]) -> dict[str, Entry]:
    """Each name with the line that declares it first."""
    found: dict[str, Entry] = {}
    for entry in entries:
        if entry.form.declares and entry.operands[0]:
            found.setdefault(entry.operands[0], entry)
    return found


def _twice(entry: Entry, entries: list[Entry], words: list[Word]) -> Found:
    word = declared_word(entry, words)
    if entry.form.head == "action":
        first = next(other for other in entries if other.form.head == "action" and other.operands[0] == word.text)
        return Found(2, entry.line, FaultKind.DuplicateName, word, f"`{word.text}` has an action",
                     "what a signal does is said once for the whole run: remove one line", (Aside(first.line, "said here first"),))
    first = _first_of(entries)[word.text]
    return Found(2, entry.line, FaultKind.DuplicateName, word, f"`{word.text}` is declared twice",
                 "rename one: threads, handlers and objects share one space of names", (Aside(first.line, "declared here first"),))


def _unknown(entry: Entry, entries: list[Entry], guessed: list[Entry], words: list[Word]) -> Found | None:
    known, meant = _first_of(entries), _first_of(guessed)
    for place, word in used_words(entry, words):
        if place in USES and word.text not in known and word.text not in meant:
            kind = USES[place]
            near = nearest(word.text, [name for name, other in known.items() if other.form.declares is kind])
            declare = f"declare it outside of bodies: `{DECLARATIONS[kind].format(word.text)}`"
            if kind is ObjectKind.COND and is_signal(word.text):
                declare = f"a signal is sent by `kill {word.text}` or `tkill T {word.text}`, and `signal` wakes who waits for a condition"
            return Found(2, entry.line, FaultKind.UnknownName, word, f"no line declares `{word.text}`, {KINDS[kind]}",
                         f"did you mean `{near}`? Else {declare}" if near else declare)
    return None


def _wrong_kind(entry: Entry, entries: list[Entry], words: list[Word]) -> Found:
    known = _first_of(entries)
    for place, word in used_words(entry, words):
        if place in USES and word.text in known and known[word.text].form.declares is not USES[place]:
            first = known[word.text]
            return Found(2, entry.line, FaultKind.WrongKind, word,
                         f"`{word.text}` is {KINDS[first.form.declares]}, and {KINDS[USES[place]]} belongs here",
                         f"use a name of that kind (the pattern is `{pattern_of(entry.form)}`)", (Aside(first.line, "declared here"),))
    raise AssertionError(entry)


def _server(entry: Entry, words: list[Word]) -> Found:
    """Which parameters of a sporadic server do not fit one another."""
    at = next(at for at, word in enumerate(entry.form.words) if word in SERVER_WORDS) + 1
    high, low, period, budget, limit = words[at:at + 5]
    values = [int(word.text) for word in (high, low, period, budget, limit)]
    if values[1] >= values[0]:
        word, wrong, mend = low, f"the low priority {low.text} is not below the high one, {high.text}", "choose a lower one"
    elif values[3] < 1:
        word, wrong, mend = budget, "the budget is 0", "a budget is from 1 to the period"
    elif values[3] > values[2]:
        word, wrong, mend = budget, f"the budget {budget.text} is above the period, {period.text}", "a budget is from 1 to the period"
    else:
        word, wrong, mend = limit, f"{limit.text} replenishments may not be pending", f"at most {GREATEST_LIMIT}, and at least 1"
    order = ", ".join(name.removeprefix("the ") for name in SERVER)
    return Found(3, entry.line, FaultKind.ServerRange, word, wrong, f"{mend} (the five numbers: {order})")


def _too_many(entry: Entry, entries: list[Entry], words: list[Word]) -> Found:
    head = entry.form.head
    if head == "quantum":
        first = next(other for other in entries if other.form.head == "quantum")
        return Found(3, entry.line, FaultKind.TooMany, words[0], "the quantum is said twice", "remove one line",
                     (Aside(first.line, "said here first"),))
    return Found(3, entry.line, FaultKind.TooMany, words[0], f"this `{head}` is one more than a script may have, or lies too deep",
                 "docs/SCRIPT.md, Limits, says how many there may be")

