"""From a text to its script, or to the least of its faults.

A fault is found in one of three phases: in a line by itself and in the pairing
of blocks, in the use of names, and in ranges and limits. The fault that is
answered is the least by phase, then line, then kind.
"""
from __future__ import annotations

from dataclasses import dataclass
from enum import IntEnum

from forms import (
    BARRED_FROM_HANDLERS, BARRED_FROM_HANDLERS_AND_CLEANUPS, DECLARED, OPERAND, RANGES, REAL,
    SERVER_WORDS, SIGNAL, SIGNAL_SET, USES, Form, ObjectKind, Role, Stage, built_forms, is_place)
from script import (
    Action, AddRegister, Block, Call, CleanupKind, CondKind, Fifo, Guard, HandlerKind, Kind, Loop,
    MutexKind, Named, Operand, Policy, QueueKind, Res, Rr, Run, Script, SemKind, SetRegister, Sporadic, Step,
    Strict, TakeValue, Test, ThreadKind, TimerKind)
from words import has_bad_byte, is_name, is_number, is_signal, lines_of, number_of, signals_of, words_of

GREATEST_DEPTH = 16
GREATEST_PUSHES = 8
GREATEST_STEPS = 65_536
GREATEST_LIMIT = 16
_BODIES = "handlers and cleanups"
_GROUPS: dict[ObjectKind, str] = {
    kind: _BODIES if kind in (ObjectKind.HANDLER, ObjectKind.CLEANUP) else kind.value for kind in ObjectKind}
LIMITS: dict[str, int] = {"thread": 64, "mutex": 64, "cond": 64, "sem": 64, "queue": 16, "timer": 32, _BODIES: 64}
LIMITS_OF_VERSION: dict[int, dict[str, int]] = {
    1: LIMITS, 2: LIMITS | dict.fromkeys(("thread", "mutex", "cond", "sem"), 256)}


class FaultKind(IntEnum):
    BadByte = 1
    UnknownWord = 2
    WordCount = 3
    BadNumber = 4
    NumberRange = 5
    BadName = 6
    DuplicateName = 7
    UnknownName = 8
    WrongKind = 9
    NotHere = 10
    StrayClose = 11
    Unclosed = 12
    TooMany = 13
    NoThread = 14
    ServerRange = 15
    BadVersion = 16


@dataclass(frozen=True, order=True)
class Fault:
    phase: int
    line: int
    kind: FaultKind


@dataclass(frozen=True)
class Entry:
    """A line that has a form: its number, the form, and the words at the form's places."""

    line: int
    form: Form
    operands: tuple[str, ...]

    def numbers(self) -> list[tuple[str, int]]:
        """The numbers of the line with their places, in order."""
        return [(place, number_of(word)) for place, word in zip(self.form.places, self.operands)
                if place in RANGES and word != "reg"]

    def declared(self) -> str | None:
        return self.operands[0] if self.form.declares else None

    def used(self) -> list[tuple[str, ObjectKind]]:
        return [(word, USES[place]) for place, word in zip(self.form.places, self.operands) if place in USES]


def read(text: bytes, built: Stage = Stage.WHOLE) -> tuple[Script | None, Fault | None]:
    """The script of the text, or its least fault."""
    lines = lines_of(text)
    heading = heading_of(lines) if built >= Stage.WHOLE else Heading()
    entries, fault = read_lines(lines, built, heading)
    if fault is None:
        faults = name_faults(entries) or limit_faults(entries, len(lines), LIMITS_OF_VERSION[heading.version])
        fault = min(faults, default=None)
    if fault is None:
        return ScriptBuilder(entries).script(heading.version), None
    return None, Fault(1, 1, FaultKind.UnknownWord) if built is Stage.FIRST else fault


@dataclass(frozen=True)
class Heading:
    """The version of a text, and the line that says it; version 0 is none that there is."""

    version: int = 1
    line: int | None = None


def heading_of(lines: list[bytes]) -> Heading:
    """What the first line with words says of the version."""
    for number, line in enumerate(lines, 1):
        words = words_of(line)
        if words:
            if words[0] != "version":
                break
            return Heading(2 if words == ["version", "2"] else 0, number)
    return Heading()


# Phase 1: each line by itself, and the pairing of blocks


def read_lines(lines: list[bytes], built: Stage, heading: Heading) -> tuple[list[Entry], Fault | None]:
    """The entries of all lines with words but the heading, or the fault of the first line that has one."""
    entries: list[Entry] = []
    blocks: list[str] = []
    forms = built_forms(built, heading.version)
    for number, line in enumerate(lines, 1):
        if number == heading.line and heading.version == 0:
            return entries, Fault(1, number, FaultKind.BadVersion)
        if has_bad_byte(line):
            return entries, Fault(1, number, FaultKind.BadByte)
        words = words_of(line)
        if not words or number == heading.line:
            continue
        entry, kind = read_line(number, words, forms)
        kind = kind or place_fault(entry.form, blocks)
        if kind:
            return entries, Fault(1, number, kind)
        entries.append(entry)
        open_or_close(entry.form, blocks)
    return entries, Fault(1, len(lines) + 1, FaultKind.Unclosed) if blocks else None


def read_line(number: int, words: list[str], forms: dict[str, tuple[Form, ...]]) -> tuple[Entry | None, FaultKind | None]:
    """The entry of one line with words, or the least fault of the line by itself."""
    agreeing = [form for form in forms.get(words[0], ()) if form.agrees(words)]
    if not agreeing:
        return None, FaultKind.UnknownWord
    fitting = [form for form in agreeing if len(form.words) == len(words)]
    if not fitting:
        return None, FaultKind.WordCount
    form, = fitting
    operands = tuple(have for want, have in zip(form.words, words) if is_place(want))
    faults = [operand_fault(place, word) for place, word in zip(form.places, operands)]
    return Entry(number, form, operands), min(filter(None, faults), default=None)


def operand_fault(place: str, word: str) -> FaultKind | None:
    """The fault of a word that is not what its place asks for."""
    if place in RANGES:
        fits = is_number(word) or (place == OPERAND and word == "reg")
        return None if fits else FaultKind.BadNumber
    if place == SIGNAL:
        fits = is_signal(word)
    elif place == SIGNAL_SET:
        fits = signals_of(word) is not None
    else:
        fits = is_name(word)
    return None if fits else FaultKind.BadName


def place_fault(form: Form, blocks: list[str]) -> FaultKind | None:
    """The fault of a line of this form where the given blocks are open, the body first."""
    match form.role:
        case Role.QUANTUM | Role.DECLARATION | Role.BODY:
            return FaultKind.NotHere if blocks else None
        case Role.CLOSE:
            closes_push = form.head == "pop"
            fits = blocks and (blocks[-1] == "push") == closes_push
            return None if fits else FaultKind.StrayClose
        case _:
            return FaultKind.NotHere if not blocks or is_barred(form.head, blocks[0]) else None


def is_barred(word: str, body: str) -> bool:
    """Whether a step may not stand in a body of that kind."""
    if body == "handler" and word in BARRED_FROM_HANDLERS:
        return True
    return body in ("handler", "cleanup") and word in BARRED_FROM_HANDLERS_AND_CLEANUPS


def open_or_close(form: Form, blocks: list[str]) -> None:
    if form.role in (Role.BODY, Role.BLOCK):
        blocks.append(form.head)
    elif form.role is Role.CLOSE:
        blocks.pop()


# Phase 2: names


def name_faults(entries: list[Entry]) -> list[Fault]:
    """All faults of names. A name that is declared twice has the kind of its first declaration."""
    kinds: dict[str, ObjectKind] = {}
    signals: set[str] = set()
    faults: list[Fault] = []
    for entry in entries:
        name = entry.declared()
        if name is not None and name in kinds or entry.form.head == "action" and entry.operands[0] in signals:
            faults.append(Fault(2, entry.line, FaultKind.DuplicateName))
        if name is not None:
            kinds.setdefault(name, entry.form.declares)
        if entry.form.head == "action":
            signals.add(entry.operands[0])
    for entry in entries:
        for name, kind in entry.used():
            if name not in kinds:
                faults.append(Fault(2, entry.line, FaultKind.UnknownName))
            elif kinds[name] is not kind:
                faults.append(Fault(2, entry.line, FaultKind.WrongKind))
    return faults


# Phase 3: ranges and limits


def limit_faults(entries: list[Entry], count_of_lines: int, limits: dict[str, int]) -> list[Fault]:
    """All faults of ranges and limits."""
    faults: list[Fault] = []
    for entry in entries:
        if any(not RANGES[place][0] <= value <= RANGES[place][1] for place, value in entry.numbers()):
            faults.append(Fault(3, entry.line, FaultKind.NumberRange))
        if any(word in entry.form.words for word in SERVER_WORDS) and not is_server(entry):
            faults.append(Fault(3, entry.line, FaultKind.ServerRange))
    faults += [Fault(3, line, FaultKind.TooMany) for line in lines_above_limits(entries, limits)]
    if not any(entry.form.head == "thread" for entry in entries):
        faults.append(Fault(3, count_of_lines + 1, FaultKind.NoThread))
    return faults


def is_server(entry: Entry) -> bool:
    """Whether the parameters of a server fit one another."""
    high, low, period, budget, limit = [value for _, value in entry.numbers()][:5]
    return 1 <= budget <= period and 1 <= limit <= GREATEST_LIMIT and low < high


def lines_above_limits(entries: list[Entry], limits: dict[str, int]) -> list[int]:
    """The lines of declarations, steps and blocks that are one too many."""
    found: list[int] = []
    counts: dict[str, int] = {}
    blocks: list[str] = []
    for entry in entries:
        role = entry.form.role
        if role in (Role.DECLARATION, Role.BODY) and entry.form.declares:
            counted, limit = _GROUPS[entry.form.declares], limits[_GROUPS[entry.form.declares]]
        elif role is Role.QUANTUM:
            counted, limit = "quantum", 1
        elif role in (Role.STEP, Role.BLOCK):
            counted, limit = "steps", GREATEST_STEPS
        else:
            counted, limit = "others", len(entries)
        counts[counted] = counts.get(counted, 0) + 1
        too_deep = role in (Role.BODY, Role.BLOCK) and len(blocks) >= GREATEST_DEPTH
        too_guarded = entry.form.head == "push" and blocks.count("push") >= GREATEST_PUSHES
        if counts[counted] > limit or too_deep or too_guarded:
            found.append(entry.line)
        open_or_close(entry.form, blocks)
    return found


# The script of entries without a fault


class ScriptBuilder:
    """Builds the script of entries that have no fault."""

    def __init__(self, entries: list[Entry]) -> None:
        self.entries = entries
        self.numbers: dict[str, int] = {}
        counts: dict[ObjectKind, int] = {}
        for entry in entries:
            kind = entry.form.declares
            if kind is not None:
                self.numbers[entry.operands[0]] = counts.get(kind, 0)
                counts[kind] = counts.get(kind, 0) + 1

    def script(self, version: int) -> Script:
        script = Script(version)
        blocks: list[tuple[str, Block, Guard | None]] = []
        for entry in self.entries:
            role, word = entry.form.role, entry.form.head
            if role is Role.QUANTUM:
                script.quantum = number_of(entry.operands[0])
            elif role in (Role.DECLARATION, Role.BODY):
                body: Block = []
                script.declarations.append(self.declaration(entry, body))
                if role is Role.BODY:
                    blocks.append((word, body, None))
            elif role is Role.CLOSE:
                _, _, guard = blocks.pop()
                if guard is not None:
                    guard.pop = self.call(entry)
            else:
                body = []
                step = self.step(entry, body)
                blocks[-1][1].append(step)
                if role is Role.BLOCK:
                    blocks.append((word, body, step if isinstance(step, Guard) else None))
        return script

    def values(self, entry: Entry) -> tuple:
        """The operands as values: names used as numbers of objects, a name declared as itself."""
        return tuple(self.value(place, word) for place, word in zip(entry.form.places, entry.operands))

    def value(self, place: str, word: str):
        if place == DECLARED:
            return word
        if place in USES:
            return self.numbers[word]
        if place == SIGNAL:
            return int(word[2:])
        if place == SIGNAL_SET:
            return signals_of(word)
        if place == OPERAND:
            return Operand(None if word == "reg" else number_of(word))
        return number_of(word)

    def declaration(self, entry: Entry, body: Block) -> Named | Action:
        values = self.values(entry)
        if entry.form.head == "action":
            return Action(values[0], values[1] if len(values) == 2 else None)
        return Named(values[0], self.kind(entry, values, body))

    def kind(self, entry: Entry, values: tuple, body: Block) -> Kind:
        words = entry.form.words
        match entry.form.head:
            case "thread":
                start = values[-1] if words[-2] == "at" else None
                return ThreadKind(policy_of(words[2], values[1:]), start, body)
            case "handler":
                return HandlerKind(body)
            case "cleanup":
                return CleanupKind(body)
            case "mutex":
                ceiling = values[1] if words[2] == "protect" else None
                return MutexKind(words[2] == "inherit", ceiling, words[-1] == "recursive")
            case "cond":
                return CondKind()
            case "sem":
                return SemKind(values[1])
            case "queue":
                return QueueKind(values[1], values[2], words[-1] == "nonblock")
            case "timer":
                return TimerKind(values[1], values[2], words[-1] == REAL)
        raise AssertionError(entry)

    def step(self, entry: Entry, body: Block) -> Step:
        values = self.values(entry)
        match entry.form.head:
            case "run":
                return Run(values[0])
            case "set":
                return SetRegister(values[0])
            case "add":
                return AddRegister(values[0])
            case "take":
                return TakeValue()
            case "if" | "unless":
                return Test(Res(entry.form.words[1]), entry.form.head == "if", body)
            case "loop":
                return Loop(values[0], body)
            case "forever":
                return Loop(None, body)
            case "push":
                return Guard(values[0], self.call(entry), body)
        return self.call(entry)

    def call(self, entry: Entry) -> Call:
        return Call(entry.form, self.values(entry))


def policy_of(word: str, numbers: tuple) -> Policy:
    """The policy that a keyword and the numbers after it name."""
    if word in SERVER_WORDS:
        return (Sporadic if word == "sporadic" else Strict)(*numbers[:5])
    return Fifo(numbers[0]) if word == "fifo" else Rr(numbers[0])
