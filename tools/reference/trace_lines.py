"""From a line of a trace to what it says: its form, its time, its name and its numbers."""
from __future__ import annotations

import re
from dataclasses import dataclass
from functools import lru_cache

from forms import FORMS, RESULTS, Role
from state import CANCELED, SigCode

GREATEST = CANCELED
NAME = r"(?P<name>[a-z][a-z0-9_]{0,31})"
NUMBER = r"(0|[1-9][0-9]*)"
SIGNAL = r"rt(0|[1-9]|[12][0-9]|3[01])"
NO_CALLS = frozenset(("run", "set", "add", "take", "if", "unless", "loop", "forever", "end"))
CALLS = sorted({form.head for form in FORMS if form.role in (Role.STEP, Role.BLOCK, Role.CLOSE)} - NO_CALLS)
SHAPES = {
    "dispatch": f"{NAME} {NUMBER}", "idle": "", "start": NAME,
    "return": f"{NAME} (?:{'|'.join(CALLS)}) (?:{'|'.join(RESULTS)}) {NUMBER}",
    "deliver": f"{NAME} {SIGNAL} (?:{'|'.join(code.value for code in SigCode)}) {NUMBER}",
    "activate": f"{NAME} {NUMBER}", "exhaust": NAME, "plan": f"{NAME} {NUMBER} {NUMBER}",
    "refill": f"{NAME} {NUMBER} {NUMBER}", "cancel": NAME, "exit": NAME, "killed": SIGNAL, "end": ""}
BUDGET = f"high {NUMBER} init {NUMBER} refilled {NUMBER} capacity {NUMBER}"
THREAD_LINE, BUDGET_LINE = "thread", "budget"


@dataclass(frozen=True)
class TraceLine:
    """What a line says. A closing line has the form `thread`, or `budget` where it tells a server, and the time 0."""

    form: str
    time: int
    name: str
    numbers: tuple[int, ...]

    @property
    def closes(self) -> bool:
        return self.form in (THREAD_LINE, BUDGET_LINE)


@lru_cache(maxsize=None)
def shapes() -> list[tuple[str, re.Pattern[str]]]:
    timed = [(form, re.compile(f"(?P<time>{NUMBER[1:-1]}) {form}{' ' + shape if shape else ''}"))
             for form, shape in SHAPES.items()]
    plain = f"thread {NAME} ticks {NUMBER}"
    return [*timed, (THREAD_LINE, re.compile(plain)), (BUDGET_LINE, re.compile(f"{plain} {BUDGET}"))]


def read_line(line: bytes) -> TraceLine | None:
    """What a line without its line end says, or None where it is no line of a trace."""
    text = line.decode("latin-1")
    for form, shape in shapes():
        found = shape.fullmatch(text)
        if found is not None:
            named = found.groupdict()
            time = int(named.get("time") or 0)
            others = set(shape.groupindex.values())
            numbers = tuple(int(group) for place, group in enumerate(found.groups(), 1) if place not in others)
            fits = max(time, *numbers, 0) <= GREATEST
            return TraceLine(form, time, named.get("name") or "", numbers) if fits else None
    return None
