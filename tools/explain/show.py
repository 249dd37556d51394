"""Faults as they are printed."""
from __future__ import annotations

import re
from itertools import groupby

from reader import FaultKind, lines_of

from .found import Found

SHOWN = 100  # columns of a line
LONG = 64    # a word of the script that is longer is told by its beginning
QUOTES = "'`"
MANY = 3     # so many of one kind of bad byte are shown one by one; of more, the first


def shown(text: bytes, faults: list[Found]) -> str:
    """All faults, each with its line; behind them how many there are, and which of them is answered."""
    lines = lines_of(text)
    answered = min(faults, key=lambda one: one.rank)
    parts: list[str] = []
    for same, group in groupby(faults, key=lambda one: (one.kind is FaultKind.BadByte, one.wrong.rpartition(" is ")[2])):
        together = list(group)
        told = together[:1] if same[0] and len(together) > MANY else together
        parts += [_fault(fault, lines) for fault in told]
        if len(told) < len(together):
            parts.append(f"... and the same in {len(together) - 1} lines more, up to line {together[-1].line}\n")
    count = "1 fault" if len(faults) == 1 else f"{len(faults)} faults; the program answers that of line {answered.line}, {answered.kind.name}"
    return "\n".join(parts) + f"\n{count}\n"


def in_one_line_each(name: str, faults: list[Found]) -> str:
    """All faults, each in one line with the name of the file, as editors read them."""
    return "".join(f"{name}:{fault.line}:{fault.word.column if fault.word else 1}: {fault.kind.name}: {_short(fault.wrong)}"
                   f"{'; ' if fault.mend else ''}{_short(fault.mend)}\n" for fault in faults)


def _short(told: str) -> str:
    """What is told, with the beginning alone of words that are too long to read."""
    return re.sub(rf"[!-~]{{{LONG + 1},}}", lambda word: f"{word[0][:LONG - 8]}...{word[0][-1] if word[0][-1] in QUOTES else ''}", told)


def _fault(fault: Found, lines: list[bytes]) -> str:
    place = f"line {fault.line}" + (f", column {fault.word.column}" if fault.word else "")
    told = [f"{place}: {fault.kind.name}: {_short(fault.wrong)}"]
    if fault.word is not None:
        told += _line(lines, fault.line, fault.word.column, max(1, len(fault.word.text.rstrip(" "))))
    for aside in fault.asides:
        if aside.line <= len(lines):
            told += [*_line(lines, aside.line), f"      | {aside.why}"]
    if fault.mend:
        told.append(f"  fix: {_short(fault.mend)}")
    return "\n".join(told) + "\n"


def _line(lines: list[bytes], number: int, column: int = 0, width: int = 0) -> list[str]:
    """A line as it can be printed, and a mark under the word, where one is meant. A byte that cannot be seen is a point in its place."""
    text = "".join(chr(byte) if 32 <= byte <= 126 else " " if byte == 9 else "?" for byte in lines[number - 1])
    start = max(0, column - SHOWN // 2) if column > SHOWN - 10 else 0
    cut = text[start:start + SHOWN]
    found = [f"{number:5} | {cut}"]
    if column:
        found.append("      | " + " " * (column - 1 - start) + "^" * min(width, SHOWN))
    return found
