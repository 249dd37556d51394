"""All faults of a text."""
from __future__ import annotations

from dataclasses import replace

from forms import Role, Stage, built_forms
from reader import (
    LIMITS_OF_VERSION, Entry, Fault, FaultKind, heading_of, limit_faults, lines_above_limits, lines_of, name_faults)

from .blocks import Blocks, closings_behind
from .found import Found, indent_of, words_in
from .lines import ELSE, bad_byte, bad_version, line_fault
from .names import explained

GREATEST_TEXT = 1_048_576


def faults_of(text: bytes) -> list[Found]:
    """All faults of a text, by line. The least by `rank` is the one that the program answers."""
    lines = lines_of(text)
    version = heading_of(lines).version or 2  # a version that is not there was to be the newest
    found, entries, guessed = _by_lines(lines, version)
    for fault in {*name_faults(entries), *_limits(entries, guessed, len(lines), LIMITS_OF_VERSION[version])}:
        words = words_in(lines[fault.line - 1]) if fault.line <= len(lines) else []
        told = explained(fault, entries, guessed, words)
        if told is not None:
            found.append(told)
    return sorted(found, key=lambda one: (one.line, one.rank))


def _limits(entries: list[Entry], guessed: list[Entry], count: int, limits: dict[str, int]) -> list[Fault]:
    """The faults of ranges and limits, where blocks need not be paired. A faulty line counts as the one that it was to be."""
    by_itself = [fault for entry in entries if entry.form.role is not Role.CLOSE for fault in limit_faults([entry], count, limits)]
    found = [fault for fault in by_itself if fault.kind in (FaultKind.NumberRange, FaultKind.ServerRange)]
    together = sorted([*entries, *guessed], key=lambda entry: entry.line)
    faulty = {entry.line for entry in guessed}
    found += [Fault(3, line, FaultKind.TooMany) for line in lines_above_limits(_paired(together), limits) if line not in faulty]
    if not any(entry.form.head == "thread" for entry in together):
        found.append(Fault(3, count + 1, FaultKind.NoThread))
    return found


def _paired(entries: list[Entry]) -> list[Entry]:
    """The entries without closing lines that close nothing. A declaration stands outside of what was open."""
    kept: list[Entry] = []
    depth = 0
    for entry in entries:
        role = entry.form.role
        if role is Role.CLOSE and depth == 0:
            continue
        depth += (role in (Role.BODY, Role.BLOCK)) - (role is Role.CLOSE)
        kept.append(entry)
    return kept


def _by_lines(lines: list[bytes], version: int) -> tuple[list[Found], list[Entry], list[Entry]]:
    """The faults of the first phase, the lines without one, and those that have one as far as they can be told."""
    found: list[Found] = []
    entries: list[Entry] = []
    guessed: list[Entry] = []
    alone = _each_alone(lines, version)
    blocks = Blocks(closings_behind([entry and entry.form for entry, _ in alone]))
    for number, (line, (entry, fault)) in enumerate(zip(lines, alone), 1):
        if entry is not None:
            line = _without_bad_bytes(line)
            blocks.look(number, entry.form, indent_of(line))
            fault = fault or blocks.fault(number, entry.form, words_in(line)[0])
            blocks.go_on(number, entry.form, indent_of(line))
            (entries if fault is None else guessed).append(entry)
        found += [fault] if fault else []
    unclosed = blocks.unclosed(len(lines) + 1)
    return found + ([unclosed] if unclosed else []), entries, guessed


def _each_alone(lines: list[bytes], version: int) -> list[tuple[Entry | None, Found | None]]:
    """The entry of each line, as far as it can be told, and its fault by itself."""
    alone: list[tuple[Entry | None, Found | None]] = []
    heading, forms = heading_of(lines), built_forms(Stage.WHOLE, version)
    is_behind_end = False
    for number, line in enumerate(lines, 1):
        if number == heading.line and heading.version == 0:
            alone.append((None, bad_version(number, words_in(line))))
            continue
        cleaned = _without_bad_bytes(line)
        fault = bad_byte(number, line) if cleaned != line else None
        entry, own = line_fault(number, cleaned, forms) if words_in(cleaned) and number != heading.line else (None, None)
        if own and is_behind_end and words_in(cleaned)[0].text.lower() in ELSE:
            entry = Entry(number, forms["unless"][0], ())  # the block before it is closed, so it was to open one
            own = replace(own, mend="write `unless R`, with the R of the `if` whose block is closed above")
        alone.append((entry, fault or own))
        is_behind_end = entry.form.head == "end" if entry else is_behind_end and not words_in(cleaned)
    return alone


def _without_bad_bytes(line: bytes) -> bytes:
    return bytes(byte if byte == 9 or 32 <= byte <= 126 else 32 for byte in line)
