"""What is told of one fault, and the words of a line with their places."""
from __future__ import annotations

import re
from dataclasses import dataclass, field

from reader import FaultKind


@dataclass(frozen=True)
class Word:
    """A word of a line and its column, from 1."""

    text: str
    column: int


@dataclass(frozen=True)
class Aside:
    """Another line that has to do with a fault, and why."""

    line: int
    why: str


@dataclass(frozen=True)
class Found:
    """A fault: its phase, line and kind, the word (or byte) that has it, what is wrong, and how to mend it."""

    phase: int
    line: int
    kind: FaultKind
    word: Word | None
    wrong: str
    mend: str = ""
    asides: tuple[Aside, ...] = field(default=())

    @property
    def rank(self) -> tuple[int, int, int]:
        """The least fault by this is the one that the program answers."""
        return self.phase, self.line, self.kind.value


def words_in(line: bytes) -> list[Word]:
    """The words before the comment, with their columns."""
    return [Word(match[0].decode("ascii"), match.start() + 1) for match in re.finditer(rb"[!-~]+", line.split(b"#")[0])]


def indent_of(line: bytes) -> int:
    """How far the first word of a line stands from its beginning, a tab going to the next column that eight divides."""
    expanded = line.expandtabs(8)
    return len(expanded) - len(expanded.lstrip(b" "))


def listed(words: list[str], last: str = "or") -> str:
    """Words as in a sentence."""
    quoted = [f"`{word}`" for word in words]
    return quoted[0] if len(quoted) == 1 else f"{', '.join(quoted[:-1])} {last} {quoted[-1]}"
