"""The lines of a text, the words of a line, and what a word is: a number, a name, a signal or a set of signals."""
from __future__ import annotations

import re

from forms import GREATEST_NUMBER
from script import ALL_SIGNALS

_BAD_BYTE = re.compile(rb"[^\t -~]")
_NAME = re.compile(r"[a-z][a-z0-9_]{0,31}\Z")
_NUMBER = re.compile(r"[0-9]+\Z")
_SIGNAL = re.compile(r"rt([0-9]|[12][0-9]|3[01])\Z")


def lines_of(text: bytes) -> list[bytes]:
    lines = text.split(b"\n")
    return lines[:-1] if lines[-1] == b"" else lines


def has_bad_byte(line: bytes) -> bool:
    """Whether the line has a byte other than a tab and the printing characters."""
    return _BAD_BYTE.search(line) is not None


def words_of(line: bytes) -> list[str]:
    """The words before the comment; a bad byte parts words, and the line is faulty anyway."""
    return [word.decode("ascii") for word in re.findall(rb"[!-~]+", line.split(b"#")[0])]


def is_number(word: str) -> bool:
    return _NUMBER.match(word) is not None


def is_name(word: str) -> bool:
    return _NAME.match(word) is not None


def is_signal(word: str) -> bool:
    return _SIGNAL.match(word) is not None


def number_of(word: str) -> int:
    """The value of a number; one that lies far above every range is given as the least number above them."""
    digits = word.lstrip("0")
    return int(digits or "0") if len(digits) <= 19 else GREATEST_NUMBER + 1


def signals_of(word: str) -> int | None:
    """The bits of a set of signals."""
    if word in ("all", "none"):
        return ALL_SIGNALS if word == "all" else 0
    bits = 0
    for part in word.split(","):
        if not is_signal(part):
            return None
        bits |= 1 << int(part[2:])
    return bits
