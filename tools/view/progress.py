"""How far the work is, on standard error where that is a terminal."""
from __future__ import annotations

import os
import stat
import sys

from command import overwrites


class Progress:
    """Says how many lines are read, and what is done then. Silent where standard error is no terminal that takes a line back."""

    def __init__(self) -> None:
        self._on = overwrites()
        self._size = 0
        self._shown = False

    def reads(self, source: object) -> None:
        """What is read from now on; of a file its size is known."""
        self._size = _size_of(source)

    def lines(self, number: int, size: int) -> None:
        of = f", {100 * size // self._size} %" if self._size else ""
        self.say(f"{number} lines read{of}")

    def say(self, what: str) -> None:
        if self._on:
            print(f"\r\033[K{what}", end="", file=sys.stderr, flush=True)
            self._shown = True

    def done(self) -> None:
        if self._shown:
            print("\r\033[K", end="", file=sys.stderr, flush=True)
            self._shown = False


def _size_of(source: object) -> int:
    """The size of what is read where it is a file, else 0."""
    try:
        status = os.fstat(source.fileno())
    except (AttributeError, OSError, ValueError):
        return 0
    return status.st_size if stat.S_ISREG(status.st_mode) else 0
