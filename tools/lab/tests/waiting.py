"""Waiting for a condition, as long as a loaded machine may take: no test sleeps for a time that it guesses."""
from __future__ import annotations

import time
from collections.abc import Callable
from typing import TypeVar

LONGEST = 300  # seconds
Said = TypeVar("Said")


def waited(condition: Callable[[], Said], what: str) -> Said:
    """What the condition says, once that is something."""
    ends = time.monotonic() + LONGEST
    while not (said := condition()):
        if time.monotonic() > ends:
            raise AssertionError(f"not within {LONGEST} s: {what}")
        time.sleep(0.03)
    return said
