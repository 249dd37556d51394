"""One turned rule."""
from __future__ import annotations

from dataclasses import dataclass


@dataclass(frozen=True)
class Turned:
    """What the turned rule says, the place of the reference where it is turned, and the example that notices."""

    title: str
    file: str
    old: str
    new: str
    example: str
