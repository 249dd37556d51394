"""The known differences: what each is, what IEEE 1003.1-2017 says of it, and whose side that is on. They stand in known/*.toml."""
from __future__ import annotations

import textwrap
import tomllib
from dataclasses import dataclass
from enum import Enum
from functools import lru_cache
from pathlib import Path

FOLDER = Path(__file__).with_name("known")
WIDTH = 110


class Side(Enum):
    """Whose side the standard is on."""

    STANDARD = "standard"
    OPEN = "open"
    OWN = "own"
    RIG = "rig"

    @property
    def told(self) -> str:
        return {
            Side.STANDARD: "the standard is on the side of the rules",
            Side.OPEN: "the standard leaves it open, or leans to the kernel",
            Side.OWN: "the rule is this project's own choice",
            Side.RIG: "a limit of this rig, and no difference of the kernel",
        }[self]


@dataclass(frozen=True)
class Difference:
    """A known difference: what the kernel does, what the rules do, what the standard says, and what it means to a designer."""

    name: str
    side: Side
    section: str
    kernel: str
    rule: str
    standard: str
    means: str
    probes: tuple[str, ...]


@dataclass(frozen=True)
class Subject:
    """The differences of one subject, as the page has them."""

    title: str
    differences: tuple[Difference, ...]


@lru_cache(maxsize=None)
def subjects() -> tuple[Subject, ...]:
    return tuple(_subject(tomllib.loads(path.read_text())) for path in sorted(FOLDER.glob("*.toml")))


def _subject(told: dict) -> Subject:
    return Subject(told["title"], tuple(_difference(each) for each in told["difference"]))


def _difference(told: dict) -> Difference:
    return Difference(**told | {"side": Side(told["side"]), "probes": tuple(told["probes"])})


@lru_cache(maxsize=None)
def by_name() -> dict[str, Difference]:
    return {each.name: each for subject in subjects() for each in subject.differences}


def limits_of_the_rig() -> frozenset[str]:
    """What the rig cannot show; no kernel is to blame for it."""
    return frozenset(name for name, each in by_name().items() if each.side is Side.RIG)


def told(name: str) -> list[str]:
    """What a report says of a difference."""
    each = by_name()[name]
    lines = [f"{name}: {each.side.told} ({each.section})"]
    for head, text in (("kernel", each.kernel), ("rule", each.rule), ("standard", each.standard)):
        lines += textwrap.wrap(f"{head}: {text}", WIDTH, initial_indent="  ", subsequent_indent="    ")
    return lines
