"""The scripts that are run in number: worked examples, probes, generated ones."""
from __future__ import annotations

import re
from collections.abc import Iterator
from dataclasses import dataclass
from pathlib import Path

from . import TOP
from .scripts import made

WORKED = TOP / "tests" / "worked"
PROBES = TOP / "examples" / "real"
MOST_WORKED_TICKS = 400
_HEAD = re.compile(r"# horizon (\d+)(, handlers)?\. (.*)")


@dataclass(frozen=True)
class Case:
    """A script with its horizon. `handlers` says that they run in waits too.

    `shows` is the known difference of a probe, or `agrees`, and `title` what to look for.
    """

    name: str
    text: bytes
    horizon: int
    handlers: bool = False
    shows: str = ""
    title: str = ""


def worked() -> Iterator[Case]:
    """The worked examples whose whole trace is known, and whose horizon is not far."""
    for trace in sorted(WORKED.glob("*.trace")):
        horizon = int(trace.with_suffix(".horizon").read_text())
        if horizon <= MOST_WORKED_TICKS:
            yield Case(trace.stem, trace.with_suffix(".task").read_bytes(), horizon)


def probe(path: Path) -> Case:
    """A probe says its horizon in its first line, and after it the known difference that it shows."""
    text = path.read_bytes()
    head = _HEAD.fullmatch(text.decode().splitlines()[0])
    if head is None:
        raise ValueError(f"{path.name}: the first line is not '# horizon N. NAME: ..'")
    shows, _, title = head[3].partition(": ")
    return Case(path.stem, text, int(head[1]), head[2] is not None, shows, title)


def probes() -> Iterator[Case]:
    yield from map(probe, sorted(PROBES.glob("*.task")))


def generated(first: int, count: int, is_plain: bool = False) -> Iterator[Case]:
    """So many generated scripts, from a seed on; plain ones come to no known difference."""
    for seed in range(first, first + count):
        text, horizon = made(seed, is_plain)
        yield Case(f"seed_{seed}", text, horizon)
