"""What a sweep says of its runs beside the table: which have no trace and why, which calls had no effect, and which were killed."""
from __future__ import annotations

import subprocess
import sys
from collections.abc import Iterator, Mapping, Sequence
from pathlib import Path

from .plan import Sweep

EXPLAIN = Path(__file__).parents[1] / "explain" / "main.py"
REFUSED = "2"

Rows = list[dict[str, str]]


def refusals(sweep: Sweep, rows: Rows) -> Iterator[str]:
    """How many runs had no trace, what the first one said, and what that means where its script is refused."""
    without = [number for number, row in enumerate(rows) if row["status"] != "0"]
    if without:
        first = rows[without[0]]
        yield f"{len(without)} of {len(rows)} runs have no trace; the first ended with status {first['status']}: {first['fault']}"
        if first["status"] == REFUSED and first["fault"].startswith("refused "):
            yield from _explained(sweep, without[0])


def _explained(sweep: Sweep, number: int) -> Iterator[str]:
    """The faults of a run's script in words, where it has some by the rules of this repository."""
    script = sweep.script(sweep.run(number)).encode()
    ended = subprocess.run([sys.executable, str(EXPLAIN), "-"], input=script, capture_output=True, check=False)
    if ended.returncode == int(REFUSED):
        yield f"that is the script with {_values(sweep, number)}:\n{ended.stdout.decode('ascii', 'backslashreplace').rstrip()}"


def of_runs(sweep: Sweep, told: Mapping[int, Sequence[str]]) -> Iterator[str]:
    """In how many runs each thing came that a reader of their figures must know, and which is the first."""
    runs: dict[str, list[int]] = {}
    for number in sorted(told):
        for what in told[number]:
            runs.setdefault(what, []).append(number)
    for what, numbers in runs.items():
        yield f"in {len(numbers)} of {sweep.count} runs {what}; the first has {_values(sweep, numbers[0])}"


def _values(sweep: Sweep, number: int) -> str:
    return ", ".join(f"{name} = {value}" for name, value in sweep.values_of(sweep.run(number)).items())
