"""The worked traces that the tests look at, and what a reader finds in them by hand."""
from __future__ import annotations

import subprocess
import sys
from pathlib import Path

from view.lines import read_trace
from view.seen import timeline_of
from view.timeline import Timeline

TOP = Path(__file__).resolve().parents[3]
WORKED = TOP / "tests" / "worked"
VIEW = TOP / "bin" / "pse52-view"

# The controller of tests/worked, read by eye: who runs at which priority from when to when.
CONTROLLER = "controller_with_server_and_monitor"
CONTROLLER_RUNS = [
    (0, 5, "ctl", 30), (5, 6, "srv", 20), (6, 7, "mon", 10), (20, 24, "mon", 10), (24, 25, "ctl", 30), (25, 29, "mon", 30),
    (29, 35, "ctl", 30), (35, 40, "srv", 20), (40, 42, "mon", 10), (42, 43, "srv", 20), (43, 44, "mon", 10)]
CONTROLLER_WAITS = [
    ("ctl", 5, 24, "sigwaitinfo"), ("ctl", 25, 29, "lock"), ("srv", 6, 33, "mq_receive"), ("mon", 7, 20, "clock_nanosleep")]
# The capacity of srv that each tick begins with: 6 from its start, 5 after its tick at 5, one less for each tick from 35
# on, 0 at 40, 1 from the refill at 42 on, 0 after that tick.
CONTROLLER_CAPACITY = {2: 6, 5: 6, 6: 5, 20: 5, 35: 5, 36: 4, 37: 3, 38: 2, 39: 1, 40: 0, 41: 0, 42: 1, 43: 0}

# A server that becomes ready late: capacity 3 up to 9, then 2, 1, and 3 again from the refill at 12 on.
TWO_BUDGETS = "six_high_ticks_in_one_period"
TWO_BUDGETS_CAPACITY = {2: 3, 8: 3, 9: 3, 10: 2, 11: 1, 12: 3, 13: 2, 14: 1, 15: 0, 16: 0}
TWO_BUDGETS_RUNS = [(0, 9, "h", 9), (9, 17, "s", 8)]

SLEEPS = "sleeps_of_half_the_greatest_horizon"
SLEEPS_RUNS = [
    (0, 1, "b", 6), (1, 2, "a", 5), (2, 500_000_000_000_000_001, "c", 1),
    (500_000_000_000_000_001, 500_000_000_000_000_002, "b", 6),
    (500_000_000_000_000_002, 600_000_000_000_000_002, "c", 1),
    (600_000_000_000_000_002, 600_000_000_000_000_003, "a", 5),
    (600_000_000_000_000_003, 10**18, "c", 1)]


def text_of(name: str) -> bytes:
    return (WORKED / f"{name}.trace").read_bytes()


def timeline(name: str) -> Timeline:
    return timeline_of(read_trace(text_of(name).splitlines(keepends=True)))


def timeline_of_text(text: str) -> Timeline:
    return timeline_of(read_trace(text.encode().splitlines(keepends=True)))


def view(words: list[str], trace: bytes) -> subprocess.CompletedProcess[bytes]:
    return subprocess.run([sys.executable, str(VIEW), *words], input=trace, capture_output=True, check=False)


def all_worked() -> list[str]:
    return sorted(path.stem for path in WORKED.glob("*.trace"))


def joined(runs: list[tuple[int, int, str, int]]) -> list[tuple[int, int, str, int]]:
    """Runs in the order of time, those that touch and are of one thread and priority joined."""
    out: list[tuple[int, int, str, int]] = []
    for start, end, name, priority in sorted(runs):
        if out and out[-1][1] == start and out[-1][2:] == (name, priority):
            out[-1] = (out[-1][0], end, name, priority)
        else:
            out.append((start, end, name, priority))
    return out
