#!/usr/bin/env python3
"""Times whole runs of a built program, and beside it of another one, in turn.

    python3 tools/bench/runs.py PROGRAM                   the least processor time of each load, in milliseconds
    python3 tools/bench/runs.py PROGRAM OTHER             and that of another built program, with the ratio of ours to it
    python3 tools/bench/runs.py PROGRAM OTHER --markdown  the same as a table for docs/SPEED.md, with the machine's line

With --instructions not the time but millions of instructions, as valgrind counts them, of each load to a twentieth of its horizon: these
do not depend on what else the machine does.

A load that the other program refuses has no ratio.
"""
from __future__ import annotations

import argparse
import os
import platform
import sys

from loads import LOADS, Load
from timing import counted, least, shortened


def machine() -> str:
    """The machine's line: its processor, how many, and the kernel."""
    model = "a processor"
    with open("/proc/cpuinfo", encoding="utf-8") as told:
        for line in told:
            if line.startswith("model name"):
                model = line.split(":", 1)[1].strip()
                break
    return f"{model}, {os.cpu_count()} processors, {platform.system()} {platform.release()}"


def shown(time: float | None) -> str:
    return "refused" if time is None else f"{time:.1f}"


def costs(programs: list[str], load: Load, times: int, by_instructions: bool) -> list[float | None]:
    """What the load costs each program: milliseconds, or millions of instructions."""
    if not by_instructions:
        return least(programs, load, times)
    return [None if count is None else count / 1e6 for count in counted(programs, shortened(load))]


def main() -> int:
    words = argparse.ArgumentParser(description=__doc__, formatter_class=argparse.RawDescriptionHelpFormatter)
    words.add_argument("program")
    words.add_argument("other", nargs="?")
    words.add_argument("--times", type=int, default=9, help="runs of each load, of which the least counts (9)")
    words.add_argument("--only", default="", help="loads with this in their name")
    words.add_argument("--markdown", action="store_true")
    words.add_argument("--instructions", action="store_true")
    said = words.parse_args()
    programs = [said.program] + ([said.other] if said.other else [])
    unit = "millions of instructions" if said.instructions else "ms"
    if said.markdown:
        if not said.instructions:
            print(f"{machine()}; the least of {said.times} runs in turn, processor time.\n")
        print(f"| load | {unit} |" if len(programs) == 1 else f"| load | {unit} | other | ratio |")
        print("|---|---|" if len(programs) == 1 else "|---|---|---|---|")
    for load in LOADS:
        if said.only not in load.name:
            continue
        took = costs(programs, load, said.times, said.instructions)
        cells = [load.name, *map(shown, took)]
        if len(took) == 2:
            cells.append("" if took[0] is None or took[1] is None else f"{took[0] / max(took[1], 0.1):.2f}")
        print(f"| {' | '.join(cells)} |" if said.markdown else f"{cells[0]:34}" + "".join(f"{cell:>10}" for cell in cells[1:]), flush=True)
    return 0


if __name__ == "__main__":
    sys.exit(main())
