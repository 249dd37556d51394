#!/usr/bin/env python3
"""How the time of a run grows with what the run has: threads, waiters, owners, records, timers, messages, lines.

    python3 tools/bench/growth.py PROGRAM [OTHER] [--folder FOLDER] [--only PART] [--times N] [--instructions] [--names A,B]

Each kind of growth is one load at several sizes. A row tells the size, the nanoseconds for each line of the trace (or, for the
reader, each line of the script) and, with OTHER, those of another program. With --folder a picture of each, by gnuplot.
"""
from __future__ import annotations

import argparse
import shutil
import subprocess
import sys
import tempfile
from collections.abc import Callable
from dataclasses import dataclass
from pathlib import Path

import loads
from loads import Load
from timing import counted, least

HORIZON = 300_000


@dataclass(frozen=True)
class Growth:
    """One load at several sizes. `version` is the line that allows more than 64 threads."""

    name: str
    size_is: str
    sizes: tuple[int, ...]
    script: Callable[[int], str]
    counts_script: bool = False


GROWTHS = (
    Growth("threads", "threads that yield", (1, 2, 4, 8, 16, 32, 64, 128, 256), loads.yielding),
    Growth("sleepers", "threads that sleep", (1, 2, 4, 8, 16, 32, 64, 128, 256), loads.sleepers),
    Growth("waiters", "threads that wait for one semaphore", (1, 2, 4, 8, 16, 32, 63, 127, 255), loads.waiters),
    Growth("broadcast", "threads that one broadcast wakes", (1, 2, 4, 8, 16, 32, 63, 127, 255), loads.broadcast),
    Growth("chain", "owners in a chain", (2, 4, 8, 16, 32, 63), loads.chain),
    Growth("records", "records of signals that are pending", (1, 2, 4, 8, 16, 32, 64), loads.pending),
    Growth("timers", "timers that are armed", (1, 2, 4, 8, 16, 32), loads.timers),
    Growth("settings", "threads that sleep for a time of the clock that is set", (1, 2, 4, 8, 16, 32, 63, 127, 255), loads.settings),
    Growth("messages", "messages in a queue", (1, 2, 4, 8, 16, 32, 64), loads.messages),
    Growth("servers", "sporadic servers", (1, 2, 4, 8, 16, 24, 48), loads.servers),
    Growth("script", "lines of the script", (100, 1_000, 10_000, 58_000), loads.long_script, counts_script=True),
)


def with_version(script: str, size: int) -> str:
    """A script that needs more than 64 threads is one of version 2."""
    return f"version 2\n{script}" if size >= 64 and script.count("thread ") > 64 else script


def lines_told(program: str, load: Load) -> int:
    """How many lines the run prints; 0 where it does not end well."""
    with tempfile.TemporaryFile() as script:
        script.write(load.script.encode())
        script.seek(0)
        done = subprocess.run([program, *load.words], stdin=script, capture_output=True, check=False)
    return done.stdout.count(b"\n") if done.returncode == 0 else 0


def row(programs: list[str], growth: Growth, size: int, times: int, by_instructions: bool) -> list[float | None]:
    """What each line costs each program, nanoseconds or instructions; `None` where it refuses the load."""
    script = with_version(growth.script(size), size)
    horizon = HORIZON // 10 if by_instructions else HORIZON
    load = Load(growth.name, ("run", "1" if growth.counts_script else str(horizon)), script)
    count = script.count("\n") if growth.counts_script else lines_told(programs[0], load)
    whole: list[float | None] = list(counted(programs, load)) if by_instructions else [None if took is None else took * 1e6 for took in least(programs, load, times)]
    return [None if cost is None or count == 0 else cost / count for cost in whole]


def draw(growth: Growth, rows: list[tuple[int, list[float | None]]], names: list[str], what: str, to: Path) -> None:
    """A picture of the rows: the size on a logarithmic axis, a line for each program."""
    blocks = ["\n".join(f"{size} {figures[n]}" for size, figures in rows if figures[n] is not None) for n in range(len(names))]
    plots = ", ".join(f"$data{n} using 1:2 with linespoints pt 7 title '{name}'" for n, name in enumerate(names))
    unit = f"{what} a line of the " + ("script" if growth.counts_script else "trace")
    commands = "".join(f"$data{n} << EOD\n{block}\nEOD\n" for n, block in enumerate(blocks))
    commands += f"""set terminal svg size 560,320 dynamic font 'DejaVu Sans,12' background rgb 'white'
set output '{to}'
set logscale x 2
set yrange [0:*]
set xlabel '{growth.size_is}'
set ylabel '{unit}'
set grid
set key top left
plot {plots}
"""
    subprocess.run(["gnuplot"], input=commands, text=True, check=True)


def main() -> int:
    words = argparse.ArgumentParser(description=__doc__, formatter_class=argparse.RawDescriptionHelpFormatter)
    words.add_argument("program")
    words.add_argument("other", nargs="?")
    words.add_argument("--folder", type=Path)
    words.add_argument("--only", default="")
    words.add_argument("--times", type=int, default=5)
    words.add_argument("--instructions", action="store_true")
    words.add_argument("--names", default="pse52,other", help="the names of the programs in the pictures")
    said = words.parse_args()
    programs = [said.program] + ([said.other] if said.other else [])
    if said.folder and not shutil.which("gnuplot"):
        print("growth: there is no gnuplot, so no picture is made", file=sys.stderr)
        said.folder = None
    what = "instructions" if said.instructions else "nanoseconds"
    for growth in GROWTHS:
        if said.only not in growth.name:
            continue
        rows = [(size, row(programs, growth, size, said.times, said.instructions)) for size in growth.sizes]
        print(f"{growth.name}: {growth.size_is}; {what} a line")
        for size, figures in rows:
            print(f"  {size:6}" + "".join(f"{'refused' if figure is None else f'{figure:.0f}':>12}" for figure in figures), flush=True)
        if said.folder:
            said.folder.mkdir(parents=True, exist_ok=True)
            draw(growth, rows, said.names.split(",")[: len(programs)], what, said.folder / f"{growth.name}.svg")
    return 0


if __name__ == "__main__":
    sys.exit(main())
