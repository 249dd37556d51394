#!/usr/bin/env python3
"""Times a sweep of 10,000 runs, and at the same time a plain loop of a shell over the same scripts.

    python3 tools/bench/sweep.py PROGRAM [--jobs N] [--engine parallel|xargs]

Both have as many jobs, and share the processors with each other and with whatever else runs, so that the ratios tell.
"""
from __future__ import annotations

import argparse
import os
import shlex
import subprocess
import sys
import tempfile
import time
from dataclasses import dataclass
from pathlib import Path
from threading import Thread

TOP = Path(__file__).resolve().parents[2]
sys.path.insert(0, str(TOP / "tools"))

from sweep.plan import Sweep, read_sweep  # noqa: E402

EXAMPLE = TOP / "examples" / "sweeps" / "server_budget"
# The example's grid, larger: 40 budgets at 250 phases.
GRIDS = (("{ from = 8, to = 13 }", "{ from = 1, to = 40 }"), ("{ from = 0, to = 39 }", "{ from = 0, to = 249 }"))


@dataclass
class Timed:
    """A command while it runs, and what it took, in seconds."""

    words: list[str]
    wall: float = 0.0
    processor: float = 0.0
    status: int = 0

    def run(self) -> None:
        began = time.monotonic()
        process = subprocess.Popen(self.words, stdout=subprocess.DEVNULL, stderr=subprocess.DEVNULL)
        _, status, used = os.wait4(process.pid, 0)
        process.returncode = self.status = os.waitstatus_to_exitcode(status)
        self.wall, self.processor = time.monotonic() - began, used.ru_utime + used.ru_stime


def written(folder: Path) -> Sweep:
    """The sweep in this folder, with each of its scripts in a file of its own, and a list of those."""
    text = EXAMPLE.with_suffix(".toml").read_text()
    for small, large in GRIDS:
        text = text.replace(small, large)
    (folder / "big.toml").write_text(text)
    (folder / "server_budget.task.in").write_text(EXAMPLE.with_suffix(".task.in").read_text())
    sweep = read_sweep(folder / "big.toml")
    files = [folder / f"{run.number}.task" for run in sweep.runs()]
    for run, file in zip(sweep.runs(), files):
        file.write_text(sweep.script(run))
    (folder / "list").write_text("".join(f"{file}\n" for file in files))
    return sweep


def main() -> int:
    parser = argparse.ArgumentParser(description=__doc__.partition("\n")[0])
    parser.add_argument("program")
    parser.add_argument("--jobs", default="2")
    parser.add_argument("--engine", default="xargs")
    said = parser.parse_args()
    program = str(Path(said.program).resolve())
    with tempfile.TemporaryDirectory() as name:
        sweep = written(Path(name))
        loop = f'{shlex.quote(program)} run {sweep.horizon} < "$0" > "$0.trace"'
        plain = Timed(["sh", "-c", f"xargs -P {said.jobs} -n 1 sh -c {shlex.quote(loop)} < {name}/list"])
        swept = Timed([sys.executable, str(TOP / "bin" / "pse52-sweep"), f"{name}/big.toml", "--program", program,
                       "--jobs", said.jobs, "--engine", said.engine])
        threads = [Thread(target=timed.run) for timed in (plain, swept)]
        for thread in threads:
            thread.start()
        for thread in threads:
            thread.join()
    for what, timed in (("a plain loop", plain), (f"the sweep, by {said.engine}", swept)):
        print(f"{sweep.count} runs, {said.jobs} jobs, {what}: {timed.wall:.1f} s, {timed.processor:.1f} s of processors, status {timed.status}")
    print(f"ratio: {swept.wall / plain.wall:.2f}, of processors {swept.processor / plain.processor:.2f}")
    return plain.status or swept.status


if __name__ == "__main__":
    sys.exit(main())
