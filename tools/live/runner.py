"""Builds the runner, and runs a flat script with it."""
from __future__ import annotations

import os
import shutil
import subprocess
from dataclasses import dataclass
from pathlib import Path

FOLDER = Path(__file__).with_name("runner")
BUILT = FOLDER / "out" / "runner"
#: seconds that a run may take beyond its ticks, before it is ended
PATIENCE = 3
#: a run is never longer, so that what else has work on its core waits no longer than that
LONGEST_SECONDS = 10.0


class NotBuilt(Exception):
    """The runner could not be built."""


class NoLog(Exception):
    """The runner has ended without a log."""


@dataclass(frozen=True)
class Place:
    """Where and how fast a script runs: the core, and the length of a tick in milliseconds."""

    core: int
    tick: float


def build() -> Path:
    """The runner, built where it is missing or older than a source."""
    sources = sorted(FOLDER.glob("*.[ch]"))
    if BUILT.exists() and all(source.stat().st_mtime <= BUILT.stat().st_mtime for source in sources):
        return BUILT
    compiler = shutil.which("cc")
    if compiler is None:
        raise NotBuilt("the runner needs a C compiler, and cc is not here")
    BUILT.parent.mkdir(exist_ok=True)
    fresh = BUILT.with_name(f"runner.{os.getpid()}")
    files = [str(source) for source in sources if source.suffix == ".c"]
    words = [compiler, "-std=gnu11", "-O1", "-Wall", "-Wextra", "-o", str(fresh), *files, "-pthread", "-lrt"]
    ended = subprocess.run(words, capture_output=True, text=True, check=False)
    if ended.returncode != 0:
        raise NotBuilt(f"cc could not build the runner:\n{ended.stderr}")
    fresh.rename(BUILT)
    return BUILT


def last_core() -> int:
    """The core of the greatest number, which has the least to do on most machines."""
    return max(os.sched_getaffinity(0))


def run_flat(numbers: list[int], horizon: int, place: Place, handlers_in_waits: bool = False) -> str:
    """The log of a run. The runner ends its child where the limit passes; should it be stuck itself, it is killed."""
    seconds = horizon * place.tick / 1000
    limit = int(seconds) + PATIENCE
    words = [str(build()), str(place.core), str(int(place.tick * 1_000_000)), str(horizon), str(limit)]
    words += ["handlers"] if handlers_in_waits else []
    text = " ".join(map(str, numbers)) + "\n"
    process = subprocess.Popen(words, stdin=subprocess.PIPE, stdout=subprocess.PIPE, stderr=subprocess.PIPE, text=True)
    try:
        log, said = process.communicate(text, timeout=limit + PATIENCE)
    except BaseException:
        process.kill()
        process.wait()
        raise
    if process.returncode != 0 or "\nended early" in "\n" + log:
        raise NoLog(f"the runner could not run the script: {said.strip() or process.returncode}")
    return log
