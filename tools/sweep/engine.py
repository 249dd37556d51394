"""Hands the runs to GNU parallel, or to xargs where that is missing. How they are spread is the engine's affair."""
from __future__ import annotations

import os
import shlex
import shutil
import signal
import subprocess
import sys
import tempfile
from collections.abc import Iterable, Iterator
from dataclasses import dataclass
from pathlib import Path

WORKER = Path(__file__).with_name("worker.py")
MOST_A_JOB = 1000
MOST_TRIES = 3


class NoEngine(Exception):
    """Neither GNU parallel nor xargs is here, or what is asked for needs the one that is missing."""


@dataclass(frozen=True)
class Work:
    """What an engine is to do: these runs of a sweep by this program, so many at once on each machine."""

    toml: Path
    program: list[str]
    numbers: list[int]
    jobs: int
    sshlogin: str | None = None

    @property
    def runs_a_job(self) -> int:
        """So many runs that the start of a job does not count, and so few that all jobs have work up to the end."""
        machines = self.sshlogin.count(",") + 1 if self.sshlogin else 1
        return max(1, min(MOST_A_JOB, len(self.numbers) // (self.jobs * machines * 3)))

    @property
    def command(self) -> list[str]:
        """The words that start a job. Another machine has a Python of its own, so it is asked for by its plain name.

        A job needs the standard library alone, so Python starts without looking for other modules (-S).
        """
        return ["python3" if self.sshlogin else sys.executable, "-S", str(WORKER), str(self.toml), *self.program, "--"]


def gnu_parallel() -> str | None:
    """The path of GNU parallel. Another program has the same name, and is none."""
    path = shutil.which("parallel")
    if path is None:
        return None
    said = subprocess.run([path, "--version"], capture_output=True, text=True, check=False).stdout
    return path if said.startswith("GNU parallel") else None


def results(work: Work, engine: str | None = None) -> Iterator[str]:
    """The lines of JSON of the runs, in the order in which they end."""
    parallel = gnu_parallel() if engine != "xargs" else None
    if parallel is None and (engine == "parallel" or work.sshlogin):
        raise NoEngine("GNU parallel, which is asked for, is not here; --sshlogin needs it too")
    if parallel is None and shutil.which("xargs") is None:
        raise NoEngine("neither GNU parallel nor xargs is here")
    with tempfile.TemporaryDirectory(prefix="pse52-sweep-") as folder:
        with _by_parallel(work, parallel, Path(folder)) if parallel else _by_xargs(work, Path(folder)) as process:
            yield from _lines(process)


def _by_parallel(work: Work, parallel: str, folder: Path) -> subprocess.Popen[str]:
    """The engine gives each job the numbers of its runs. A job that fails on one machine is tried on others.

    Here a job writes each line at once, so the engine need not look at them; ssh may hand on a part of one.
    """
    words = [parallel, "--pipe", "-N", str(work.runs_a_job), "--jobs", str(work.jobs), "--will-cite"]
    words += ["--line-buffer", "--sshlogin", work.sshlogin, "--retries", str(MOST_TRIES)] if work.sshlogin else ["--ungroup"]
    return _start([*words, shlex.join(work.command)], _written(folder / "numbers", work.numbers))


def _by_xargs(work: Work, folder: Path) -> subprocess.Popen[str]:
    """The engine gives each job the name of a file with the numbers of its runs."""
    size = work.runs_a_job
    files = [_written(folder / f"job{at}", work.numbers[at:at + size]) for at in range(0, len(work.numbers), size)]
    return _start(["xargs", "-P", str(work.jobs), "-n", "1", *work.command], _written(folder / "files", files))


def _written(file: Path, lines: Iterable[object]) -> Path:
    file.write_text("".join(f"{line}\n" for line in lines))
    return file


def _start(words: list[str], file: Path) -> subprocess.Popen[str]:
    """Starts the engine in a group of its own, so that an interrupt ends it with its jobs."""
    with file.open() as source:
        return subprocess.Popen(words, stdin=source, stdout=subprocess.PIPE, text=True, start_new_session=True)


def _lines(process: subprocess.Popen[str]) -> Iterator[str]:
    done = False
    try:
        yield from process.stdout
        done = True
    finally:
        if not done:
            os.killpg(process.pid, signal.SIGTERM)
        process.wait()
