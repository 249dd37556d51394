"""What one run of a built program costs: its processor time, or the instructions that it does."""
from __future__ import annotations

import os
import re
import subprocess
import tempfile
from dataclasses import dataclass

from loads import Load


@dataclass(frozen=True)
class Refused(Exception):
    """The program did not end with status 0."""

    program: str
    load: str
    status: int

    def __str__(self) -> str:
        return f"{self.program}: {self.load}: status {self.status}"


def processor_time(program: str, load: Load) -> float:
    """User and system time of the whole process in milliseconds. Its output is thrown away."""
    with tempfile.TemporaryFile() as script, open(os.devnull, "wb") as told:
        script.write(load.script.encode())
        script.seek(0)
        child = subprocess.Popen([program, *load.words], stdin=script, stdout=told, stderr=subprocess.DEVNULL)
        _, ended, used = os.wait4(child.pid, 0)
    child.returncode = os.waitstatus_to_exitcode(ended)
    if child.returncode != 0:
        raise Refused(program, load.name, child.returncode)
    return (used.ru_utime + used.ru_stime) * 1000


def least(programs: list[str], load: Load, times: int) -> list[float | None]:
    """The least time of each program, which run in turn; `None` of one that refuses the load."""
    best: list[float | None] = [None] * len(programs)
    for _ in range(times):
        for number, program in enumerate(programs):
            try:
                took = processor_time(program, load)
            except Refused:
                continue
            earlier = best[number]
            if earlier is None or took < earlier:
                best[number] = took
    return best


def instructions(program: str, load: Load) -> int:
    """The instructions of the whole process, as valgrind counts them. Other work on the machine does not matter."""
    with tempfile.TemporaryFile() as script:
        script.write(load.script.encode())
        script.seek(0)
        words = ["valgrind", "--tool=callgrind", "--callgrind-out-file=/dev/null", program, *load.words]
        done = subprocess.run(words, stdin=script, stdout=subprocess.DEVNULL, stderr=subprocess.PIPE, text=True, check=False)
    counted = re.search(r"Collected : (\d+)", done.stderr)
    if done.returncode != 0 or counted is None:
        raise Refused(program, load.name, done.returncode)
    return int(counted[1])


def counted(programs: list[str], load: Load) -> list[int | None]:
    """The instructions of each program; `None` of one that refuses the load."""
    counts: list[int | None] = []
    for program in programs:
        try:
            counts.append(instructions(program, load))
        except Refused:
            counts.append(None)
    return counts


def shortened(load: Load, parts: int = 20) -> Load:
    """The load to a part of its horizon, where that is a long one."""
    *first, horizon = load.words
    ticks = int(horizon)
    return Load(load.name, (*first, str(ticks // parts if 10_000 <= ticks <= 100_000_000 else ticks)), load.script)
