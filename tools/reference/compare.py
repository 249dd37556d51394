"""Runs a built program and the reference over generated scripts, and compares bytes and exit status.

    python3 tools/reference/compare.py PROGRAM [--stage STAGE] [--first N] [--count N] [--command WORD]
                                       [--refused | --load] [--jobs N] [--keep FOLDER]

PROGRAM is a command line that takes `run N`, or the WORD `show`, `detail` or `upgrade`
in its place, and a script on standard input; `show` is asked for an instant at
which the trace has a line, and for those before and behind it.
Prints each difference and a last line 'N compared, M differ'. Exit status 1
where something differs. With --keep the scripts that differ are kept. With
--load the commands `gen S` and `soak S N` are compared instead, for each S.
"""
from __future__ import annotations

import argparse
import pathlib
import shlex
import subprocess
import sys
from concurrent.futures import ThreadPoolExecutor
from dataclasses import dataclass

import generate
import load
from forms import Stage
from simulate import COMMANDS, answer

SECONDS = 120


@dataclass(frozen=True)
class Task:
    """What to run, with which command, and the reference's stage."""

    program: tuple[str, ...]
    stage: Stage
    refused: bool
    command: str

    def script(self, seed: int) -> tuple[bytes, list[int]]:
        """A script, and the numbers that the command is tried with."""
        if self.refused:
            return generate.refused(seed, self.stage), [1]
        text, horizon = generate.accepted(seed, self.stage)
        return text, self.instants(seed, text, horizon) if self.command == "show" else [horizon]

    def instants(self, seed: int, text: bytes, horizon: int) -> list[int]:
        """An instant at which something happens in a run, its end included, with the instants before and behind it."""
        lines = answer(text, horizon, self.stage)[1].decode().splitlines()
        times = sorted({int(line.split(" ")[0]) for line in lines if line[0].isdigit()})
        at = times[seed % len(times)]
        return list(range(max(at - 1, 0), at + 2))

    def answer(self, text: bytes, number: int) -> tuple[int, bytes]:
        return answer(text, number, self.stage, command=self.command)

    def first_that_differs(self, seed: int) -> tuple[int, str] | None:
        """The first number at which the program differs from the reference, and how, or None."""
        text, numbers = self.script(seed)
        for number in numbers:
            words = [self.command] if self.command == "upgrade" else [self.command, str(number)]
            if found := answer_differs(self.program, words, text, self.answer(text, number)):
                return number, found
        return None

    def difference(self, seed: int) -> str | None:
        """One line on how the program differs from the reference, or None."""
        found = self.first_that_differs(seed)
        return None if found is None else f"seed {seed} horizon {found[0]} {found[1]}"


@dataclass(frozen=True)
class Load:
    """The script of a number, and the closing lines of its run."""

    program: tuple[str, ...]

    def difference(self, seed: int) -> str | None:
        """One line on how the program differs from the reference, or None."""
        horizon = 50 + 37 * seed % 500
        made = answer_differs(self.program, ["gen", str(seed)], b"", (0, load.make(seed).encode()))
        run = answer_differs(self.program, ["soak", str(seed), str(horizon)], b"", (0, load.soak(seed, horizon).encode()))
        found = [f"{words} {text}" for words, text in ((f"gen {seed}", made), (f"soak {seed} {horizon}", run)) if text]
        return "; ".join(found) or None


def answer_differs(program: tuple[str, ...], words: list[str], text: bytes, want: tuple[int, bytes]) -> str | None:
    """How the program answers a command otherwise than it should, or None."""
    try:
        done = subprocess.run([*program, *words], input=text, capture_output=True, timeout=SECONDS)
    except subprocess.TimeoutExpired:
        return f"no answer after {SECONDS} seconds"
    if (done.returncode, done.stdout) == want:
        return None
    return first_difference(done.returncode, done.stdout, *want)


def first_difference(have_status: int, have: bytes, want_status: int, want: bytes) -> str:
    """The first line that differs, or the two statuses."""
    have_lines, want_lines = have.split(b"\n"), want.split(b"\n")
    for number, (mine, other) in enumerate(zip(have_lines, want_lines), 1):
        if mine != other:
            return f"line {number}: have {mine!r} want {other!r}"
    if have != want:
        return f"length: have {len(have)} bytes want {len(want)}"
    return f"status: have {have_status} want {int(want_status)}"


def keep(folder: str, task: Task, seed: int) -> None:
    """Writes the script and what the reference gives, as the files of an example."""
    path = pathlib.Path(folder)
    path.mkdir(parents=True, exist_ok=True)
    text, numbers = task.script(seed)
    found = task.first_that_differs(seed)
    number = numbers[0] if found is None else found[0]
    (path / f"{seed}.task").write_bytes(text)
    (path / f"{seed}.horizon").write_text(f"{number}\n")
    form = "refused" if task.refused else "trace" if task.command == "run" else task.command
    (path / f"{seed}.{form}").write_bytes(task.answer(text, number)[1])


def main() -> int:
    parser = argparse.ArgumentParser(description="Compares a built program with the reference.")
    parser.add_argument("program")
    parser.add_argument("--stage", default="whole")
    parser.add_argument("--first", type=int, default=0)
    parser.add_argument("--count", type=int, default=500)
    parser.add_argument("--command", choices=tuple(COMMANDS), default="run")
    parser.add_argument("--refused", action="store_true")
    parser.add_argument("--load", action="store_true")
    parser.add_argument("--jobs", type=int, default=1)
    parser.add_argument("--keep")
    arguments = parser.parse_args()
    program = tuple(shlex.split(arguments.program))
    script = Task(program, Stage.named(arguments.stage), arguments.refused, arguments.command)
    task = Load(program) if arguments.load else script
    seeds = range(arguments.first, arguments.first + arguments.count)
    differ = 0
    with ThreadPoolExecutor(arguments.jobs) as pool:
        for seed, found in zip(seeds, pool.map(task.difference, seeds)):
            if found is not None:
                differ += 1
                print(found)
                if arguments.keep and not arguments.load:
                    keep(arguments.keep, script, seed)
    print(f"{arguments.count} compared, {differ} differ")
    return 1 if differ else 0


if __name__ == "__main__":
    sys.exit(main())
