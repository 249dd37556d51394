"""The cases of tests/answers/: words, an input, what is written and the exit status.

    python3 tools/reference/answers.py [PROGRAM]

Each is compared with what the reference answers, or with what PROGRAM does, a built program. Prints each difference and a last line
'N compared, M differ'. Exit status 1 where something differs.

A case begins with a line '== what it is' and has a line '$ words', each line of the input behind '<' and each that is written behind '>',
and a line '= status'. A line '\\' says that the one before it is without its line end.
"""
from __future__ import annotations

import pathlib
import shlex
import subprocess
import sys
from dataclasses import dataclass

import audits
import response_times
from compare_checks import checked
from forms import Stage
from simulate import Status, answer, command_of

CASES = pathlib.Path(__file__).resolve().parents[2] / "tests" / "answers"
USAGE = b"usage: pse52 COMMAND NUMBERS\n"
SECONDS = 60
# The reference runs tick by tick, so that it does not go farther.
FARTHEST = 100_000

Answer = tuple[int, bytes]


@dataclass(frozen=True)
class Case:
    """A command with its input, and what it must come to."""

    what: str
    words: list[str]
    text: bytes
    wanted: Answer


def lines_behind(mark: str, lines: list[str]) -> bytes:
    """The text whose lines stand behind a mark."""
    text = ""
    for before, line in zip(["", *lines], lines):
        if line.startswith(mark):
            text += line[1:] + "\n"
        elif line == "\\" and before.startswith(mark):
            text = text[:-1]
    return text.encode()


def case_of(block: str) -> Case:
    what, words, *lines = block.splitlines()
    status = next(int(line[2:]) for line in lines if line.startswith("= "))
    return Case(what, shlex.split(words[1:]), lines_behind("<", lines), (status, lines_behind(">", lines)))


def cases() -> list[Case]:
    """All cases, file by file."""
    blocks = [block for path in sorted(CASES.glob("*.txt")) for block in f"\n{path.read_text()}".split("\n== ")[1:]]
    return [case_of(block) for block in blocks]


def reference_answers(case: Case) -> Answer | None:
    """The status and the text; None where the reference has no such command, or would run too far."""
    words, text = case.words, case.text
    if words[:1] == ["audit"] and len(words) == 1:
        return audits.audit(text)
    if words[:1] == ["rta"]:
        bound = response_times.bound_of(words)
        return (Status.USAGE, USAGE) if bound is None else response_times.answer(text, bound)
    if words[:1] == ["check"]:
        run = command_of(["run", *words[1:]])
        if run is not None and run[1] > FARTHEST:
            return None
        return (Status.USAGE, USAGE) if run is None else checked(text, run[1], Stage.VERSION2)
    if words[:1] in (["gen"], ["soak"]) and case.wanted[0] != Status.USAGE:
        return None
    command = command_of(words)
    if command is None:
        return Status.USAGE, USAGE
    name, number = command
    if number <= FARTHEST:
        return answer(text, number, Stage.VERSION2, command=name)
    refused = answer(text, 0, Stage.VERSION2, command=name)
    return None if refused[0] == Status.DONE else refused


def program_answers(program: str, case: Case) -> Answer:
    done = subprocess.run([program, *case.words], input=case.text, stdout=subprocess.PIPE, stderr=subprocess.DEVNULL,
                          timeout=SECONDS, check=False)
    return done.returncode, done.stdout


def differences(program: str | None = None) -> tuple[int, list[str]]:
    """How many cases were compared, and those that come to something else."""
    compared, wrong = 0, []
    for case in cases():
        have = reference_answers(case) if program is None else program_answers(program, case)
        compared += have is not None
        if have not in (None, case.wanted):
            wrong.append(f"{case.what} ({shlex.join(case.words)}): {have}, wanted {case.wanted}")
    return compared, wrong


def main(words: list[str]) -> int:
    compared, wrong = differences(*words[:1])
    for line in wrong:
        print(line)
    print(f"{compared} compared, {len(wrong)} differ")
    return 1 if wrong else 0


if __name__ == "__main__":
    sys.exit(main(sys.argv[1:]))
