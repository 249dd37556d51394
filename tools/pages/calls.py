"""Runs the examples of docs/CALLS.md: each is a line of steps, and a line of what the trace has of them.

    python3 tools/pages/calls.py [PROGRAM]

The script that they stand in is on the page. Without a program the reference runs them.
"""
from __future__ import annotations

import re
import subprocess
import sys
from collections.abc import Callable
from dataclasses import dataclass
from pathlib import Path

TOP = Path(__file__).resolve().parents[2]
PAGE = TOP / "docs" / "CALLS.md"
HORIZON = 60
SHOWN = ("return", "deliver", "cancel", "exit", "killed")
Run = Callable[[bytes], str]


@dataclass(frozen=True)
class Example:
    """The line of the page, the steps of the two threads, and the lines of the trace that come of them."""

    line: int
    first: list[str]
    second: list[str]
    told: list[str]

    def script(self, frame: str) -> bytes:
        if not self.second:
            frame = frame.replace("thread b fifo 4 at 0", "thread b fifo 4 dormant")
        return frame.replace("STEPS OF A", "\n".join(self.first)).replace("STEPS OF B", "\n".join(self.second)).encode()


def examples_of(page: str) -> list[Example]:
    """All examples of the page."""
    found = []
    lines = page.splitlines()
    starts = [number for number, line in enumerate(lines) if line == "```calls"]
    for start in starts:
        end = lines.index("```", start)
        if (end - start) % 2 == 0:
            raise ValueError(f"docs/CALLS.md:{start + 1}: an example has two lines")
        for at in range(start + 1, end, 2):
            first, _, second = lines[at].partition("|")
            found.append(Example(at + 1, _steps(first), _steps(second), [line.strip() for line in lines[at + 1].split(";")]))
    return found


def _steps(text: str) -> list[str]:
    return [step.strip() for step in text.split(";") if step.strip()]


def frame_of(page: str) -> str:
    """The script that the examples stand in."""
    return re.search(r"```task\n(.*?)```", page, re.S)[1]


def shown(trace: str) -> list[str]:
    """The lines of a trace that an example shows."""
    return [line for line in trace.splitlines() if line.split()[1] in SHOWN]


def difference(example: Example, frame: str, run: Run) -> str | None:
    """How an example differs from what is said of it: its lines stand in the trace, one behind the other."""
    lines, told = shown(run(example.script(frame))), example.told
    if any(lines[at:at + len(told)] == told for at in range(len(lines))):
        return None
    return f"docs/CALLS.md:{example.line}: {'; '.join(example.first)}: the trace has {'; '.join(lines) or 'nothing'}"


def calls_with_example(examples: list[Example]) -> set[str]:
    return {step.split()[0] for example in examples for step in example.first + example.second}


def by_reference(script: bytes) -> str:
    sys.path.insert(0, str(TOP / "tools" / "reference"))
    from simulate import answer
    return answer(script, HORIZON)[1].decode()


def by_program(program: str) -> Run:
    return lambda script: subprocess.run([program, "run", str(HORIZON)], input=script, capture_output=True, check=False).stdout.decode()


def calls_of_language() -> set[str]:
    """The words of all calls, `push` and `pop` among them."""
    sys.path.insert(0, str(TOP / "tools" / "reference"))
    from forms import FORMS, Role
    steps = {form.head for form in FORMS if form.role in (Role.STEP, Role.BLOCK, Role.CLOSE)}
    return steps - {"run", "set", "add", "take", "if", "unless", "loop", "forever", "end"}


def faults_of(page: str, run: Run) -> list[str]:
    """What is wrong with the page: examples that differ, calls without a row, and calls without an example."""
    examples, frame = examples_of(page), frame_of(page)
    wrong = [found for example in examples if (found := difference(example, frame, run)) is not None]
    rows = {pattern.split()[0] for line in page.splitlines() if line.startswith("| `") for pattern in re.findall(r"`([^`]*)`", line.split("|")[1])}
    for call in sorted(calls_of_language()):
        if call not in rows:
            wrong.append(f"docs/CALLS.md has no row for {call}")
        if call not in calls_with_example(examples):
            wrong.append(f"docs/CALLS.md has no example for {call}")
    return wrong


def main(words: list[str]) -> int:
    page = PAGE.read_text()
    wrong = faults_of(page, by_program(words[0]) if words else by_reference)
    print(*wrong, f"calls: {len(examples_of(page))} examples, {len(wrong)} wrong", sep="\n")
    return 1 if wrong else 0


if __name__ == "__main__":
    sys.exit(main(sys.argv[1:]))
