"""The reference for `pse52 rta N`: the same text and the same exit status.

    python3 tools/reference/response_times.py rta N < tasks

The response time of a task is read off a schedule that is served tick by tick. Exit status: 0 Done, 1 Usage, 2 Refused, 3 TooLong.
"""
from __future__ import annotations

import sys
from collections.abc import Iterator
from dataclasses import dataclass
from enum import IntEnum

from reader import FaultKind
from words import has_bad_byte, is_name, is_number, lines_of, number_of, words_of
from simulate import Status

GREATEST_TEXT = 67_108_864
GREATEST_BOUND = 100_000_000
RANGES = {"priority": (1, 255), "cost": (1, 1_000_000), "period": (1, 1_000_000_000), "blocking": (0, 1_000_000)}


# The kinds that a text of tasks has as a script has them, and two of its own.
TaskFault = IntEnum(
    "TaskFault", {kind.name: kind.value for kind in FaultKind if kind <= FaultKind.DuplicateName} | {"SamePriority": 17, "NoTask": 18})


@dataclass(frozen=True)
class Task:
    """A task; `line` is where it is declared. The times are in ticks."""

    line: int
    name: str
    priority: int
    cost: int
    period: int
    blocking: int


# From a text to its tasks, or its least fault by phase, then line, then kind


def read_line(number: int, line: bytes) -> Task | TaskFault | None:
    """What a line declares by itself, or its least fault."""
    if has_bad_byte(line):
        return TaskFault.BadByte
    words = words_of(line)
    if not words:
        return None
    if words[0] != "task":
        return TaskFault.UnknownWord
    if len(words) != 6:
        return TaskFault.WordCount
    _, name, *numbers = words
    if not all(is_number(word) for word in numbers):
        return TaskFault.BadNumber
    if not is_name(name):
        return TaskFault.BadName
    return Task(number, name, *(number_of(word) for word in numbers))


def use_faults(tasks: list[Task]) -> Iterator[tuple[int, int, TaskFault]]:
    """The faults of the second and the third phase: phase, line, kind."""
    names, priorities = set(), set()
    for task in tasks:
        if task.name in names:
            yield 2, task.line, TaskFault.DuplicateName
        if not all(low <= getattr(task, place) <= high for place, (low, high) in RANGES.items()):
            yield 3, task.line, TaskFault.NumberRange
        if task.priority in priorities:
            yield 3, task.line, TaskFault.SamePriority
        names.add(task.name)
        priorities.add(task.priority)


def read(text: bytes) -> tuple[list[Task], tuple[int, TaskFault] | None]:
    """The tasks of the text, or the line and the kind of its least fault."""
    lines = lines_of(text)
    tasks = []
    for number, line in enumerate(lines, 1):
        found = read_line(number, line)
        if isinstance(found, TaskFault):
            return [], (number, found)
        if found is not None:
            tasks.append(found)
    fault = min(use_faults(tasks), default=None)
    if fault is not None:
        return [], fault[1:]
    return tasks, None if tasks else (len(lines) + 1, TaskFault.NoTask)


# The schedule


def finish(tasks: list[Task], k: int, bound: int) -> int | None:
    """When task k has been served as many ticks as its cost, if that is by the bound."""
    above, served = tasks[k].blocking, 0
    backlog = [0] * len(tasks)
    urgent_first = sorted(range(len(tasks)), key=lambda j: -tasks[j].priority)
    for now in range(bound):
        for j, task in enumerate(tasks):
            if now % task.period == 0:
                backlog[j] += task.cost
        if above > 0:
            above -= 1
            continue
        chosen = next((j for j in urgent_first if backlog[j] > 0), None)
        if chosen is not None:
            backlog[chosen] -= 1
            served += chosen == k
        if served == tasks[k].cost:
            return now + 1
    return None


def least_solution(tasks: list[Task], k: int, bound: int) -> int | None:
    """The least R from 1 to the bound that solves the equation of task k, by trying each."""
    task = tasks[k]
    higher = [other for other in tasks if other.priority > task.priority]
    for r in range(1, bound + 1):
        if r == task.cost + task.blocking + sum(-(-r // other.period) * other.cost for other in higher):
            return r
    return None


# The answer


def bound_of(words: list[str]) -> int | None:
    """The bound that the words of a command name."""
    if len(words) != 2 or words[0] != "rta" or not is_number(words[1]):
        return None
    bound = number_of(words[1])
    return bound if bound <= GREATEST_BOUND else None


def answer(text: bytes, bound: int) -> tuple[Status, bytes]:
    """The status and the text of `rta`."""
    if len(text) > GREATEST_TEXT:
        return Status.TOO_LONG, b"too long\n"
    tasks, fault = read(text)
    if fault is not None:
        line, kind = fault
        return Status.REFUSED, f"refused {line} {kind.value} {kind.name}\n".encode()
    lines = []
    for k, task in enumerate(tasks):
        response = finish(tasks, k, bound)
        lines.append(f"task {task.name} none\n" if response is None else f"task {task.name} response {response}\n")
    return Status.DONE, "".join(lines).encode()


def main(words: list[str]) -> Status:
    bound = bound_of(words)
    if bound is None:
        status, text = Status.USAGE, b"usage: pse52 COMMAND NUMBERS\n"
    else:
        status, text = answer(sys.stdin.buffer.read(GREATEST_TEXT + 1), bound)
    sys.stdout.buffer.write(text)
    return status


if __name__ == "__main__":
    sys.exit(main(sys.argv[1:]))
