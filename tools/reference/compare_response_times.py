"""Holds the response times against one another over generated task sets: the schedule, the equation, and a built program.

    python3 tools/reference/compare_response_times.py [PROGRAM] [--first N] [--count N]

For each seed a text of tasks and a bound are made. Where the text has no fault, the instant at which each task finishes in the
schedule, served tick by tick, is compared with the least solution of its equation, found by trial. PROGRAM is a command line that
takes `rta N` and a text of tasks on standard input; its bytes and its exit status are compared too. Prints each difference and a
last line 'N compared, M differ'. Exit status 1 where something differs.

The example 21_response_times is run as a script too: there no job may take longer than is told, and each first one just as long.
"""
from __future__ import annotations

import argparse
import pathlib
import random
import shlex
import subprocess
import sys
from collections import defaultdict

import simulate
from response_times import Task, answer, finish, least_solution, read
from simulate import Status

SECONDS = 120
EXAMPLE = pathlib.Path(__file__).resolve().parents[2] / "examples" / "21_response_times"
HORIZON = 150
Line = tuple[str, int, int, int, int]

# Texts with their bounds, and what is answered to them; these were worked out by hand.
WORKED: list[tuple[str, int, Status, str]] = [
    ("task a 3 1 4 0; task b 2 2 6 0; task c 1 3 12 0", 12, Status.DONE,
     "task a response 1; task b response 3; task c response 10; "),
    ("task a 3 1 4 0; task b 2 2 6 0; task c 1 3 12 0", 9, Status.DONE,
     "task a response 1; task b response 3; task c none; "),
    ("task x 2 1 1 0; task y 1 1 1 0", 50, Status.DONE, "task x response 1; task y none; "),
    ("task a 3 1 4 2", 50, Status.DONE, "task a response 3; "),
    ("task a 3 1 4 2; task b 2 1 4 0", 50, Status.DONE, "task a response 3; task b response 2; "),
    ("task a 3 1 4 0", 0, Status.DONE, "task a none; "),
    ("task a 3 1 4 0; task b 3 1 4 0", 5, Status.REFUSED, "refused 2 17 SamePriority; "),
    ("", 5, Status.REFUSED, "refused 1 18 NoTask; "),
    ("# none; ", 5, Status.REFUSED, "refused 2 18 NoTask; "),
    ("task a 3 1 4 0; task a 3 1 4 0", 5, Status.REFUSED, "refused 2 7 DuplicateName; "),
    ("task a 3 0 4 0; task b 3 1 4", 5, Status.REFUSED, "refused 2 3 WordCount; "),
    ("task a 256 1 1 0; task b 256 1 1 0", 5, Status.REFUSED, "refused 1 5 NumberRange; ")]


def cost_of(rng: random.Random, period: int, share: float) -> int:
    """A cost that takes about so great a share of the processor, at least 1."""
    return max(1, min(1_000_000, round(period * share * rng.uniform(0.2, 1.8))))


def some_tasks(rng: random.Random) -> list[Line]:
    """Up to nine tasks: their whole share is below 1, about 1 or above it, and now and then some have one period or the same cost."""
    count = rng.randint(1, 9)
    share = rng.choice([0.3, 0.7, 0.9, 1.0, 1.2]) / count
    periods = [rng.choice([1, 2, 3, 4, 5, 6, 8, 10, 12, 15, 20, 24, 30, 60]) * rng.choice([1, 1, 1, 2, 7]) for _ in range(count)]
    if rng.random() < 0.25:
        periods = [periods[0]] * count
    priorities = rng.sample(range(1, 256), count)
    return [(f"t{j}", priorities[j], cost_of(rng, periods[j], share), periods[j], rng.choice([0, 0, 0, 1, rng.randint(0, 40)]))
            for j in range(count)]


def full_tasks(rng: random.Random) -> list[Line]:
    """Tasks that together take each tick: a half, a third and a sixth of one period, and their multiples."""
    unit = rng.choice([1, 2, 5])
    priorities = rng.sample(range(1, 256), 3)
    periods = [2 * unit, 3 * unit, 6 * unit]
    return [(f"t{j}", priorities[j], unit, periods[j], 0) for j in range(3)]


def spelled(tasks: list[Line], rng: random.Random) -> bytes:
    """The text of tasks, now and then with comments, blanks and empty lines."""
    layouts = ["{}", "{}", "{}", "\t{}  # behind", "# a comment\n{}", "\n{}"]
    lines = [rng.choice(layouts).format(" ".join(["task", *(str(part) for part in task)])) for task in tasks]
    return ("\n".join(lines) + rng.choice(["", "\n"])).encode()


def broken(text: bytes, rng: random.Random) -> bytes:
    """The text with one word changed, taken out or put in, with one more task, or with comments alone."""
    lines = text.split(b"\n")
    choice = rng.randrange(6)
    if choice == 0:
        return text + b"\n" + rng.choice([b"task t0 1 1 1 1", b"task other %d 1 1 1" % rng.randint(1, 256)])
    if choice == 1:
        return b"\n".join(b"#" + line for line in lines)
    at = rng.randrange(len(lines))
    words = lines[at].split() or [b"task"]
    place = rng.randrange(len(words))
    other = rng.choice([b"0", b"1", b"256", b"1000000", b"1000001", b"1000000001", b"9" * 30, b"t0", b"T", b"-1", b"task", b"#", b"\x80"])
    words[place:place + rng.choice([0, 1, 1, 1])] = rng.choice([[], [other], [other], [other]])
    lines[at] = b" ".join(words)
    return b"\n".join(lines)


def generated(seed: int) -> tuple[bytes, int]:
    """A text of tasks and a bound."""
    rng = random.Random(seed)
    tasks = full_tasks(rng) if rng.random() < 0.1 else some_tasks(rng)
    text = spelled(tasks, rng)
    if rng.random() < 0.2:
        text = broken(text, rng)
    return text, rng.choice([0, 1, 10, 100, 300, 1000])


def differences(text: bytes, bound: int, program: list[str] | None) -> list[str]:
    """How the schedule, the equation and the program differ."""
    tasks, _ = read(text)
    found = [f"task {task.name}: finishes at {finish(tasks, k, bound)}, least solution {least_solution(tasks, k, bound)}"
             for k, task in enumerate(tasks) if finish(tasks, k, bound) != least_solution(tasks, k, bound)]
    if program:
        status, want = answer(text, bound)
        done = subprocess.run([*program, "rta", str(bound)], input=text, capture_output=True, timeout=SECONDS)
        if (done.returncode, done.stdout) != (status, want):
            found.append(f"have {done.returncode} {done.stdout!r} want {status} {want!r}")
    return found


def worked_differences(program: list[str] | None) -> list[str]:
    """How the answers to the worked texts differ from what was worked out."""
    found = []
    for text, bound, status, want in WORKED:
        source = text.replace("; ", "\n").encode()
        if answer(source, bound) != (status, want.replace("; ", "\n").encode()):
            found.append(f"{text!r} {bound}: have {answer(source, bound)} want {want!r}")
        found += differences(source, bound, program)
    return found


def seen_responses(trace: str, tasks: list[Task]) -> dict[str, list[int]]:
    """How long each job of each thread of a trace took, where a thread runs the jobs of the task of its name one after another."""
    found, ticks = defaultdict(list), defaultdict(int)
    task_of, running, since = {task.name: task for task in tasks}, None, 0
    for time, what, *rest in map(str.split, trace.splitlines()):
        if what not in ("dispatch", "idle", "end"):
            continue
        if running:
            before, now = ticks[running.name], ticks[running.name] + int(time) - since
            for job in range(before // running.cost, now // running.cost):
                found[running.name].append(since + (job + 1) * running.cost - before - job * running.period)
            ticks[running.name] = now
        running, since = task_of[rest[0]] if what == "dispatch" else None, int(time)
    return found


def example_differences() -> list[str]:
    """Where a job of the example takes longer than is told, or a first one not just as long."""
    tasks, _ = read(EXAMPLE.with_suffix(".rta").read_bytes())
    _, trace = simulate.answer(EXAMPLE.with_suffix(".task").read_bytes(), HORIZON)
    seen = seen_responses(trace.decode(), tasks)
    told = {task.name: finish(tasks, k, task.period) for k, task in enumerate(tasks)}
    return [f"example, {name}: told {told[name]}, seen {times}"
            for name, times in seen.items() if max(times) > told[name] or times[0] != told[name]]


def main() -> int:
    parser = argparse.ArgumentParser()
    parser.add_argument("program", nargs="?", type=shlex.split)
    parser.add_argument("--first", type=int, default=0)
    parser.add_argument("--count", type=int, default=1000)
    wanted = parser.parse_args()
    failed = worked_differences(wanted.program) + example_differences()
    for seed in range(wanted.first, wanted.first + wanted.count):
        text, bound = generated(seed)
        failed += [f"seed {seed} bound {bound}: {line}" for line in differences(text, bound, wanted.program)]
    print("\n".join([*failed, f"{len(WORKED) + 1 + wanted.count} compared, {len(failed)} differ"]))
    return 1 if failed else 0


if __name__ == "__main__":
    sys.exit(main())
