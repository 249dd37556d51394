"""How often each answer of each call and each line of a trace comes up in generated scripts.

    python3 tools/reference/frequencies.py [--stage STAGE] [--first N] [--count N] [--least N] [--refused]

A row is an answer of a call (`mq_send EAGAIN`), one with a value that is not 0 (`timer_gettime 0 >0`), a delivery by
its code (`deliver TIMER`), a line about a thread that is declared with a strict server (`strict plan`), `strict joined`
for two plans of it that one refill gives back, or another line. Its two numbers are the scripts that have it and the lines that do. With
--refused the rows are the kinds of faults. A row that is to come up and that fewer than --least scripts have is
marked, and makes the exit status 1.
"""
from __future__ import annotations

import argparse
import re
import sys
from collections import Counter

import generate
from forms import Stage, built_forms
from reader import FaultKind
from simulate import answer

SLEEPS = ("EINTR",)
EXPECTED: dict[str, tuple[str, ...]] = {
    "yield": (), "create": ("EAGAIN",), "join": ("EDEADLK", "ESRCH", "EINVAL"), "cancel": ("ESRCH",),
    "testcancel": (), "setcancel": (), "push": (), "pop": (), "setprio": ("ESRCH", "EINVAL"), "setsched": ("ESRCH",),
    "lock": ("EINVAL", "EDEADLK"), "timedlock": ("EINVAL", "EDEADLK", "ETIMEDOUT"), "trylock": ("EINVAL", "EBUSY"),
    "unlock": ("EPERM",), "wait": ("EPERM", "EINVAL", "EDEADLK"),
    "timedwait": ("EPERM", "EINVAL", "EDEADLK", "ETIMEDOUT"), "signal": (), "broadcast": (),
    "sem_wait": SLEEPS, "sem_timedwait": ("ETIMEDOUT", *SLEEPS), "sem_trywait": ("EAGAIN",), "sem_getvalue": (),
    "sem_post": ("EOVERFLOW",), "nanosleep": SLEEPS, "clock_nanosleep": SLEEPS, "gettime": (),
    "timer_settime": (), "timer_gettime": (), "timer_getoverrun": (), "kill": ("EAGAIN",), "tkill": ("ESRCH", "EAGAIN"),
    "sigqueue": ("EAGAIN",), "sigmask": (), "sigwaitinfo": SLEEPS, "sigtimedwait": ("EAGAIN", *SLEEPS),
    "mq_send": ("EMSGSIZE", "EAGAIN", *SLEEPS), "mq_timedsend": ("EMSGSIZE", "EAGAIN", "ETIMEDOUT", *SLEEPS),
    "mq_receive": ("EAGAIN", *SLEEPS), "mq_timedreceive": ("EAGAIN", "ETIMEDOUT", *SLEEPS), "mq_notify": ("EBUSY",),
    "clock_settime": ("EINVAL",), "real_gettime": ()}
"""The errors that each call can answer; 65,535 locks of one mutex are more than a generated script has."""
LINES: dict[Stage, tuple[str, ...]] = {
    Stage.FIRST: ("dispatch", "idle", "start", "exit", "end"), Stage.SERVERS: ("activate", "exhaust", "plan", "refill"),
    Stage.LIVES: ("cancel",), Stage.SIGNALS: ("deliver USER", "deliver QUEUE", "killed"), Stage.TIMERS: ("deliver TIMER",),
    Stage.QUEUES: ("deliver MESGQ",),
    Stage.VERSION2: ("strict activate", "strict exhaust", "strict plan", "strict refill", "strict joined")}
"""The lines that scripts come to from a stage on."""
WITH_VALUE = frozenset(("timer_gettime", "timer_getoverrun", "nanosleep"))
"""Calls whose answers are told apart by whether their value is 0."""


def rows_of(line: str, strict: set[str]) -> list[str]:
    """The rows that a line of a trace is one of."""
    words = line.split()
    match words[1]:
        case "activate" | "exhaust" | "plan" | "refill" as word:
            return [f"strict {word}" if words[2] in strict else word]
        case "return":
            call, result, value = words[3:6]
            return [f"{call} {result}"] + [f"{call} {result} >0"] * (call in WITH_VALUE and value != "0")
        case "deliver":
            return [f"deliver {words[4]}"]
        case word:
            return [word] if words[0] != "thread" else []


def rows_of_run(script: bytes, trace: bytes) -> Counter[str]:
    strict = set(re.findall(r"^\W*thread\s+(\w+)\s+strict", script.decode("latin-1"), re.M))
    lines = trace.decode().splitlines()
    found = Counter(row for line in lines for row in rows_of(line, strict))
    return found + Counter({"strict joined": sum(joined(lines, name) for name in strict)})


def joined(lines: list[str], name: str) -> int:
    """The refills of a strict server that give back more than the oldest plan that they answer."""
    plans: list[int] = []
    found = 0
    for words in (line.split() for line in lines):
        if words[1:3] == ["plan", name]:
            plans.append(int(words[3]))
        elif words[1:3] == ["refill", name] and plans:
            amount = int(words[3])
            found += amount > plans[0]
            while plans and amount > 0:
                amount -= plans.pop(0)
    return found


def expected(stage: Stage) -> list[str]:
    """The rows that scripts of a stage are to have."""
    calls = [call for call in EXPECTED if call in built_forms(stage) or (call in ("push", "pop") and stage >= Stage.LIVES)]
    errors = [f"{call} {error}" for call in calls for error in EXPECTED[call]
              if error != "EINTR" or stage >= Stage.SIGNALS]
    values = [f"{call} 0 >0" for call in ("timer_gettime", "timer_getoverrun") if call in calls]
    lines = [line for since, some in LINES.items() if since <= stage for line in some]
    return [*(f"{call} 0" for call in calls), *errors, *values, *lines]


def main() -> int:
    parser = argparse.ArgumentParser(description="Counts what generated scripts come to.")
    parser.add_argument("--stage", default="whole")
    parser.add_argument("--first", type=int, default=0)
    parser.add_argument("--count", type=int, default=2000)
    parser.add_argument("--least", type=int, default=10)
    parser.add_argument("--refused", action="store_true")
    arguments = parser.parse_args()
    stage = Stage.named(arguments.stage)
    scripts: Counter[str] = Counter()
    lines: Counter[str] = Counter()
    for seed in range(arguments.first, arguments.first + arguments.count):
        if arguments.refused:
            words = answer(generate.refused(seed, stage), 1, stage)[1].decode().split()
            found = Counter([words[3] if words[0] == "refused" else "none"])
        else:
            script, horizon = generate.accepted(seed, stage)
            found = rows_of_run(script, answer(script, horizon, stage)[1])
        lines += found
        scripts.update(found.keys())
    faults = [kind.name for kind in FaultKind if stage is Stage.VERSION2 or kind is not FaultKind.BadVersion]
    wanted = faults if arguments.refused else expected(stage)
    seldom = 0
    for row in dict.fromkeys([*wanted, *sorted(lines)]):
        few = row in wanted and scripts[row] < arguments.least
        seldom += few
        print(f"{scripts[row]:6} {lines[row]:7}  {row}{'  seldom' if few else ''}")
    print(f"{arguments.count} scripts, {seldom} rows come up in fewer than {arguments.least} of them")
    return 1 if seldom else 0


if __name__ == "__main__":
    sys.exit(main())
