"""The command `pse52-live SCRIPT N`."""
from __future__ import annotations

import argparse
import os
import signal
from enum import IntEnum
from pathlib import Path

import command
from command import Usage, Words, carried_out

from . import known
from .due import NoTrace, Refused, Side, other_side
from .log import NotALog
from .rig import CannotRun, Options, Result, TooLong, run_script
from .runner import NoLog, NotBuilt, build, last_core
from .settings import Interrupted, NotAllowed, refused_by_kernel, why_not

TOOL = "pse52-live"
LEAST_TICK = 0.001  #: milliseconds


class Status(IntEnum):
    """The exit status; an interrupted run has INTERRUPTED and the number of the signal."""

    SAME = 0
    USAGE = 1
    REFUSED = 2
    CANNOT_RUN = 3
    NOT_ALLOWED = 4
    NOISY = 5
    UNKNOWN = 6
    KNOWN = 7
    NOT_BUILT = 70
    INTERRUPTED = 128


def words_of(words: list[str]) -> argparse.Namespace:
    parser = Words(TOOL, """Runs a script on real threads of this machine's kernel, and tells where its trace differs from the one that is due.
The trace that came out goes to standard output, all else to standard error.""")
    parser.add_argument("script", type=Path, metavar="SCRIPT")
    parser.add_argument("horizon", type=int, metavar="N", help="the horizon in ticks")
    parser.add_argument("--core", type=int, default=last_core(), metavar="K", help="the core that the threads run on")
    parser.add_argument("--tick", type=float, metavar="MS", help="the length of a tick in milliseconds: 5, or 8 with round robin threads")
    parser.add_argument("--times", type=int, default=2, metavar="T", help="runs in a row that must tell the same (2)")
    parser.add_argument("--handlers", action="store_true",
                        help="let signal handlers run while their thread waits for a mutex, a condition or the end of a thread")
    parser.add_argument("--program", metavar="WORDS", help="what says which trace is due; without it PSE52 of the environment, "
                        "or the proved program that bin/pse52 runs, or the reference")
    said = parser.read(words)
    if said.horizon < 0 or said.times < 1:
        raise Usage("N is at least 0, and T at least 1")
    if said.tick is not None and not said.tick >= LEAST_TICK:
        raise Usage(f"--tick is at least {LEAST_TICK} milliseconds")
    if said.core not in (cores := sorted(os.sched_getaffinity(0))):
        raise Usage(f"--core is one of {', '.join(map(str, cores))}")
    return said


def say(text: str) -> None:
    command.say(TOOL, text)


def report(result: Result, side: Side) -> Status:
    """Says what the runs show, and gives the status."""
    say(f"beside {side.name}; ticks of {result.place.tick:g} ms on core {result.place.core}, {result.attempts} runs")
    found = result.last.found
    if result.gave_up is not None:
        say(f"given up: {result.gave_up}; this machine is too busy for an answer")
        return Status.NOISY
    if found.unseen:
        say(f"{len(found.unseen)} lines stand where they are due, though their threads did not run on and could not show them")
    if found.agrees:
        say(f"same: {found.compared} events as they are due, {found.late} of them seen later, when their thread ran")
        return Status.SAME
    for difference in found.differences:
        say(f"differs at {difference}")
    if not result.names:
        say("no known difference explains the first one: the kernel breaks a rule that docs/REAL_KERNELS.md does not name, or the rig is wrong")
        return Status.UNKNOWN
    say("known differences that the script had come to by then, the latest first (docs/REAL_KERNELS.md):")
    for name in result.names:
        for line in known.told(name):
            say(f"    {line}")
    return Status.KNOWN


def carry_out(said: argparse.Namespace) -> Status:
    """Runs the script, writes the trace that came out, and reports."""
    text = said.script.read_bytes()
    side = other_side(said.program)
    options = Options(core=said.core, tick=said.tick, times=said.times, handlers_in_waits=said.handlers)
    result = run_script(text, said.horizon, side, options)
    command.write(TOOL, "".join(line + "\n" for line in result.last.found.lines))  # what differs is told also where that fails
    return report(result, side)


def carefully(words: list[str]) -> int:
    """Does what the words ask for, where this machine lets it."""
    why = why_not() or refused_by_kernel()
    if why is not None and not {"-h", "--help", "--version"} & set(words):
        raise NotAllowed(why)
    said = words_of(words)
    try:
        build()
        return carry_out(said)
    except Refused as refused:
        say(f"{refused} (docs/SCRIPT.md, Faults)")
        return Status.REFUSED
    except CannotRun as cannot:
        for line in cannot.lines:
            say(f"cannot run this: {line}")
        return Status.CANNOT_RUN
    except (Interrupted, KeyboardInterrupt) as interrupted:
        say("interrupted; the settings of the kernel are as they were")
        return Status.INTERRUPTED + getattr(interrupted, "number", signal.SIGINT)


def main(words: list[str]) -> int:
    return carried_out(TOOL, lambda: carefully(words), {
        TooLong: Status.USAGE, NotAllowed: Status.NOT_ALLOWED, OSError: Status.USAGE,
        **dict.fromkeys((NoTrace, NotBuilt, NoLog, NotALog), Status.NOT_BUILT)})
