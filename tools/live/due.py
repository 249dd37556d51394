"""The trace that is due, and who is asked for it: the proved program where bin/pse52 has one, else the reference."""
from __future__ import annotations

import os
import shlex
import subprocess
import sys
from dataclasses import dataclass, field

from . import TOP

REFERENCE = TOP / "tools" / "reference" / "simulate.py"
NOBODY = -1
SECONDS = 60
#: the events of a thread that its log has too
TOLD = ("start", "return", "deliver", "cancel", "exit")


class NoTrace(Exception):
    """What was asked for the trace gave none."""


class Refused(Exception):
    """The script has a fault."""


@dataclass(frozen=True)
class Side:
    """Who says which trace is due: the words that start it, and its name."""

    words: tuple[str, ...]
    name: str

    def trace(self, script: bytes, horizon: int) -> str:
        words = [*self.words, "run", str(horizon)]
        try:
            ended = subprocess.run(words, input=script, capture_output=True, timeout=SECONDS, check=False)
        except (OSError, subprocess.TimeoutExpired) as error:
            raise NoTrace(f"{self.name}: {error}") from error
        text = ended.stdout.decode(errors="replace")
        if ended.returncode == 2 and text.startswith("refused "):
            raise Refused(text.strip())
        if ended.returncode != 0:
            raise NoTrace(f"{self.name} has ended with {ended.returncode}: {text[:80].strip()} {ended.stderr.decode()[:200].strip()}")
        return text


def proved_program() -> str | None:
    """The program that bin/pse52 runs here, or None. Behind sudo its user asks, so that what bin/pse52 keeps stays that user's."""
    behind = {word: int(os.environ[name]) for word, name in (("user", "SUDO_UID"), ("group", "SUDO_GID")) if name in os.environ}
    which = subprocess.run(["sh", str(TOP / "bin" / "pse52"), "--which"], stdin=subprocess.DEVNULL, capture_output=True, text=True,
                           check=False, **behind)
    return which.stdout.strip() if which.returncode == 0 else None


def other_side(said: str | None = None) -> Side:
    """Who is asked: what was said, or PSE52 of the environment, or the proved program that bin/pse52 runs, or the reference."""
    program = proved_program()
    said = said or os.environ.get("PSE52")
    if said:
        return Side(tuple(shlex.split(said)), "the proved program" if said == program else said)
    if program is not None:
        return Side((program,), "the proved program")
    return Side((sys.executable, str(REFERENCE)), "the reference (tools/reference), since bin/pse52 has no program of the sources here")


@dataclass(frozen=True)
class Told:
    """An event of a thread in the trace: its time, its line's place, and its words without the thread.

    Its thread gets the processor next at `seen_by`, the horizon where it does not get it any more; until then nothing can be seen of
    the event from outside. `priority` is that of its last dispatch by then, 0 where there is none.
    """

    time: int
    place: int
    words: str
    seen_by: int
    is_seen: bool  #: whether its thread gets the processor once more
    priority: int


@dataclass
class Due:
    """A trace, and what can be seen of it from outside."""

    names: list[str]
    lines: list[str]
    owners: list[int] = field(default_factory=list)
    priorities: dict[int, int] = field(default_factory=dict)  #: of each tick with a dispatch line: the priority of its list
    ticks: list[int] = field(default_factory=list)
    killed: tuple[int, str] | None = None
    end: int = 0
    events: list[list[Told]] = field(default_factory=list)


def read_due(text: str, names: list[str]) -> Due:
    """The trace of a script with these threads."""
    due = Due(names, text.splitlines())
    try:
        _read_lines(due)
    except (ValueError, IndexError) as error:
        raise NoTrace("what is said to be due is no trace") from error
    return due


def _read_lines(due: Due) -> None:
    numbers = {name: number for number, name in enumerate(due.names)}
    found: list[tuple[int, int, int, str]] = []
    owner = NOBODY
    for place, line in enumerate(due.lines):
        words = line.split()
        if words[0] == "thread":
            due.ticks.append(int(words[3]))
            continue
        time = int(words[0])
        match words[1]:
            case "dispatch" | "idle" | "end":
                due.owners += [owner] * (time - len(due.owners))
                due.end = time
                owner = numbers[words[2]] if words[1] == "dispatch" else NOBODY
                if words[1] == "dispatch":
                    due.priorities[time] = int(words[3])
            case "killed":
                due.killed = (time, words[2])
            case kind if kind in TOLD:
                found.append((time, place, numbers[words[2]], " ".join([kind, *words[3:]])))
            case other:
                raise ValueError(other)
    due.events = [[] for _ in due.names]
    for time, place, thread, words in found:
        turn = next((tick for tick in range(time, len(due.owners)) if due.owners[tick] == thread), None)
        seen_by = due.end if turn is None else turn
        dispatches = [tick for tick in due.priorities if tick <= seen_by and due.owners[tick:tick + 1] == [thread]]
        priority = due.priorities[max(dispatches)] if dispatches else 0
        due.events[thread].append(Told(time, place, words, seen_by, turn is not None, priority))
