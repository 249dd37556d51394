"""The lines of a log of ftrace: the time, the processor, the event, and its fields or its text."""
from __future__ import annotations

import re
from dataclasses import dataclass

from .names import nanoseconds

LINE = re.compile(r"\s*.+-\d+\s+(?:\(.*?\)\s+)?\[(?P<cpu>\d+)\]\s+(?:\S+\s+)?(?P<time>\d+\.\d+): (?P<event>[^\s:]+):\s+(?P<text>.*)")
SWITCH = re.compile(
    r"prev_comm=(?P<prev_comm>.*) prev_pid=(?P<prev_pid>\d+) prev_prio=-?\d+ prev_state=(?P<prev_state>\S+)"
    r" ==> next_comm=(?P<next_comm>.*) next_pid=(?P<next_pid>\d+) next_prio=(?P<next_prio>-?\d+)")
TASK = re.compile(r"comm=(?P<comm>.*?) pid=(?P<pid>\d+) prio=(?P<prio>-?\d+).*")
SWITCH_EVENT = "sched_switch"
WAKES = ("sched_wakeup", "sched_waking", "sched_wakeup_new")
# `trace_printk` writes the name of its function where `trace_marker` has tracing_mark_write; trace-cmd writes both behind print: or bprint:.
MARKER = re.compile(r"(?:\S+: )?(?P<words>pse52 .*)")
LOST = re.compile(r"CPU:\d+ \[(?:LOST (?:\d+ )?EVENTS|(?:\d+ )?EVENTS DROPPED)\]")


@dataclass(frozen=True)
class Entry:
    """One line: its time in nanoseconds, its event, the fields of the event, and the text behind it."""

    time: int
    cpu: int
    event: str
    fields: dict[str, str]
    text: str


def losses(text: str) -> int:
    """How many lines say that the kernel lost events there."""
    return sum(LOST.match(line.lstrip()) is not None for line in text.splitlines())


def read_log(text: str) -> list[Entry]:
    """The lines that have a time and an event; comments and all others are passed over."""
    found = []
    for line in text.splitlines():
        parts = None if line.startswith("#") else LINE.fullmatch(line)
        if parts is not None:
            shape = SWITCH if parts["event"] == SWITCH_EVENT else TASK
            fields = shape.fullmatch(parts["text"])
            found.append(Entry(nanoseconds(parts["time"]), int(parts["cpu"]), parts["event"],
                               fields.groupdict() if fields else {}, parts["text"]))
    return found
