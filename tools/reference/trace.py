"""The text of a run: one line for each event, then the closing lines."""
from __future__ import annotations

from machine import Machine
from state import Event, Thread


def event_line(event: Event) -> str:
    return " ".join(str(word) for word in (event.time, *event.words)) + "\n"


def event_lines(machine: Machine) -> str:
    return "".join(event_line(event) for event in machine.events)


def thread_line(thread: Thread) -> str:
    """The ticks of a thread and, for a live sporadic one, its budget."""
    line = f"thread {thread.name} ticks {thread.ticks}"
    if thread.server is not None:
        server = thread.server
        line += (f" high {server.high_total} init {server.parameters.budget}"
                 f" refilled {server.refilled_total} capacity {server.capacity}")
    return line + "\n"


def closing_lines(machine: Machine) -> str:
    return f"{machine.now} end\n" + "".join(thread_line(thread) for thread in machine.threads)


def trace(machine: Machine) -> str:
    return event_lines(machine) + closing_lines(machine)
