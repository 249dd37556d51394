"""The texts of `show N` and `detail N`: the facts of one instant, and a trace with the facts that change."""
from __future__ import annotations

from facts import Facts, number_lines
from machine import Machine
from script import Script, signal_text
from trace import closing_lines, event_line


def show(script: Script, instant: int, checked: bool = False) -> str:
    """The facts of the state from which the tick of this instant is dispatched, or of the killed state before it."""
    machine = Machine(script, checked)
    machine.run_until(instant)
    machine.handle_due_items()
    lines = [f"{machine.now} state"]
    if machine.killed is not None:
        lines.append(f"killed {signal_text(machine.killed)}")
    lines += Facts(script, machine).texts()
    lines += [line for thread in machine.threads for line in number_lines(thread)]
    return "".join(line + "\n" for line in lines)


def detail(script: Script, horizon: int, checked: bool = False) -> str:
    """The trace, and behind the lines of each instant before its end the facts that differ from those of the one before."""
    machine = Machine(script, checked)
    facts = Facts(script, machine)
    lines: list[str] = []
    told = 0
    before = facts.rows()
    while machine.now < horizon and machine.killed is None:
        machine.handle_due_items()
        if machine.killed is not None:
            break
        now, after = machine.now, facts.rows()
        machine.end_instant()
        events = machine.events[told:]
        here = [event for event in events if event.time == now]
        told += len(here)
        lines += [event_line(event) for event in here]
        lines += [f"{now} {text}\n" for text in facts.changes(before, after)]
        before = after
    lines += [event_line(event) for event in machine.events[told:]]
    return "".join(lines) + closing_lines(machine)

