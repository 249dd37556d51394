"""A second computation of the figures: the reference's machine, looked at in each tick, and counts of what is seen there."""
from __future__ import annotations

import sys
from collections import Counter
from dataclasses import dataclass
from pathlib import Path

TOP = Path(__file__).resolve().parents[3]
sys.path.append(str(TOP / "tools" / "reference"))

from forms import ObjectKind  # noqa: E402
from machine import Machine  # noqa: E402
from reader import read  # noqa: E402
from state import ThreadState, WaitKind  # noqa: E402

OBJECTS = {WaitKind.MUTEX: ObjectKind.MUTEX, WaitKind.CONTENTION: ObjectKind.MUTEX, WaitKind.COND: ObjectKind.COND, WaitKind.SEM: ObjectKind.SEM,
           WaitKind.SEND: ObjectKind.QUEUE, WaitKind.RECEIVE: ObjectKind.QUEUE, WaitKind.JOIN: ObjectKind.THREAD}


@dataclass
class Tick:
    """What is seen of each thread as a tick is dispatched: who runs, states, execution priorities, waits as (call, for), high servers."""

    head: int | None
    states: list[ThreadState]
    priorities: list[int]
    waits: list[tuple[str, str] | None]
    high: list[bool]


class Watched(Machine):
    """The machine, which writes down what is seen in each tick."""

    def __init__(self, text: bytes) -> None:
        script, fault = read(text)
        assert script is not None, fault
        super().__init__(script)
        self.names = {kind: [named.name for named in script.objects(kind)] for kind in ObjectKind}
        self.seen: list[Tick] = []

    def dispatch(self) -> int | None:
        head = super().dispatch()
        self.seen.append(Tick(head, [thread.state for thread in self.threads], self.exec_priorities(), list(map(self.wait_of, self.threads)),
                              [thread.server is not None and thread.server.is_high for thread in self.threads]))
        return head

    def wait_of(self, thread) -> tuple[str, str] | None:
        """The call in which a thread is blocked and what it waits for; signals are not told apart."""
        if thread.wait is None:
            return None
        kind = OBJECTS.get(thread.wait.kind)
        return thread.wait.call.word, self.names[kind][thread.wait.target] if kind else ""

    # Figures, each counted over the ticks.

    def ran(self, number: int) -> int:
        return sum(tick.head == number for tick in self.seen)

    def ready(self, number: int) -> int:
        return sum(tick.states[number] is ThreadState.READY and tick.head != number for tick in self.seen)

    def blocked(self, number: int) -> int:
        return sum(tick.states[number] is ThreadState.BLOCKED for tick in self.seen)

    def at_priorities(self, number: int) -> Counter[int]:
        return Counter(tick.priorities[number] for tick in self.seen if tick.head == number)

    def high(self, number: int) -> int:
        return sum(tick.head == number and tick.high[number] for tick in self.seen)

    def stops(self, number: int) -> tuple[int, int]:
        """How often it ran, and in the next tick stood ready behind a more urgent one, or behind one that is not."""
        preempted = turns = 0
        for before, after in zip(self.seen, self.seen[1:]):
            if before.head == number != after.head and after.states[number] is ThreadState.READY:
                more = after.priorities[after.head] > after.priorities[number]
                preempted, turns = preempted + more, turns + (not more)
        return preempted, turns

    def waits(self, number: int) -> Counter[tuple[str, str]]:
        """The ticks of each wait."""
        return Counter(tick.waits[number] for tick in self.seen if tick.waits[number] is not None)

    def wait_counts(self, number: int) -> Counter[tuple[str, str]]:
        """How many waits there were: ticks with a wait that the tick before has not."""
        before, counts = None, Counter()
        for tick in self.seen:
            if tick.waits[number] is not None and tick.waits[number] != before:
                counts[tick.waits[number]] += 1
            before = tick.waits[number]
        return counts

    def ended_after(self, number: int, ticks: int) -> int | None:
        """The instant at which the thread has run for so many ticks."""
        ran = 0
        for tick, seen in enumerate(self.seen):
            ran += seen.head == number
            if seen.head == number and ran == ticks:
                return tick + 1
        return None
