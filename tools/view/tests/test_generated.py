"""What a picture says of generated scripts of the whole language, against what the reference's machine did in each tick."""
from __future__ import annotations

import sys
import unittest

from view.main import FORMATS, drawer
from view.timeline import State, Timeline

from .worked import TOP, timeline_of_text

sys.path.insert(0, str(TOP / "tools" / "reference"))

from forms import Stage  # noqa: E402
from generate import accepted  # noqa: E402
from machine import Machine  # noqa: E402
from reader import read  # noqa: E402
from trace import trace  # noqa: E402

SCRIPTS = 60


class Watched(Machine):
    """The machine, which remembers who runs in each tick, who is ready, and what capacity the servers have."""

    def __init__(self, script) -> None:
        super().__init__(script)
        self.seen: list[tuple[int | None, list[bool]]] = []
        self.capacities: list[list[int | None]] = []

    def dispatch(self) -> int | None:
        head = super().dispatch()
        self.seen.append((head, [thread.is_ready for thread in self.threads]))
        self.capacities.append([None if thread.server is None else thread.server.capacity for thread in self.threads])
        return head


def watched(seed: int, stage: Stage = Stage.WHOLE) -> tuple[Watched, Timeline]:
    text, horizon = accepted(seed, stage)
    return seen_of(text, horizon)


def seen_of(text: bytes, horizon: int) -> tuple[Watched, Timeline]:
    script, _ = read(text)
    machine = Watched(script)
    machine.run_until(horizon)
    return machine, timeline_of_text(trace(machine))


def wrong(machine: Watched, seen: Timeline) -> list[str]:
    """Where the picture says otherwise than the machine did."""
    found = []
    for tick, (head, ready) in enumerate(machine.seen):
        for number, thread in enumerate(seen.threads):
            span = thread.span_at(tick)
            state = None if span is None else span.state
            agrees = (number == head) == (state is State.RUNNING)
            agrees = agrees and (state is not State.READY or ready[number]) and (state is not State.WAITING or not ready[number])
            if not agrees:
                found.append(f"tick {tick}, {thread.name}: {state}, the head is {head}, ready: {ready[number]}")
    return found


class Generated(unittest.TestCase):
    def test_stretches_are_what_the_machine_did(self) -> None:
        for seed in range(SCRIPTS):
            self.assertEqual(wrong(*watched(seed)), [], seed)

    def test_capacities_are_what_the_servers_had(self) -> None:
        """Of a thread that gets another policy in its life a trace does not tell where its server ends."""
        told = strict = 0
        for seed in range(SCRIPTS):
            text, horizon = accepted(seed, Stage.VERSION2)
            if b"setsched" in text:
                continue
            machine, seen = seen_of(text, horizon)
            for tick, capacities in enumerate(machine.capacities):
                for thread, capacity in zip(seen.threads, capacities, strict=True):
                    if thread.span_at(tick) is not None:
                        self.assertEqual(thread.capacity_at(tick), capacity, (seed, tick, thread.name))
                        told += capacity is not None
            strict += b" strict " in text
        self.assertGreater(told, 1000)
        self.assertGreater(strict, 10)

    def test_a_strict_server_is_full_before_it_runs(self) -> None:
        machine, seen = seen_of((TOP / "examples" / "26_strict_window.task").read_bytes(), 26)
        self.assertEqual([seen.threads[0].capacity_at(tick) for tick in range(2, 26)], [capacities[0] for capacities in machine.capacities[2:26]])
        self.assertEqual([seen.threads[0].capacity_at(tick) for tick in (1, 2, 8, 9, 12)], [None, 3, 3, 3, 0])

    def test_every_format_draws_them(self) -> None:
        drawers = [drawer(name) for name in FORMATS]
        for seed in range(0, SCRIPTS, 4):
            seen = watched(seed)[1]
            for draw in drawers:
                self.assertTrue(draw(seen), seed)


if __name__ == "__main__":
    unittest.main()
