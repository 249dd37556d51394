"""Watchers note a difference where one shows, and not where the kernel does what is due."""
from __future__ import annotations

import unittest

from live.rig import script_of
from live.watched import watched

KEEPS, NOT_COUNTED = "waiter-keeps-its-place", "boost-not-counted"
RAISED = "thread k fifo 9 at 3\n setprio a 8\nend\n"
LENDS = "thread h fifo 8 at 5\n lock m\nend\n"


def waits(name: str, priority: int, start: int, *steps: str) -> str:
    return "".join(f"{line}\n" for line in (f"thread {name} fifo {priority} at {start}", *steps, "end"))


def noted(*parts: str) -> set[str]:
    """What is noted of the two by the time at which a thread runs that could end a wait."""
    return set(watched(script_of("".join([*parts, waits("z", 1, 9, "run 1")]).encode()), 24).noted) & {KEEPS, NOT_COUNTED}


class Places(unittest.TestCase):
    """A waiter that is alone is raised, by setprio or by a mutex that it owns, and then another one comes to wait."""

    def test_a_waiter_that_was_alone_when_it_was_raised(self) -> None:
        lines = {
            "sem s 0\n": ("sem_wait s",),
            "mutex m inherit\ncond c\n": ("lock m", "wait c m", "unlock m"),
            "mutex n none\nthread p fifo 2 at 0\n lock n\n run 9\n unlock n\nend\n": ("lock n", "unlock n")}
        for objects, steps in lines.items():
            with self.subTest(steps):
                first, second = waits("a", 4, 1, *steps), waits("b", 6, 5, *steps)
                self.assertEqual(noted(objects, first, RAISED, second), {KEEPS})
                self.assertEqual(noted(objects, first, RAISED), set())
                self.assertEqual(noted(objects, first, second), set())

    def test_a_queue_reads_the_priority_anew_when_the_next_one_comes(self) -> None:
        first, second = waits("a", 4, 1, "mq_receive q"), waits("b", 6, 5, "mq_receive q")
        self.assertEqual(noted("queue q 1 8\n", first, RAISED, second), set())
        owner, other = waits("a", 2, 0, "lock m", "mq_receive q", "unlock m"), waits("b", 4, 4, "mq_receive q")
        self.assertEqual(noted("queue q 1 8\nmutex m inherit\n", owner, other, LENDS), {KEEPS})

    def test_a_waiter_that_inherits_while_it_waits(self) -> None:
        owner = waits("a", 2, 0, "lock m", "sem_wait s", "unlock m")
        self.assertEqual(noted("sem s 0\nmutex m inherit\n", owner, LENDS, waits("b", 4, 7, "sem_wait s")), {NOT_COUNTED})
        self.assertEqual(noted("sem s 0\nmutex m inherit\n", owner, LENDS), set())

    def test_a_mutex_with_inheritance_sorts_its_waiters_anew(self) -> None:
        holder, steps = waits("p", 2, 0, "lock n", "run 9", "unlock n"), ("lock n", "unlock n")
        self.assertEqual(noted("mutex n inherit\n", holder, waits("a", 4, 2, *steps), RAISED, waits("b", 6, 6, *steps)), set())


if __name__ == "__main__":
    unittest.main()
