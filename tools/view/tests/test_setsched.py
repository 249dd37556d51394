"""Servers that a setsched ends, replaces or gives, with figures that are worked out by hand; of each the trace alone and the detail."""
from __future__ import annotations

import unittest

from view.lines import read_trace
from view.main import drawer
from view.seen import timeline_of
from view.timeline import State, ThreadLine

from .details import detail_of, trace_of
from .worked import timeline_of_text

CONTROL = "thread c fifo 20 at 3\nsetsched s {}\n{}end\n"
SERVER = "thread s sporadic 9 2 20 5 2 at 0\n{}end\n"


def threads(script: str, *, horizon: int = 30) -> list[ThreadLine]:
    """The thread s, of the trace alone and of the detail."""
    seen = [timeline_of(read_trace(text(script.encode(), horizon).splitlines(keepends=True))) for text in (trace_of, detail_of)]
    return [next(thread for thread in one.threads if thread.name == "s") for one in seen]


def highs(thread: ThreadLine) -> list[tuple[int, int, bool | None]]:
    return [(span.start, span.end, span.high) for span in thread.spans if span.state is State.RUNNING]


class Ended(unittest.TestCase):
    """Up to 3 s uses 3 of 5 ticks. At 4 it is a thread under SCHED_FIFO."""

    def test_below_and_longer_than_its_capacity(self) -> None:
        for thread in threads(CONTROL.format("fifo 5", "") + SERVER.format("run 20\n")):
            self.assertEqual(highs(thread), [(0, 3, True), (5, 23, None)])
            self.assertEqual([thread.capacity_at(tick) for tick in (0, 1, 2, 3, 4, 5, 22)], [5, 4, 3, 2, 0, 0, 0])

    def test_lower_alone(self) -> None:
        """Of the two ticks of its capacity it takes one for its step and one for its end."""
        for thread in threads(CONTROL.format("fifo 5", "") + SERVER.format("run 4\n")):
            self.assertEqual(highs(thread), [(0, 3, True), (5, 7, None)])
            self.assertEqual(thread.capacity_at(6), 0)

    def test_longer_alone(self) -> None:
        for thread in threads(CONTROL.format("fifo 12", "") + SERVER.format("run 5\n")):
            self.assertEqual(highs(thread), [(0, 3, True), (5, 8, None)])
            self.assertEqual([thread.capacity_at(tick) for tick in (3, 4, 7)], [2, 0, 0])

    def test_another_thread_was_meant(self) -> None:
        """The setsched is for c itself, and s goes on with what it has."""
        for thread in threads("thread c fifo 20 at 3\nsetsched c fifo 19\nend\n" + SERVER.format("run 4\n")):
            self.assertEqual(highs(thread), [(0, 3, True), (5, 7, True)])
            self.assertEqual([thread.capacity_at(tick) for tick in (3, 4, 5, 6)], [2, 2, 2, 1])

    def test_the_sentence_and_the_counter(self) -> None:
        script = (CONTROL.format("fifo 5", "") + SERVER.format("run 20\n")).encode()
        seen = timeline_of(read_trace(detail_of(script, 30).splitlines(keepends=True)))
        self.assertIn("<title>s runs at priority 5 for 18 ticks [5, 23)</title>", drawer("svg")(seen))
        self.assertIn('"ts":0.004,"name":"capacity of s","args":{"ticks":0}}', drawer("perfetto")(seen))


class Replaced(unittest.TestCase):
    def test_a_new_server_is_activated_at_once(self) -> None:
        """s uses 2 ticks and plans them for 20. It wakes at 4 with the 3 that are left; from 7 on it has 4, which it uses and plans for 27."""
        script = "thread c fifo 20 at 6\nsetsched s sporadic 10 2 20 4 2\nend\n" + SERVER.format("run 1\nnanosleep 2\nrun 30\n")
        for thread in threads(script, horizon=30):
            self.assertEqual([(plan.time, plan.amount, plan.due, plan.refilled) for plan in thread.plans], [(2, 2, 20, None), (12, 4, 27, 27)])
            self.assertEqual(highs(thread), [(0, 2, True), (4, 6, True), (8, 12, True), (12, 27, False), (27, 30, True)])
            self.assertEqual([thread.capacity_at(tick) for tick in (5, 6, 7, 8, 11, 12, 27)], [2, 1, 4, 4, 1, 0, 4])

    def test_a_blocked_thread_gets_one_that_is_full(self) -> None:
        """s has 3 of 5 ticks left where it waits from 2 on. It gets a server of 4 at 4, wakes at 6, and has used it at 11 and again at 30."""
        script = "sem q 0\n" + CONTROL.format("sporadic 10 2 20 4 2", "run 1\nsem_post q\n") + SERVER.format("run 1\nsem_wait q\nrun 30\n")
        for thread in threads(script):
            self.assertEqual([thread.capacity_at(tick) for tick in (0, 1, 2, 3, 4, 5, 6, 7, 8)], [5, 4, 3, 3, 4, 4, 4, 4, 3])
            self.assertEqual([plan.refilled for plan in thread.plans], [None, 26, None])

    def test_a_thread_is_given_one(self) -> None:
        """Before it had its server it did not run at a high priority."""
        script = "sem q 0\n" + CONTROL.format("sporadic 10 2 20 4 2", "sem_post q\n") + "thread s fifo 5 at 0\nrun 2\nsem_wait q\nrun 20\nend\n"
        for thread in threads(script):
            self.assertEqual(highs(thread), [(0, 3, None), (6, 10, True), (10, 25, False), (25, 27, True)])


class Many(unittest.TestCase):
    def test_a_server_that_is_replaced_again_and_again(self) -> None:
        """Each of 20,000 new servers has 5, and s runs for one tick of ten with it; c has the other nine."""
        lines = ["0 start c", "0 start s", "0 activate s 5", "0 dispatch c 20"]
        for at in range(10, 200_001, 10):
            lines += [f"{at - 1} dispatch s 9", f"{at} dispatch c 20", f"{at + 1} return c setsched 0 0", f"{at + 1} activate s 5"]
        thread = next(thread for thread in timeline_of_text("\n".join([*lines, "200009 end", ""])).threads if thread.name == "s")
        self.assertEqual({high for _, _, high in highs(thread)}, {True})
        self.assertEqual([thread.capacity_at(tick) for tick in (8, 9, 10, 11, 150_009, 150_010, 150_011)], [5, 5, 4, 5, 5, 4, 5])


class Unchanged(unittest.TestCase):
    def test_a_setprio_lowers_a_server_that_stays(self) -> None:
        """c sets the high priority of s to 8 at 4, and its own policy at 5: s runs lower, and has its server still."""
        script = "thread c fifo 20 at 3\nsetprio s 8\nsetsched c fifo 19\nend\n" + SERVER.format("run 4\n")
        for thread in threads(script):
            self.assertEqual(highs(thread), [(0, 3, True), (6, 8, True)])

    def test_a_strict_server_is_full_from_a_setsched_on(self) -> None:
        """What is told where it is first dispatched, or by its closing line, holds from the setsched at 2 on, and not from its start."""
        for lines in ("5 dispatch s 9\n5 activate s 3\n6 end\nthread c ticks 5\nthread s ticks 1 high 1 init 3 refilled 0 capacity 2\n",
                      "6 end\nthread c ticks 6\nthread s ticks 0 high 0 init 3 refilled 0 capacity 3\n"):
            thread = timeline_of_text("0 start c\n0 start s\n0 dispatch c 20\n2 return c setsched 0 0\n" + lines).threads[1]
            self.assertEqual([thread.capacity_at(tick) for tick in (1, 2, 4, 5)], [None, 3, 3, 3])
        failed = timeline_of_text("0 start c\n0 start s\n0 dispatch c 20\n2 return c setsched ESRCH 0\n" + lines).threads[1]
        self.assertEqual([failed.capacity_at(tick) for tick in (0, 4)], [3, 3])


if __name__ == "__main__":
    unittest.main()
