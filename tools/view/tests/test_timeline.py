"""What threads did, against worked traces read by hand and against the closing lines of every worked trace."""
from __future__ import annotations

import unittest

from view.timeline import State

from .worked import (
    CONTROLLER, CONTROLLER_CAPACITY, CONTROLLER_RUNS, CONTROLLER_WAITS, SLEEPS, SLEEPS_RUNS, TWO_BUDGETS,
    TWO_BUDGETS_CAPACITY, TWO_BUDGETS_RUNS, all_worked, joined, timeline, timeline_of_text)


def runs(seen) -> list[tuple[int, int, str, int]]:
    return joined([(span.start, span.end, thread.name, span.priority)
                   for thread in seen.threads for span in thread.spans if span.state is State.RUNNING])


# A strict server with one pending replenishment: preempted at 2 and exhausted at 6, it joins both plans in the refill of 14.
STRICT = """\
0 start s
0 dispatch s 8
0 activate s 4
2 start h
2 plan s 2 10
2 dispatch h 9
4 exit h
4 dispatch s 8
4 activate s 2
6 exhaust s
6 plan s 2 14
14 refill s 4 4
14 activate s 4
16 end
thread s ticks 14 high 6 init 4 refilled 4 capacity 2
thread h ticks 2
"""


class Strict(unittest.TestCase):
    def test_a_plan_at_a_preemption_is_no_wait(self) -> None:
        strict = timeline_of_text(STRICT).threads[0]
        self.assertEqual([(s.start, s.end, s.state) for s in strict.spans if s.state is not State.RUNNING], [(2, 4, State.READY)])
        self.assertEqual([strict.capacity_at(tick) for tick in (0, 1, 2, 3, 4, 5, 6, 13, 14, 15)], [4, 3, 2, 2, 2, 1, 0, 0, 4, 3])
        self.assertEqual([(plan.amount, plan.due, plan.refilled) for plan in strict.plans], [(2, 10, 14), (2, 14, 14)])
        self.assertEqual(strict.high_ticks, 6)

    def test_its_last_stretch_is_not_told(self) -> None:
        """Up to the preemption alone nobody knows whether it waits, but what comes later tells that it was strict."""
        seen = timeline_of_text("".join(line + "\n" for line in STRICT.splitlines()[:6]))
        self.assertIs(seen.threads[0].span_at(1).state, State.RUNNING)


class Timelines(unittest.TestCase):
    def test_who_runs_in_the_controller(self) -> None:
        seen = timeline(CONTROLLER)
        self.assertEqual([thread.name for thread in seen.threads], ["ctl", "srv", "mon"])
        self.assertEqual(runs(seen), CONTROLLER_RUNS)
        self.assertEqual(seen.idle, [(7, 20)])

    def test_who_waits_in_the_controller(self) -> None:
        seen = timeline(CONTROLLER)
        waits = [(thread.name, span.start, span.end, span.call)
                 for thread in seen.threads for span in thread.spans if span.state is State.WAITING]
        self.assertEqual(waits, CONTROLLER_WAITS + [])
        last = [thread.spans[-1].state for thread in seen.threads]
        self.assertEqual(last, [State.OFF, State.OFF, State.RUNNING])

    def test_a_preempted_thread_is_ready(self) -> None:
        seen = timeline("preempted_resumes_at_head")
        ready = {thread.name: [(s.start, s.end) for s in thread.spans if s.state is State.READY] for thread in seen.threads}
        self.assertTrue(all(spans for name, spans in ready.items() if name in "ab"), ready)

    def test_capacities_at_each_tick(self) -> None:
        for name, wanted in ((CONTROLLER, CONTROLLER_CAPACITY), (TWO_BUDGETS, TWO_BUDGETS_CAPACITY)):
            server = next(thread for thread in timeline(name).threads if thread.is_sporadic)
            self.assertEqual({tick: server.capacity_at(tick) for tick in wanted}, wanted)
            self.assertIsNone(server.capacity_at(min(wanted) - 1))

    def test_two_budgets(self) -> None:
        seen = timeline(TWO_BUDGETS)
        server = seen.threads[0]
        self.assertEqual(runs(seen), TWO_BUDGETS_RUNS)
        self.assertEqual([(s.start, s.end, s.high) for s in server.spans if s.state is State.RUNNING],
                         [(9, 12, True), (12, 15, True), (15, 17, False)])
        self.assertEqual([(p.time, p.amount, p.due, p.refilled) for p in server.plans], [(12, 3, 12, 12), (15, 3, 22, None)])

    def test_the_greatest_horizon(self) -> None:
        self.assertEqual(runs(timeline(SLEEPS)), SLEEPS_RUNS)

    def test_closing_lines_agree_with_the_stretches(self) -> None:
        for name in all_worked():
            for thread in timeline(name).threads:
                self.assertEqual(thread.ticks, thread.closing.ticks, (name, thread.name))
                budget = thread.closing.budget
                if budget is not None and "setsched" not in name:
                    self.assertEqual(thread.high_ticks, budget.high, (name, thread.name))
                    last = thread.capacity[-1]
                    self.assertEqual(last.last, budget.capacity, (name, thread.name))

    def test_stretches_of_a_thread_follow_one_another(self) -> None:
        for name in all_worked():
            for thread in timeline(name).threads:
                for before, after in zip(thread.spans, thread.spans[1:]):
                    self.assertEqual(before.end, after.start, (name, thread.name))
                    self.assertLess(before.start, before.end)

    def test_an_idle_processor_tells_who_waits(self) -> None:
        seen = timeline_of_text("0 start a\n0 dispatch a 5\n1 idle\n9 end\nthread a ticks 1\n")
        self.assertEqual([(s.start, s.end, s.state) for s in seen.threads[0].spans],
                         [(0, 1, State.RUNNING), (1, 9, State.WAITING)])

    def test_a_handler_that_waits_for_the_processor_is_ready(self) -> None:
        seen = timeline_of_text("0 start a\n0 dispatch a 5\n2 start b\n2 dispatch b 6\n3 return b tkill 0 0\n"
                                "3 deliver a rt1 USER 0\n5 end\nthread a ticks 2\nthread b ticks 3\n")
        self.assertEqual([(s.start, s.end, s.state) for s in seen.threads[0].spans],
                         [(0, 2, State.RUNNING), (2, 5, State.READY)])
        seen = timeline_of_text("0 start a\n0 dispatch a 5\n1 idle\n3 deliver a rt1 TIMER 0\n3 return a sigwaitinfo 0 1\n"
                                "3 dispatch a 5\n4 killed rt2\n4 end\nthread a ticks 2\n")
        self.assertEqual([(s.start, s.end, s.state, s.call) for s in seen.threads[0].spans],
                         [(0, 1, State.RUNNING, ""), (1, 3, State.WAITING, "sigwaitinfo"), (3, 4, State.RUNNING, "")])

    def test_a_wake_without_activate_is_at_low_priority(self) -> None:
        seen = timeline_of_text(
            "0 start s\n0 activate s 3\n0 dispatch s 8\n2 plan s 2 9\n2 idle\n4 return s nanosleep 0 0\n4 dispatch s 2\n"
            "6 end\nthread s ticks 4 high 2 init 3 refilled 0 capacity 1\n")
        self.assertEqual(seen.threads[0].high_ticks, 2)
        self.assertEqual(seen.threads[0].capacity_at(5), 1)

    def test_a_beginning_of_a_trace(self) -> None:
        seen = timeline_of_text("0 start a\n0 dispatch a 5\n7 return a yield 0 0\n")
        self.assertFalse(seen.finished)
        self.assertEqual((seen.end, runs(seen)), (7, [(0, 7, "a", 5)]))


if __name__ == "__main__":
    unittest.main()
