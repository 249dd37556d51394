"""What threads and servers used, with figures that are worked out by hand from the rules."""
from __future__ import annotations

import unittest

from measure.jobs import Job, NamesNothing, periodic
from measure.measures import measure_of
from measure.seen import Seen
from measure.tables import servers_table, waits_table
from measure.usage import Stops, Waits, at_priorities, is_server, stops_of, ticks_of, waits_of
from view.lines import read_trace
from view.tests.details import detail_of, trace_of

# a waits from 1 to 5, from 7 to 13, and from 15 on; b posts in the ticks that end at 5 and 13, and ends at 26.
POSTS = ("sem s 0\nthread a fifo 9 at 0\nsem_wait s\nrun 1\nsem_wait s\nrun 1\nsem_wait s\nend\n"
         "thread b fifo 5 at 0\nrun 3\nsem_post s\nrun 5\nsem_post s\nrun 10\nend\n")
# a waits for the condition from 2 on; b has the mutex from 4 on, signals in the tick that ends at 5, and unlocks in the one that ends at 9.
CONDITION = ("mutex m none\ncond c\nthread a fifo 9 at 0\nlock m\nwait c m\nunlock m\nend\n"
             "thread b fifo 5 at 3\nlock m\nsignal c\nrun 3\nunlock m\nrun 5\nend\n")
# b gives a another priority in the tick that ends at 11.
RAISED = ("mutex m inherit\nthread a fifo 5 at 0\nnanosleep 4\nlock m\nrun 1\nend\nthread o fifo 3 at 0\nlock m\nrun 19\nunlock m\nend\n"
          "thread b fifo 9 at 10\nsetprio a 7\nend\n")
# Two of one priority with slices of 4, and one above them.
TURNS = ("quantum 4\nthread a rr 5 at 0\nrun 2\nyield\nrun 20\nend\nthread b rr 5 at 0\nrun 20\nend\nthread c fifo 9 at 1\nrun 2\nend\n")
# s gets new parameters under its server: three ticks at high priority before, and two behind.
ANEW = """\
0 start s
0 activate s 3
0 dispatch s 8
3 exhaust s
3 plan s 3 20
5 return s setsched {result} 0
{behind}12 end
thread s ticks 12{closing}
"""

# Four ticks up to the wait, five of a run, and the end.
WAITS_FOR_NO_TIME = ("timer k rt1 7\nthread s sporadic 9 5 20 {server} at 0\n"
                     "sigmask block rt1\ntimer_settime k abs 4 0\nrun 1\nsigwaitinfo rt1\nrun 5\nend\n")
# b gives s another policy: no line tells that the server of s is gone.
SILENT = ("thread s sporadic 20 2 40 4 4 at 0\nrun 60\nend\n"
          "thread b fifo 30 at {start}\nsetsched s fifo 15\nend\n")


def read(text: bytes) -> Seen:
    return Seen(read_trace(text.splitlines(keepends=True)))


def detail(script: str, horizon: int) -> Seen:
    return read(detail_of(script.encode(), horizon))


def figures(seen: Seen, **words: object) -> list[str]:
    return measure_of({"name": "m", **words}).figures(seen)


class WaitsByHand(unittest.TestCase):
    def test_waits_up_to_the_end(self) -> None:
        """At 13 the second one ends with the run; at 10 it has lasted 3 ticks and is open; and so is the third at 30, after 15."""
        for horizon, times, ticks, longest, is_open in ((10, 2, 7, 4, True), (13, 2, 10, 6, False), (15, 2, 10, 6, False), (30, 3, 25, 15, True)):
            seen = detail(POSTS, horizon)
            self.assertEqual(waits_of(seen, "a"), [Waits("sem_wait", "s", times, ticks, longest, is_open)], horizon)
            self.assertEqual(waits_table(seen).rows, [["a", "sem_wait", "s", str(times), str(ticks), str(longest), str(int(is_open))]])
            self.assertEqual(figures(seen, kind="blocked", thread="a"), [str(times), str(ticks), str(longest)])
            self.assertEqual(figures(seen, kind="blocked", thread="a", on="t"), ["0", "0", ""])

    def test_a_priority_that_changes_in_a_wait(self) -> None:
        """a waits for m from 6 on, o owns it from 2 to 25, with b in between for 2 ticks: one wait, though a has another priority from 11 on."""
        for horizon, ticks, is_open in ((60, 19, False), (20, 14, True)):
            seen = detail(RAISED, horizon)
            self.assertEqual(waits_of(seen, "a")[1:], [Waits("lock", "m", 1, ticks, ticks, is_open)], horizon)
            self.assertEqual(figures(seen, kind="blocked", thread="a", call="lock"), ["1", str(ticks), str(ticks)])

    def test_a_condition_and_its_mutex(self) -> None:
        """a waits for c from 2 to 5 and for m up to 9: two rows, and one call."""
        seen = detail(CONDITION, 20)
        self.assertEqual([(wait.call, wait.on, wait.times, wait.ticks) for wait in waits_of(seen, "a")], [("wait", "c", 1, 3), ("wait", "m", 1, 4)])
        self.assertEqual(figures(seen, kind="blocked", thread="a", call="wait"), ["2", "7", "4"])
        self.assertEqual(figures(seen, kind="blocked", thread="a", on="m"), ["1", "4", "4"])
        self.assertEqual(figures(seen, kind="blocked", thread="a", call="lock"), ["0", "0", ""])
        self.assertEqual(seen.calls("a", "wait"), [2])

    def test_sleeps_of_a_trace_alone(self) -> None:
        """A run of 3 and the sleep in its fourth tick, from the second job on behind a jump: calls at 4, 25 and 45."""
        script = b"thread t fifo 5 at 0\nset 0\nforever\nrun 3\nadd 20\nclock_nanosleep reg\nend\nend\n"
        for seen in (read(trace_of(script, 61)), read(detail_of(script, 61))):
            self.assertEqual(periodic(seen, "t", 20, 0, "call clock_nanosleep", None).jobs, [Job(0, 4), Job(20, 25), Job(40, 45), Job(60, None)])


class ThreadsByHand(unittest.TestCase):
    def test_ticks_without_closing_lines(self) -> None:
        text = b"0 start a\n0 start b\n0 dispatch a 5\n3 dispatch b 9\n5 dispatch a 5\n9 idle\n12 end\n"
        self.assertEqual([ticks_of(read(text), name) for name in "ab"], [7, 2])
        self.assertEqual(figures(read(text), kind="utilisation", thread="a"), ["0.583"])
        self.assertEqual(figures(read(b"0 end\nthread a ticks 0\n"), kind="utilisation", thread="a"), [""])

    def test_preemptions_and_turns(self) -> None:
        """c runs from 1 to 4, and a goes on and yields at 6; b has its slice of 4. A yield begins no new one, so a has one tick left of its first."""
        seen = detail(TURNS, 20)
        self.assertEqual([(start, end) for start, end in seen.runs["a"]], [(0, 1), (4, 6), (10, 11), (15, 19)])
        self.assertEqual((stops_of(seen, "a"), stops_of(seen, "b"), stops_of(seen, "c")), (Stops(1, 3), Stops(0, 2), Stops(0, 0)))
        self.assertEqual((at_priorities(seen, "a"), at_priorities(seen, "c")), ({5: 8}, {9: 3}))


class ServersByHand(unittest.TestCase):
    def changed(self, behind: str = "", closing: str = "", result: str = "0") -> Seen:
        return read(ANEW.format(behind=behind, closing=closing, result=result).encode())

    def test_a_live_server_with_new_parameters(self) -> None:
        """The closing line is of the new server alone, which had its budget of 2; 5 of 12 ticks were at high priority."""
        seen = self.changed("5 activate s 2\n7 exhaust s\n7 plan s 2 25\n", " high 2 init 2 refilled 0 capacity 0")
        self.assertEqual(figures(seen, kind="high_share", thread="s"), ["0.417"])
        self.assertEqual(figures(seen, kind="capacity", thread="s"), ["2", "2"])
        self.assertEqual(figures(seen, kind="refill_wait", thread="s"), ["7", "5"])
        self.assertEqual(servers_table(seen).rows, [["s", "2", "2", "100.0%", "2", "7", "5"]])

    def test_a_server_whose_policy_may_have_changed(self) -> None:
        """Nothing is activated behind the call: the trace does not tell whether s, or another thread, has another policy now."""
        seen = self.changed()
        with self.assertRaises(NamesNothing):
            figures(seen, kind="high_share", thread="s")
        self.assertEqual(figures(seen, kind="capacity", thread="s"), ["", ""])
        with self.assertRaises(NamesNothing):
            figures(seen, kind="refill_wait", thread="s")
        self.assertEqual(servers_table(seen).rows, [["s", "", "", "", "1", "", ""]])

    def test_a_trace_that_breaks_off_behind_the_call(self) -> None:
        text = ANEW.format(behind="", closing="", result="0").partition("12 end")[0]
        with self.assertRaises(NamesNothing):
            figures(read(text.encode()), kind="refill_wait", thread="s")

    def test_a_wait_for_a_refill_ends_with_the_server(self) -> None:
        """s has used its 4 at 4. The call of b takes its server at 11, or comes at 41, behind the refill at 40 of which a trace tells too."""
        for start, waits in ((10, "7"), (40, "36")):
            script = SILENT.format(start=start)
            self.assertEqual(figures(detail(script, 60), kind="refill_wait", thread="s"), [waits, waits])
            self.assertEqual(servers_table(detail(script, 60)).rows[0][4:], ["1", waits, waits])
        self.assertEqual(figures(read(trace_of(script.encode(), 60)), kind="refill_wait", thread="s"), ["36", "36"])
        with self.assertRaises(NamesNothing):
            figures(read(trace_of(SILENT.format(start=10).encode(), 60)), kind="refill_wait", thread="s")

    def test_a_server_that_waits_for_no_time(self) -> None:
        """s waits from 4 on, and the timer ends that at 4, so it goes on without a dispatch: at its low priority with no capacity left
        or no room for one more replenishment, and else at its high one up to 8. It ends at 10."""
        for server, used in (("4 4", 4), ("8 1", 4), ("8 2", 8)):
            script = WAITS_FOR_NO_TIME.format(server=server)
            for seen in (detail(script, 20), read(trace_of(script.encode(), 20))):
                self.assertEqual(figures(seen, kind="capacity", thread="s"), [str(used), ""], server)
                self.assertEqual(figures(seen, kind="high_share", thread="s"), [f"0.{used}00"], server)

    def test_a_call_that_failed_changes_nothing(self) -> None:
        seen = self.changed("", " high 3 init 3 refilled 0 capacity 0", "EINVAL")
        self.assertEqual(figures(seen, kind="high_share", thread="s"), ["0.250"])

    def test_what_a_server_had(self) -> None:
        """The budget of 3 and the 3 that came back at 20; of these 5 are used."""
        text = ("0 start s\n0 activate s 3\n0 dispatch s 8\n3 exhaust s\n3 plan s 3 20\n20 refill s 3 3\n20 activate s 3\n22 end\n"
                "thread s ticks 22 high 5 init 3 refilled 3 capacity 1\n")
        self.assertEqual(figures(read(text.encode()), kind="capacity", thread="s"), ["5", "6"])
        self.assertEqual(servers_table(read(text.encode())).rows, [["s", "5", "6", "83.3%", "1", "17", "17"]])

    def test_who_is_a_server(self) -> None:
        """One that never ran is told by its closing line, and one that has ended by its activation."""
        text = b"0 start a\n0 dispatch a 9\n2 start s\n2 activate s 3\n2 dispatch s 10\n4 exit s\n4 dispatch a 9\n9 end\nthread a ticks 7\nthread s ticks 2\n" \
               b"thread t ticks 0 high 0 init 4 refilled 0 capacity 4\n"
        self.assertEqual([is_server(read(text), name) for name in "ast"], [False, True, True])
        self.assertEqual([figures(read(text), kind="high_share", thread=name) for name in "st"], [["1.000"], [""]])


if __name__ == "__main__":
    unittest.main()
