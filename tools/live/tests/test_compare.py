"""Kept logs beside the traces that are due."""
from __future__ import annotations

import unittest

from live.compare import Comparison, compare
from live.due import read_due
from live.known import by_name
from live.log import NotALog, read_log
from live.watched import watched
from live.rig import script_of
from view.lines import read_trace

from .kept import CASES, due_of, found_in, kept_trace, log_of


class KeptLogs(unittest.TestCase):
    def test_each_gives_the_trace_beside_its_probe(self) -> None:
        for case in CASES.values():
            with self.subTest(case.name):
                self.assertEqual(found_in(case, log_of(case.name)).lines, kept_trace(case))

    def test_each_trace_has_the_form_of_a_trace(self) -> None:
        for case in CASES.values():
            with self.subTest(case.name):
                read_trace([(line + "\n").encode() for line in kept_trace(case)])

    def test_those_that_agree_have_the_due_trace_byte_by_byte(self) -> None:
        agreeing = [case for case in CASES.values() if case.shows == "agrees"]
        self.assertGreaterEqual(len(agreeing), 5)
        for case in agreeing:
            with self.subTest(case.name):
                found = found_in(case, log_of(case.name))
                self.assertTrue(found.agrees, found.differences)
                self.assertEqual(found.lines, due_of(case).lines)

    def test_the_others_differ_and_their_name_was_noted_by_then(self) -> None:
        for case in CASES.values():
            if case.shows == "agrees":
                continue
            with self.subTest(case.name):
                found = found_in(case, log_of(case.name))
                noted = watched(script_of(case.text), case.horizon, case.handlers).noted
                self.assertIsNotNone(found.first)
                self.assertLessEqual(noted[case.shows], found.first)
                self.assertIn(case.shows, by_name())


class Changes(unittest.TestCase):
    """A log of a run that agrees, changed in one place."""

    NAME = "broadcast_order"

    def changed(self, old: str, new: str) -> list[str]:
        text = log_of(self.NAME)
        self.assertIn(old, text)
        return [str(difference) for difference in found_in(CASES[self.NAME], text.replace(old, new, 1)).differences]

    def test_another_result(self) -> None:
        self.assertEqual(len(self.changed("return broadcast 0 0", "return broadcast EINVAL 0")), 1)

    def test_another_owner_of_a_tick(self) -> None:
        first = log_of(self.NAME).split("owners ")[1].split()[0]
        self.assertIn("0: nobody runs", self.changed(f"owners {first}", "owners -1")[0])

    def test_another_priority(self) -> None:
        first = log_of(self.NAME).split("priorities ")[1].split()[0]
        self.assertIn("at the priority 77", self.changed(f"priorities {first}", "priorities 77")[0])

    def test_an_event_before_its_time(self) -> None:
        told = self.changed("return broadcast", "return broadcast 0 0\n0 0.000 2 return broadcast")
        self.assertEqual(len(told), 1)

    def test_an_event_that_is_missing(self) -> None:
        lines = log_of(self.NAME).splitlines(keepends=True)
        without = "".join(line for line in lines if " exit" not in line)
        self.assertEqual(len(found_in(CASES[self.NAME], without).differences), 3)

    def test_noise_is_seen(self) -> None:
        text = log_of(self.NAME)
        self.assertFalse(read_log(text).is_noisy)
        self.assertTrue(read_log(text.replace("gaps 0", "gaps 1")).is_noisy)
        self.assertTrue(read_log(text.replace(" 0.0", " 0.4", 1)).is_noisy)

    def test_what_is_no_log(self) -> None:
        for text in ("owners 1\n", "one line\n", "3 0.1 x start\n"):
            with self.subTest(text), self.assertRaises(NotALog):
                read_log(text)


class WhatALogAllows(unittest.TestCase):
    """Two threads of one priority: a has two ticks and ends, then b."""

    DUE = """\
0 start a
0 start b
0 dispatch a 5
2 exit a
2 dispatch b 5
4 exit b
4 idle
6 end
thread a ticks 2
thread b ticks 2
"""

    def found(self, owners: str, priorities: str, *events: str) -> Comparison:
        """The comparison with a log in which these threads ran, at these priorities."""
        ending = ["ticks 0 2 2.0", "ticks 1 2 2.0", "noise clashes 0 gaps 0 late 0 latest 0.0"]
        text = "\n".join([*events, f"owners {owners}", f"priorities {priorities}", *ending])
        return compare(read_due(self.DUE, ["a", "b"]), read_log(text))

    def test_a_start_that_is_seen_when_the_thread_first_runs(self) -> None:
        found = self.found("0 0 1 1 -1 -1", "5 5 5 5 0 0", "0 0 0 start", "2 0 0 exit", "2 0 1 start", "4 0 1 exit")
        self.assertEqual("".join(line + "\n" for line in found.lines), self.DUE)
        self.assertTrue(found.agrees)
        self.assertEqual((found.compared, found.late), (4, 1))

    def test_a_start_behind_a_thread_that_is_no_less_urgent(self) -> None:
        found = self.found("0 0 0 1 1 -1", "5 5 5 5 5 0", "0 0 0 start", "3 0 0 exit", "3 0 1 start", "5 0 1 exit")
        self.assertIn("0 start b", found.lines)
        self.assertEqual(found.first, 2)

    def test_a_start_behind_a_less_urgent_thread_came_late(self) -> None:
        found = self.found("0 0 0 1 1 -1", "4 4 4 5 5 0", "0 0 0 start", "3 0 0 exit", "3 0 1 start", "5 0 1 exit")
        self.assertIn("3 start b", found.lines)

    def test_a_start_behind_an_idle_tick_came_late(self) -> None:
        found = self.found("0 0 -1 1 1 -1", "5 5 0 5 5 0", "0 0 0 start", "2 0 0 exit", "3 0 1 start", "5 0 1 exit")
        self.assertIn("3 start b", found.lines)

    def test_a_thread_that_has_run_would_have_told_its_end(self) -> None:
        found = self.found("0 0 1 1 1 -1", "5 5 5 5 5 0", "0 0 0 start", "2 0 0 exit", "2 0 1 start", "5 0 1 exit")
        self.assertIn("5 exit b", found.lines)

    def test_another_signal_ends_the_process(self) -> None:
        found = self.found("0 0 -1 -1 -1 -1", "5 5 0 0 0 0", "0 0 0 start", "2 0 0 exit", "3 0 -1 killed rt4")
        self.assertEqual(found.lines[-4:], ["3 killed rt4", "3 end", "thread a ticks 2", "thread b ticks 2"])
        self.assertIn("the process: killed by rt4 at 3, and due: lives on", map(lambda each: each.text, found.differences))


if __name__ == "__main__":
    unittest.main()
