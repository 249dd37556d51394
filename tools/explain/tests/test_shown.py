"""How faults are printed, line by line, and that what they propose is right. The lines are worked out by hand."""
from __future__ import annotations

import re
import sys
import unittest

from explain import TOP
from explain.show import in_one_line_each, shown
from explain.text import faults_of

sys.path.insert(0, str(TOP / "tools" / "reference"))
from reader import read  # noqa: E402
from script import Script  # noqa: E402

BODY = "thread a fifo 5 at 0\n{}\nend\n"
# A step that uses a name that nothing declares, and what kind of name it is.
USES = {"join n": "a thread", "lock n": "a mutex", "wait n m": "a condition", "sem_wait n": "a semaphore", "mq_receive n": "a queue",
        "timer_gettime n": "a timer"}


def told(script: str) -> str:
    return shown(script.encode(), faults_of(script.encode()))


class Shown(unittest.TestCase):
    def test_a_fault_its_word_and_its_aside(self) -> None:
        said = told("thread a fifo 5 at 0\n  rum 3\nend\nmutex a none\n")
        self.assertIn("\n    2 |   rum 3\n      |   ^^^\n  fix: ", said)
        self.assertIn("line 4, column 7: DuplicateName: `a` is declared twice\n    4 | mutex a none\n      |       ^\n    1 | thread a fifo 5 at 0\n"
                      "      | declared here first\n  fix: rename one: threads, handlers and objects share one space of names\n", said)
        self.assertTrue(said.endswith("\n2 faults; the program answers that of line 2, UnknownWord\n"), said)
        self.assertTrue(told(BODY.format("rum 3")).endswith("\n1 fault\n"))

    def test_the_mark_stands_under_its_word_in_a_long_line(self) -> None:
        for blanks in (0, 84, 85, 86, 300):
            rows = told(BODY.format("run 1" + blanks * " " + " xyz")).splitlines()
            at = next(number for number, row in enumerate(rows) if "^" in row)
            start = rows[at].index("^")
            self.assertEqual((rows[at][start:], rows[at - 1][start:start + 3]), ("^^^", "xyz"), blanks)
            self.assertLessEqual(len(rows[at - 1]), 108)

    def test_bytes_that_cannot_be_seen(self) -> None:
        """A tab is a blank in its place, and any other one a question mark."""
        self.assertIn("    2 | run 1 ??x\n      |       ^\n", told(BODY.format("run\t1\t\x07\x1fx")))

    def test_the_same_byte_in_many_lines(self) -> None:
        """Three are told one by one; of four the first, and how many more there are, up to which line."""
        three, four = (told(BODY.format("run 1") + count * "# x\r\n") for count in (3, 4))
        self.assertEqual((three.count("BadByte:"), "more, up to" in three), (3, False))
        self.assertEqual(four.count("BadByte:"), 1)
        self.assertIn("... and the same in 3 lines more, up to line 7\n", four)
        self.assertTrue(four.endswith("\n4 faults; the program answers that of line 4, BadByte\n"), four)

    def test_one_line_for_each(self) -> None:
        script = b"thread a fifo 5 at 0\n  lock m\nend\nmutex a none\n"
        rows = in_one_line_each("x.task", faults_of(script)).splitlines()
        self.assertEqual(rows[0], "x.task:2:8: UnknownName: no line declares `m`, a mutex; declare it outside of bodies: `mutex m inherit`")
        self.assertEqual(rows[1], "x.task:4:7: DuplicateName: `a` is declared twice; rename one: threads, handlers and objects share one space of names")
        self.assertEqual(in_one_line_each("x", faults_of(b"mutex m none\n")), "x:2:1: NoThread: no thread is declared; "
                         "declare one: `thread NAME fifo P at N`, and its `end`\n")


class Proposed(unittest.TestCase):
    def test_a_declaration_that_is_proposed_is_one(self) -> None:
        """With the line, and with an `end` where it opens a body, the script is one."""
        for step, kind in USES.items():
            script = "mutex m none\n" + BODY.format(f"lock m\n{step}\nunlock m")
            said = told(script)
            self.assertIn(f": UnknownName: no line declares `n`, {kind}\n", said)
            line = re.search(r"declare it outside of bodies: `([^`]*)`", said)[1]
            self.assertIsInstance(read(f"{script}{line}\n{'end' if line.startswith('thread') else ''}\n".encode())[0], Script, (step, line))
        for script, kind in (("action rt1 run n\n" + BODY.format("run 1"), "a signal handler"), (BODY.format("push n\npop 1"), "a cleanup handler")):
            said = told(script)
            self.assertIn(f": UnknownName: no line declares `n`, {kind}\n", said)
            line = re.search(r"declare it outside of bodies: `([^`]*)`", said)[1]
            self.assertIsInstance(read(f"{script}{line}\nend\n".encode())[0], Script, (script, line))

    def test_what_is_wrong_with_a_server(self) -> None:
        order = " (the five numbers: high priority, low priority, period, budget, greatest number of pending replenishments)\n"
        for numbers, column, wrong, mend in (
                ("5 6 10 3 4", 21, "the low priority 6 is not below the high one, 5", "choose a lower one"),
                ("5 2 10 0 4", 26, "the budget is 0", "a budget is from 1 to the period"),
                ("5 2 10 11 4", 26, "the budget 11 is above the period, 10", "a budget is from 1 to the period"),
                ("5 2 10 10 0", 29, "0 replenishments may not be pending", "at most 16, and at least 1")):
            said = told(f"thread s sporadic {numbers} at 0\nend\n")
            self.assertIn(f"line 1, column {column}: ServerRange: {wrong}\n", said)
            self.assertIn(f"  fix: {mend}{order}", said)

    def test_what_is_said_twice(self) -> None:
        self.assertIn("      | said here first\n  fix: remove one line\n", told("quantum 5\n" + BODY.format("run 1") + "quantum 6\n"))
        self.assertIn("    1 | quantum 5\n", told("quantum 5\n" + BODY.format("run 1") + "quantum 6\n"))
        self.assertIn("`rt1` has an action\n", told("action rt1 ignore\naction rt1 ignore\n" + BODY.format("run 1")))


if __name__ == "__main__":
    unittest.main()
