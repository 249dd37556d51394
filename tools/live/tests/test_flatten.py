"""Scripts as numbers, against numbers that were written by hand; and what cannot be run."""
from __future__ import annotations

import errno
import re
import unittest

from forms import FORMS, Form, Role, Stage, is_place
from live.flatten import CALLS, OPERATION_WORDS, TooMany, flatten
from live.rig import CannotRun, script_of
from live.runner import FOLDER
from reader import Entry
from live.unfit import KNOWN, reasons, unfit_lines

COUNTS = 7
ACTIONS = 31


def numbers_of(*lines: str) -> list[int]:
    return flatten(script_of("".join(line + "\n" for line in lines).encode()))


class FlatScripts(unittest.TestCase):
    def test_a_thread_and_a_mutex(self) -> None:
        numbers = numbers_of("mutex m inherit", "thread a rr 5 at 3", "lock m", "run 2", "end")
        self.assertEqual(numbers[:COUNTS], [1, 0, 1, 0, 0, 0, 0])
        self.assertEqual(numbers[COUNTS:COUNTS + 4], [1, 5, 3, 0], "a round robin thread of priority 5 at 3, its body first")
        self.assertEqual(numbers[COUNTS + 4:COUNTS + 7], [1, 0, 0], "inherit, without a ceiling, not recursive")
        self.assertEqual(numbers[COUNTS + 7:COUNTS + 7 + ACTIONS], [-1] * ACTIONS)
        code = numbers[COUNTS + 7 + ACTIONS:]
        self.assertEqual(code[0], 3)
        self.assertEqual(code[1:], [1, 11, 0, *[0] * 7, 0, 2, *[0] * 8, 10, *[0] * 9])

    def test_a_dormant_thread_never_starts_by_itself(self) -> None:
        self.assertEqual(numbers_of("thread a fifo 7 dormant", "end")[COUNTS:COUNTS + 4], [0, 7, -1, 0])

    def test_tests_and_loops_jump(self) -> None:
        numbers = numbers_of("sem s 0", "thread a fifo 5 at 0", "loop 3", "sem_trywait s", "if EAGAIN", "run 1", "end", "end", "end")
        code = [numbers[-6 * OPERATION_WORDS:][at:at + 4] for at in range(0, 6 * OPERATION_WORDS, OPERATION_WORDS)]
        self.assertEqual(code[0][:3], [6, 0, 3], "the loop, with three passes")
        self.assertEqual(code[2], [5, errno.EAGAIN, 1, 4], "the test, and where it goes on")
        self.assertEqual(code[4][:3], [7, 0, 1], "the jump back")

    def test_operands(self) -> None:
        numbers = numbers_of("timer k rt1 0", "thread a fifo 5 at 0", "timer_settime k abs reg 4", "timer_settime k rel 2 3", "end")
        settings = [numbers[-3 * OPERATION_WORDS:][at:at + 7] for at in (0, OPERATION_WORDS)]
        self.assertEqual(settings, [[1, CALLS.index("timer_settime"), 0, 1, 1, 0, 4], [1, CALLS.index("timer_settime"), 0, 0, 0, 2, 3]])

    def test_the_runner_numbers_calls_alike(self) -> None:
        macro = re.search(r"#define CALLS\(X\)(.*?)\n#define", (FOLDER / "runner.h").read_text(), re.S)
        self.assertEqual(re.findall(r"X\((\w+)\)", macro[1]), CALLS)

    def test_more_loops_than_the_runner_has_room_for(self) -> None:
        with self.assertRaises(TooMany):
            numbers_of("thread a fifo 5 at 0", *["loop 1", "end"] * 65, "end")


class UnfitScripts(unittest.TestCase):
    def why(self, *lines: str) -> list[str]:
        return [str(unfit) for unfit in unfit_lines("".join(line + "\n" for line in lines).encode())]

    def test_each_line_is_told_with_its_reason(self) -> None:
        told = self.why("# a server", "thread s sporadic 9 2 20 5 2 at 0", "setprio s 99", "kill rt31", "sigmask block all", "end")
        self.assertEqual([line.split(":")[0] for line in told], ["line 2", "line 3", "line 4"])
        self.assertIn("SCHED_SPORADIC", told[0])

    def test_a_script_of_version_2(self) -> None:
        self.assertEqual([line.split(",")[0] for line in self.why("version 2", "thread a fifo 5 at 0", "end")],
                         ["line 1: version 2: the rig has room for the limits of version 1"])

    def test_a_script_that_fits(self) -> None:
        self.assertEqual(self.why("thread a fifo 98 at 0", "sigmask block all", "kill rt30", "end"), [])

    def test_a_keyword_that_came_to_the_language_after_the_rig(self) -> None:
        entry = Entry(3, Form(Role.STEP, Stage.WHOLE, ("aio_read", "<number>")), ("5",))
        self.assertEqual(list(reasons(entry)), ["aio_read: the rig does not know it"])

    def test_the_clock_of_the_machine_is_left_alone(self) -> None:
        told = self.why("timer k rt1 0 real", "thread a fifo 5 at 0", "clock_nanosleep 5", "clock_nanosleep 5 real", "clock_settime 5",
                        "real_gettime", "end")
        self.assertEqual([line.split(": ")[:2] for line in told], [[f"line {line}", "CLOCK_REALTIME"] for line in (1, 4, 5, 6)])

    def test_each_keyword_that_is_known_is_one_of_the_language(self) -> None:
        words = {word for form in FORMS for word in form.words if not is_place(word)}
        self.assertEqual(KNOWN - words, set())
        self.assertIn("sporadic", words - KNOWN)

    def test_such_a_script_is_not_run(self) -> None:
        with self.assertRaises(CannotRun):
            script_of(b"thread s sporadic 9 2 20 5 2 at 0\nend\n")


if __name__ == "__main__":
    unittest.main()
