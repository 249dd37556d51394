"""What a sweep says of its runs beside the table: calls without an effect, signals that kill, late releases, refusals, figures that some lack."""
from __future__ import annotations

import csv
import unittest

from view.lines import MOST_LINES

from .folders import TOML, Folder

# a works from 1 on, after a `lock` in the first tick. Its ceiling is too low below 5, and a signal of the timer lets nobody live.
SCRIPT = """\
mutex m protect {ceiling}
timer t rt1 0
thread a fifo 5 at 0
    lock m
    timer_settime t abs {due} 0
    run 8
end
"""
FILE = """\
script = "two.task.in"
horizon = 20
[values]
ceiling = [5, 4, 3]
due = [60, 4]
[[measure]]
name = "a"
kind = "ticks"
thread = "a"
"""
SERVER = """\
thread server sporadic 9 2 40 10 4 at 0
    run 2
end
thread late sporadic 8 1 40 10 4 at 6
    run 2
end
thread low fifo 1 at {when}
    run 1
end
"""
SHARES = """\
script = "two.task.in"
horizon = "{until}"
[values]
until = [4, 20]
when = [3]
[[measure]]
name = "late"
kind = "high_share"
thread = "late"
[[measure]]
name = "low"
kind = "ticks"
thread = "low"
"""
# c is released each `step` ticks, and takes 3 at most; d is released by a timer each 10, of which a `work` of 25 takes two and more.
RELEASED = """\
timer beat rt1 0
thread c fifo 9 at 0
    sigmask block rt1
    set 0
    forever
        run 1
        add {step}
        clock_nanosleep reg
    end
end
thread d fifo 8 at 0
    sigmask block rt1
    timer_settime beat abs 10 10
    forever
        sigwaitinfo rt1
        run {work}
    end
end
"""
PERIODS = """\
script = "two.task.in"
horizon = 100
[values]
step = [10, 20]
work = [2, 25]
[[measure]]
name = "c"
kind = "periodic"
thread = "c"
period = 10
[[measure]]
name = "d"
kind = "periodic"
thread = "d"
period = 10
phase = 10
to = "call sigwaitinfo"
"""


class Told(Folder):
    def test_calls_without_an_effect_and_runs_that_are_killed(self) -> None:
        self.write(FILE, SCRIPT)
        for _ in range(2):  # the second time of the rows that were kept
            ended = self.sweep("--jobs", "2")
            self.assertEqual(ended.returncode, 0, ended.stderr)
            self.assertIn("in 4 of 6 runs 'lock' answered EINVAL and had no effect; the first has ceiling = 4, due = 60\n", ended.stderr)
            self.assertIn("in 3 of 6 runs rt1 killed the process before the horizon; the first has ceiling = 5, due = 4\n", ended.stderr)
        self.write(FILE.replace("[5, 4, 3]", "[5, 6]").replace("[60, 4]", "[60]"), SCRIPT)
        ended = self.sweep("--jobs", "2")
        self.assertNotIn("no effect", ended.stderr)
        self.assertNotIn("killed", ended.stderr)

    def test_jobs_that_count_as_later_than_they_are(self) -> None:
        self.write(PERIODS, RELEASED)
        ended = self.sweep("--jobs", "2")
        for measure, why, first in (("c", "its thread sleeps although", "step = 20, work = 2"), ("d", "a timer expired while", "step = 10, work = 25")):
            self.assertRegex(ended.stderr, f"in 2 of 4 runs measure '{measure}' counts jobs as later than they are, since {why} .*; the first has {first}\n")
        self.write(PERIODS.replace("[10, 20]", "[10]").replace("[2, 25]", "[2]"), RELEASED)
        self.assertNotIn("later than", self.sweep("--jobs", "2").stderr)

    def test_a_refusal_in_words(self) -> None:
        self.write()
        ended = self.sweep("--jobs", "2")
        self.assertIn("3 of 9 runs have no trace; the first ended with status 2: refused 2 5 NumberRange", ended.stderr)
        self.assertIn("that is the script with long = 0, when = 0:\nline 2, column 9: NumberRange: 0 is out of the range of this number", ended.stderr)
        self.write(TOML.replace("[2, 5, 0]", "[2, 5]"))
        self.assertNotIn("NumberRange", self.sweep("--jobs", "2").stderr)

    def test_a_program_that_says_nothing_and_a_file_that_measures_nothing(self) -> None:
        self.write(TOML[:TOML.index("[[measure]]")])
        ended = self.sweep("--jobs", "2", program="sh -c 'exit 3'")
        self.assertEqual(ended.returncode, 2)
        self.assertIn("9 of 9 runs have no trace; the first ended with status 3: it wrote nothing\n", ended.stderr)
        self.assertIn("nothing is measured, since the file has no table [[measure]]\n", ended.stderr)

    def test_a_figure_that_a_run_lacks_leaves_the_others(self) -> None:
        """Before 6 nobody tells that `late` has a server. low runs its tick in 3, and its last one in 4, which is the end of the first run."""
        self.write(SHARES, SERVER)
        ended = self.sweep("--jobs", "2")
        rows = list(csv.DictReader((self.folder / "two.csv").read_text().splitlines()))
        self.assertEqual([(row["until"], row["status"], row["late"], row["low"]) for row in rows], [("4", "0", "", "1"), ("20", "0", "1.000", "2")])
        self.assertEqual([row["fault"] for row in rows], ["measure 'late': thread 'late' has no server in this trace", ""])
        self.assertIn("1 of 2 runs lack figures; the first: measure 'late': thread 'late' has no server in this trace", ended.stderr)
        self.assertEqual(ended.returncode, 2)

    def test_a_run_of_more_lines_than_are_read(self) -> None:
        """It is ended, and its row says why it is not measured; it is not done again, for it would be no shorter."""
        self.write(TOML.replace("[2, 5, 0]", "[2]").replace("to = 4", "to = 0"))
        program = f"""sh -c 'yes "0 idle" | head -n {MOST_LINES + 100}'"""
        for told in ("1 of 1 runs,", "1 of 1 runs were done before"):
            ended = self.sweep("--jobs", "1", program=program)
            self.assertEqual(ended.returncode, 2)
            self.assertIn(f"1 of 1 runs lack figures; the first: the run has more than {MOST_LINES} lines", ended.stderr)
            self.assertIn(told, ended.stderr)
        self.assertTrue((self.folder / "two.csv").read_text().splitlines()[1].startswith(f'2,0,0,"the run has more than {MOST_LINES} lines'))


if __name__ == "__main__":
    unittest.main()
