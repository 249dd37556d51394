"""Jobs that are never done have no response time: what a sweep says of them, and how its picture leaves them out."""
from __future__ import annotations

import math
import unittest
from pathlib import Path

from sweep.plan import read_sweep
from sweep.plot import greatest_at, script, with_gaps

from .folders import Folder

# hog takes so much of each 20 ticks that low has no job, some jobs or all of its jobs done.
STARVING = """\
thread hog fifo 9 at 0
    set 0
    forever
        run {work}
        add 20
        clock_nanosleep reg
    end
end
thread low fifo 5 at 0
    set 0
    forever
        run 3
        add 40
        clock_nanosleep reg
    end
end
"""
STARVING_TOML = """\
script = "two.task.in"
horizon = 200
[values]
work = [4, 17, 18]
[[measure]]
name = "low"
kind = "periodic"
thread = "low"
period = 40
"""


class Unfinished(Folder):
    def test_late_jobs_that_no_response_time_shows(self) -> None:
        """With 17 low has a tick in 20 and its first job is done late; with 18 none of its five jobs is done. The last is not late yet."""
        self.write(STARVING_TOML, STARVING)
        ended = self.sweep("--by", "work", "--columns", "low_greatest,low_late")
        self.assertEqual([line.split() for line in ended.stdout.splitlines()[2:]],
                         [["4", "1", "0", "11", "0"], ["17", "1", "0", "120", "4"], ["18", "1", "0", "4"]])
        self.assertIn("measure 'low': in 1 of 3 runs the late jobs are not done at the end: 'low_late' counts them", ended.stderr)
        self.write(STARVING_TOML.replace("[4, 17, 18]", "[4, 17]"), STARVING)
        self.assertNotIn("not done at the end", self.sweep().stderr)

    def test_a_thread_that_is_starved_in_all_runs(self) -> None:
        """With 18 and 19 low has a tick in all. Without hog in its way it does its jobs, and one whose end is not that of `to` is an error."""
        self.write(STARVING_TOML.replace("[4, 17, 18]", "[18, 19]"), STARVING)
        ended = self.sweep("--by", "work", "--columns", "low_greatest,low_late,low_open")
        self.assertEqual((ended.returncode, [line.split() for line in ended.stdout.splitlines()[2:]]), (0, [["18", "1", "0", "4", "5"], ["19", "1", "0", "4", "5"]]))
        self.assertIn("measure 'low': in no run a job is done, so there is no response time", ended.stderr)
        self.write(STARVING_TOML.replace("[4, 17, 18]", "[3, 4]") + 'to = "return low gettime"\n', STARVING)
        ended = self.sweep()
        self.assertEqual(ended.returncode, 2)
        self.assertIn("measure 'low': in no run a job is done; does 'to' name what comes?", ended.stderr)

    def test_a_thread_that_ends_behind_a_release(self) -> None:
        """low has three jobs, sleeps up to 120 and ends at 127 or 128; the job of 120 that is counted is 80 ticks old at the end."""
        enders = STARVING.replace("thread low fifo 5 at 0\n    set 0\n    forever", "thread low fifo 5 at 0\n    set 0\n    loop 3")
        file = STARVING_TOML.replace("[4, 17, 18]", "[4, 5]")
        said = "measure 'low': in 2 of 2 runs its thread ended behind releases whose jobs are not done"
        for words, counted, told in (("", ["4", "1", "1"], True), ("jobs = 3\n", ["3", "0", "0"], False), ("jobs = 4\n", ["4", "1", "1"], True)):
            self.write(file + words, enders)
            for _ in range(2):  # the second time of the rows that were kept
                ended = self.sweep("--by", "work", "--columns", "low_jobs,low_late,low_open")
                self.assertEqual([line.split()[3:] for line in ended.stdout.splitlines()[2:]], [counted, counted])
                self.assertEqual(said in ended.stderr, told, ended.stderr)
                self.assertNotIn("the late jobs are not done at the end", ended.stderr)
        self.write(file, STARVING)
        self.assertNotIn("its thread ended", self.sweep().stderr)

    def test_a_plot_of_response_times_has_the_deadline(self) -> None:
        self.write(STARVING_TOML + "percentiles = [90]\n", STARVING)
        sweep = read_sweep(self.folder / "two.toml")
        deadlines = {column: sweep.deadline_of(f"low_{column}") for column in ("jobs", "least", "mean", "p90", "greatest", "jitter", "late", "open")}
        self.assertEqual({column for column, deadline in deadlines.items() if deadline == 40}, {"least", "mean", "p90", "greatest"})
        self.assertEqual({deadline for deadline in deadlines.values()}, {40, None})

    def test_the_picture_has_a_gap(self) -> None:
        rows = [{"x": str(x), "m": figure} for x, figure in ((0, ""), (1, "5"), (2, ""), (3, "7"), (9, ""))]
        points = with_gaps(greatest_at(rows, "m", ["x"]), rows, ["x"])
        self.assertEqual([at for at, figure in sorted(points.items()) if math.isnan(figure)], [(0,), (2,), (9,)])
        drawn = script(points, "m", ["x"], Path("a.svg"))
        self.assertIn("0 nan\n1 5.0\n2 nan\n3 7.0\n9 nan\n", drawn)
        self.assertIn("set xrange [0.0:9.27]", drawn)


if __name__ == "__main__":
    unittest.main()
