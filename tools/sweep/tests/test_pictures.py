"""The picture of a sweep: what is drawn, and how its lines look."""
from __future__ import annotations

import re
import shutil
import sys
import unittest
from pathlib import Path

from sweep.plot import greatest_at, script

from .folders import Folder


class Pictures(Folder):
    def test_the_greatest_of_each_point(self) -> None:
        rows = [{"x": "1", "y": "1", "m": "5"}, {"x": "1", "y": "2", "m": "7.5"}, {"x": "2", "y": "1", "m": ""}]
        self.assertEqual(greatest_at(rows, "m", ["x"]), {(1,): 7.5})
        self.assertEqual(greatest_at(rows, "m", ["x", "y"]), {(1, 1): 5.0, (1, 2): 7.5})

    def test_lines_and_strokes_of_a_plot(self) -> None:
        """Each line looks otherwise, and few whole figures have a stroke each."""
        few = script({(x, y): float(x) for x in range(4) for y in range(12)}, "m", ["x", "y"], Path("a.svg"))
        looks = re.findall(r"linespoints lw [\d.]+ (dt \S+ pt \d+)", few)
        self.assertEqual((len(looks), len(set(looks))), (12, 12))
        for points, strokes in (({(0,): 0.0, (2,): 2.0}, ["xtics", "ytics"]), ({(0,): 0.5, (90,): 2.0}, []), ({(0,): 0.0, (90,): 2.0}, ["ytics"])):
            self.assertEqual(re.findall(r"set (.tics) 1\n", script(points, "m", ["x"], Path("a.svg"))), strokes)

    def test_a_plot_over_one_and_two_names(self) -> None:
        if shutil.which("gnuplot") is None:
            print("skipped: the plot of a sweep, since gnuplot is not here", file=sys.stderr)
            self.skipTest("no gnuplot")
        for over in ("long", "long,when"):
            self.write()
            ended = self.sweep("--plot", "a", "--over", over)
            self.assertEqual(ended.returncode, 0, ended.stderr)
            self.assertIn("<svg", (self.folder / "two-a.svg").read_text())


if __name__ == "__main__":
    unittest.main()
