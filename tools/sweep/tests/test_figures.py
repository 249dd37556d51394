"""Figures of several runs put together and drawn, by hand."""
from __future__ import annotations

import unittest
from pathlib import Path
from types import SimpleNamespace

from measure.measures import measure_of
from sweep.groups import columns_of, grouped
from sweep.main import TOP, over_of, program_of
from sweep.plan import Sweep, WrongSweep
from sweep.plot import greatest_at, script
from sweep.unfinished import hidden

JOBS = {"name": "m", "kind": "periodic", "thread": "t", "period": 20, "percentiles": [90]}


def rows(heads: str, *lines: str) -> list[dict[str, str]]:
    """Rows of a table; a line `-` in the place of a figure is an empty one."""
    return [dict(zip(heads.split(), (word.replace("-", "") for word in line.split()), strict=True)) for line in lines]


def sweep(values: dict[str, list[int]], *tables: dict[str, object]) -> SimpleNamespace:
    return SimpleNamespace(names=list(values), values=values, measures=[measure_of(table) for table in tables])


class Together(unittest.TestCase):
    def test_least_greatest_and_sums(self) -> None:
        """Each figure of budget 1 in the first row, in the second, or in neither; the third run of it has a fault."""
        table = rows("budget phase fault m_jobs m_least m_greatest m_late m_open",
                     "1 0 - 10 7 30 2 1", "2 0 - 4 1 9 0 0", "1 5 - 12 5 40 1 0", "1 9 refused - - - - -", "1 7 - 3 - - 3 3")
        self.assertEqual(grouped(table, ["budget"], [measure_of(JOBS)], None), [
            ["budget", "runs", "faults", "m_jobs", "m_least", "m_greatest", "m_late", "m_open"],
            ["1", "4", "1", "25", "5", "40", "6", "4"], ["2", "1", "0", "4", "1", "9", "0", "0"]])
        self.assertEqual(grouped(table, ["phase", "budget"], [measure_of(JOBS)], ["m_late"])[:3],
                         [["phase", "budget", "runs", "faults", "m_late"], ["0", "1", "1", "0", "2"], ["0", "2", "1", "0", "0"]])

    def test_what_can_be_put_together(self) -> None:
        """Numbers and ticks are added up, of the longest the longest is taken, and shares, means and percentiles are left out."""
        def way(kind: str, **words: object) -> dict[str, int]:
            """What 3 and 5 are put together."""
            return {column: together([3, 5]) for column, together in columns_of([measure_of({"name": "a_b", "kind": kind, **words})]).items()}
        self.assertEqual(way("periodic", thread="t", period=5, percentiles=[50, 99]),
                         {"a_b_jobs": 8, "a_b_least": 3, "a_b_greatest": 5, "a_b_late": 8, "a_b_open": 8})
        for kind, wanted in (("ticks", {"a_b": 8}), ("utilisation", {}), ("high_share", {}), ("capacity", {"a_b_used": 8, "a_b_had": 8}),
                             ("exhausted", {"a_b": 8}), ("refill_wait", {"a_b_total": 8, "a_b_longest": 5}), ("preempted", {"a_b": 8}),
                             ("blocked", {"a_b_times": 8, "a_b_total": 8, "a_b_longest": 5})):
            self.assertEqual(way(kind, thread="t"), wanted, kind)
        self.assertEqual(way("lock"), {"a_b": 5})

    def test_late_jobs_that_are_hidden(self) -> None:
        """Hidden is a run with late jobs and none that took longer than its deadline, here 30 or 20."""
        table = rows("d m_greatest m_late", "30 30 1", "30 31 1", "30 - 2", "30 - 0", "20 20 0", "20 21 4", "20 20 4", "20 - -")
        notes = list(hidden(sweep({"d": [20, 30]}, {**JOBS, "deadline": "{d}"}), table))
        self.assertEqual([note.partition(" the late jobs")[0] for note in notes], ["measure 'm': in 3 of 8 runs"])
        self.assertEqual(len(list(hidden(sweep({"d": [20, 30]}, JOBS), table))), 1)
        self.assertEqual(list(hidden(sweep({"d": [20, 30]}, JOBS), table[3:5])), [])


class Asked(unittest.TestCase):
    def test_one_measure_that_needs_a_detail_is_enough(self) -> None:
        ticks, blocked = ({"name": kind, "kind": kind, "thread": "t"} for kind in ("ticks", "blocked"))
        for tables, command in (([ticks], "run"), ([blocked], "detail"), ([ticks, blocked], "detail"), ([blocked, ticks], "detail"), ([], "run")):
            self.assertEqual(Sweep(Path(), "s", "", 9, {"n": [1]}, list(map(measure_of, tables))).command, command, tables)


    def test_the_wrapper_stands_for_its_program(self) -> None:
        """Else the rows of an older release would be kept: the wrapper is the same file."""
        for said in (f"{TOP}/bin/pse52 --released", f"'{TOP}/tools/../bin/pse52' --released"):
            self.assertEqual(program_of(said), [str(TOP / "release" / "pse52")])
        self.assertEqual(program_of("cat -u"), ["cat", "-u"])


class Drawn(unittest.TestCase):
    def test_the_greatest_of_a_point_wherever_it_stands(self) -> None:
        for order in (["1 5", "1 7.500", "1 6"], ["1 7.500", "1 5", "1 6"], ["1 6", "1 5", "1 7.500"]):
            self.assertEqual(greatest_at(rows("x m", *order, "2 -", "3 0"), "m", ["x"]), {(1,): 7.5, (3,): 0.0})

    def test_axes_and_the_deadline(self) -> None:
        """Along, a margin of 3 of 100 of the way and never below 0; up, from 0 to 8 of 100 above what is highest, the deadline too."""
        drawn = script({(100,): 50.0, (200,): 25.0}, "m", ["x"], Path("a.svg"), 100)
        self.assertIn("set xrange [97.0:203.0]\nset yrange [0:108.0]\n", drawn)
        self.assertRegex(drawn, r"\b100\b.*title 'deadline")
        self.assertIn("set xrange [0.0:51.5]\nset yrange [0:54.0]\n", script({(0,): 50.0, (50,): 25.0}, "m", ["x"], Path("a.svg")))
        self.assertIn("set yrange [0:54.0]\n", script({(0,): 50.0, (50,): 25.0}, "m", ["x"], Path("a.svg"), 40))

    def test_lines_and_maps(self) -> None:
        """A line for each of up to 12 values has its own points; of more it is a map, whose boxes reach half way to the next ones."""
        points = {(x, y): float(10 * x + y) for x in (0, 4) for y in range(12)}
        drawn = script(points, "m", ["x", "y"], Path("a.svg"))
        self.assertIn("$d3 << EOD\n0 3 3.0\n4 3 43.0\nEOD\n", drawn)
        self.assertIn("$d3 using 1:3 with linespoints", drawn)
        self.assertNotIn("boxxyerror", drawn)
        drawn = script(points | {(0, 14): 7.0}, "m", ["x", "y"], Path("a.svg"))
        self.assertIn("set xrange [-2.0:6.0]\nset yrange [-0.5:14.5]\n", drawn)
        self.assertIn("0 14 7.0\n", drawn)
        self.assertIn("using 1:2:(2.0):(0.5):3 with boxxyerror", drawn)

    def test_what_is_drawn_over_where_nobody_says(self) -> None:
        for values, wanted in (({"a": [1], "b": [1, 2], "c": [1, 2, 3], "d": [1, 2, 3, 4]}, ["c", "b"]), ({"a": [1, 2, 3], "b": [1, 2]}, ["a", "b"]),
                               ({"a": [1, 2], "b": [1, 2]}, ["a", "b"]), ({"a": [1], "b": [7, 8]}, ["b"]), ({"a": [1], "b": [2]}, ["a"])):
            self.assertEqual(over_of(sweep(values), None), wanted)
        self.assertEqual(over_of(sweep({"a": [1], "b": [1, 2]}), "a,b"), ["a", "b"])
        for said in ("c", "a,b,a", "b,b"):
            with self.assertRaises(WrongSweep):
                over_of(sweep({"a": [1], "b": [1, 2]}), said)


if __name__ == "__main__":
    unittest.main()
