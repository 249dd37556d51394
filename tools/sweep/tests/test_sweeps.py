"""Whole sweeps: the same table with any engine and any number of jobs, runs that are refused, what is missing, and the stored example."""
from __future__ import annotations

import csv
import re
import unittest

from sweep.plan import read_sweep
from sweep.table import table
from sweep.worker import Streams, row_of

from .folders import REFERENCE, SLOW, TABLE, TOML, TOP, Folder, engines


class Sweeps(Folder):
    def test_a_table_worked_by_hand(self) -> None:
        self.write()
        ended = self.sweep("--jobs", "2")
        self.assertEqual((ended.returncode, ended.stdout), (0, f"{self.folder / 'two.csv'}\n"), ended.stderr)
        self.assertEqual(self.table(), TABLE)
        self.assertIn("9 of 9 runs", ended.stderr)
        again = self.sweep("--jobs", "2")
        self.assertIn("9 of 9 runs were done before", again.stderr)
        self.assertEqual(self.table(), TABLE)

    def test_one_job_and_many_with_each_engine(self) -> None:
        self.write(TOML.replace("[2, 5, 0]", "{ from = 1, to = 12 }"))
        program = self.program(SLOW)
        seen = set()
        for engine in engines():
            for jobs in ("1", "5"):
                ended = self.sweep("--anew", "--jobs", jobs, "--engine", engine, program=program)
                self.assertEqual(ended.returncode, 0, ended.stderr)
                seen.add(self.table())
        self.assertEqual(len(seen), 1)
        self.assertEqual(len(seen.pop().splitlines()), 1 + 36)

    def test_progress(self) -> None:
        self.write(TOML.replace("[2, 5, 0]", "{ from = 1, to = 10 }"))
        ended = self.sweep("--jobs", "2", program=self.program(SLOW))
        told = re.findall(r"^(\d+) of 30 runs, about (\d+) s left$", ended.stderr, re.M)
        self.assertEqual([int(done) for done, _ in told], list(range(3, 31, 3)))
        self.assertEqual(told[-1][1], "0")

    def test_the_horizon_may_be_a_value(self) -> None:
        self.write(TOML.replace("horizon = 20", 'horizon = "{until}"').replace("[2, 5, 0]", "[9]\nuntil = [0, 2, 4, 20]"))
        ended = self.sweep("--jobs", "2")
        self.assertEqual(ended.returncode, 0, ended.stderr)
        # a runs from `when` on, but for the tick of b's yield and that of its end, from 3 on. It has 9 ticks and one for its end.
        ticks = {(row["until"], row["when"]): row["a"] for row in csv.DictReader(self.table().splitlines())}
        self.assertEqual(ticks, {("0", "0"): "0", ("0", "2"): "0", ("0", "4"): "0", ("2", "0"): "2", ("2", "2"): "0", ("2", "4"): "0",
                                 ("4", "0"): "3", ("4", "2"): "1", ("4", "4"): "0", ("20", "0"): "10", ("20", "2"): "10", ("20", "4"): "10"})

    def test_the_table_where_it_is_asked_for(self) -> None:
        self.write()
        ended = self.sweep("--jobs", "2", "--output", str(self.folder / "out" / "mine.csv"))
        self.assertEqual(ended.returncode, 2, ended.stderr)  # There is no such folder.
        (self.folder / "out").mkdir()
        ended = self.sweep("--jobs", "2", "--output", str(self.folder / "out" / "mine.csv"))
        self.assertEqual(ended.returncode, 0, ended.stderr)
        self.assertEqual((self.folder / "out" / "mine.csv").read_text(), TABLE)
        self.assertEqual(sorted(file.name for file in self.folder.iterdir()), ["out", "two.task.in", "two.toml"])

    def test_put_together_by_a_name(self) -> None:
        self.write()
        ended = self.sweep("--jobs", "2", "--by", "long")
        self.assertEqual(ended.stdout.splitlines()[1:], [
            "long  runs  faults   a  yield_jobs  yield_least  yield_greatest  yield_open",
            "   2     3       0   9           3            1               1           0",
            "   5     3       0  18           3            1               1           0",
            "   0     3       3                                                         "])
        self.assertEqual(self.sweep("--by", "long,speed").returncode, 2)

    def test_runs_without_a_trace_are_told(self) -> None:
        self.write()
        ended = self.sweep("--jobs", "2")
        self.assertIn("3 of 9 runs have no trace; the first ended with status 2: refused 2 5 NumberRange", ended.stderr)
        self.assertIn("measure 'yield': from 'start' counts the first job", ended.stderr)
        self.write(TOML.replace("[2, 5, 0]", "[0]"))
        ended = self.sweep("--jobs", "2")
        self.assertEqual(ended.returncode, 2)
        self.assertIn("no run ended with a trace", ended.stderr)
        self.assertEqual(len(self.table().splitlines()), 1 + 3)

    def test_a_measure_that_names_nothing(self) -> None:
        self.write(TOML.replace("return b yield", "return b gettime"))
        ended = self.sweep("--jobs", "2")
        self.assertEqual(ended.returncode, 2, ended.stderr)
        self.assertIn("measure 'yield': in no run a job is done", ended.stderr)

    def test_what_is_missing(self) -> None:
        self.write()
        alone = self.path("xargs")
        ended = self.sweep("--jobs", "2", path=alone)
        self.assertEqual((ended.returncode, self.table()), (0, TABLE), ended.stderr)
        for words in (["--sshlogin", ":"], ["--engine", "parallel"], ["--plot", "a", "--over", "long"]):
            self.assertEqual(self.sweep("--jobs", "2", *(["--anew"] if words[0] != "--plot" else []), *words, path=alone).returncode, 3, words)
        self.assertEqual(self.sweep("--anew", path=str(self.folder)).returncode, 3)

    def test_a_program_that_is_missing(self) -> None:
        self.write()
        ended = self.sweep("--jobs", "1", program="/nowhere/pse52")
        self.assertEqual(ended.returncode, 3)
        ended = self.sweep("--jobs", "1", program="pse52 'run")
        self.assertEqual((ended.returncode, ended.stderr.splitlines()[-1]), (3, "pse52-sweep: --program pse52 'run: No closing quotation"))
        sweep = read_sweep(self.folder / "two.toml")
        with Streams() as streams:
            row, *beside = row_of(sweep, sweep.run(0), ["/nowhere/pse52"], streams)
        self.assertEqual((row, beside), (["2", "0", "127", "/nowhere/pse52: No such file or directory"] + [""] * 7, [[], []]))

    def test_the_table_is_in_the_order_of_the_grid(self) -> None:
        self.assertEqual(table(["a", "b"], {2: ["3", "x,y"], 0: ["1", ""]}), 'a,b\n1,\n3,"x,y"\n')


class Example(unittest.TestCase):
    def test_the_stored_table_is_what_the_runs_say(self) -> None:
        """Each nineteenth row of the stored example, against the reference."""
        sweep = read_sweep(TOP / "examples" / "sweeps" / "server_budget.toml")
        with (TOP / "examples" / "sweeps" / "server_budget.csv").open(newline="") as file:
            stored = list(csv.reader(file))
        self.assertEqual(stored[0], sweep.columns)
        self.assertEqual(len(stored), 1 + sweep.count)
        with Streams() as streams:
            for number in range(0, sweep.count, 19):
                self.assertEqual(stored[1 + number], row_of(sweep, sweep.run(number), REFERENCE.split(), streams)[0])

    def test_the_answer_of_the_page(self) -> None:
        with (TOP / "examples" / "sweeps" / "server_budget.csv").open(newline="") as file:
            rows = list(csv.DictReader(file))
        both = {budget for budget in range(8, 14) if not any(
            int(row["answer_late"]) + int(row["answer_open"]) + int(row["logger_late"]) for row in rows if row["budget"] == str(budget))}
        self.assertEqual(both, {11})


if __name__ == "__main__":
    unittest.main()
