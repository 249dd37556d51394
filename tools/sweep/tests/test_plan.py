"""The file of a sweep: the grid that it says, and each word and number that it may not have."""
from __future__ import annotations

import subprocess
import sys
import unittest
from itertools import product

from sweep.plan import WrongSweep, read_sweep

from .folders import SCRIPT, SWEEP, TOML, Folder


class Plan(Folder):
    def test_the_grid(self) -> None:
        sweep = read_sweep(self.write())
        self.assertEqual([run.values for run in sweep.runs()], list(product([2, 5, 0], [0, 2, 4])))
        self.assertEqual([run.number for run in sweep.runs()], list(range(9)))

    def test_the_numbers_of_a_sweep(self) -> None:
        """From 0 to 10^18, up to the last of a range where a step comes to it, and at most a million runs."""
        for said, values in (("[0, 1000000000000000000]", [0, 10**18]), ("{ from = 3, to = 3 }", [3]), ("{ from = 0, to = 7, step = 3 }", [0, 3, 6]),
                             ("{ from = 1, to = 7, step = 3 }", [1, 4, 7])):
            self.assertEqual(read_sweep(self.write(TOML.replace("[2, 5, 0]", said))).values["long"], values)
        self.assertEqual(read_sweep(self.write(TOML.replace("[2, 5, 0]", "{ from = 1, to = 333333 }"))).count, 999_999)
        for said in ("[-1]", "[1000000000000000001]", "[true]", "[1.0]", '["1"]', "5", "{ from = 4, to = 3 }", "{ from = 0, to = 5, step = -1 }",
                     "{ from = -1, to = 5 }", "{ from = 0 }", "{ to = 5 }", "{ from = 0, to = 1000000000000000001 }", "{ from = 1, to = 333334 }",
                     "{ from = 0, to = 1000000000000000000 }", "{ from = 0, to = 5, by = 2 }", "[2, 5, 2]"):
            with self.assertRaises(WrongSweep, msg=said):
                read_sweep(self.write(TOML.replace("[2, 5, 0]", said)))
        for said in ("-1", "true", '"20"', '"{nobody}"', '"{long}{when}"', "1000000000000000001"):
            with self.assertRaises(WrongSweep, msg=said):
                read_sweep(self.write(TOML.replace("horizon = 20", f"horizon = {said}")))

    def test_a_thread_that_the_script_does_not_have(self) -> None:
        """Before any run, by one line. A number of the grid may stand in a name, and then the thread need not be in each run."""
        for there, other in (('thread = "a"', 'thread = "aa"'), ("return b yield", "return aa yield")):
            self.write(TOML.replace(there, other))
            ended = self.sweep("--jobs", "2")
            self.assertEqual((ended.returncode, ended.stdout, ended.stderr.count("\n")), (2, "", 1), ended.stderr)
            self.assertIn("the script has no thread 'aa'; it has a, b", ended.stderr)
            self.assertFalse((self.folder / "two.rows").exists())
        script = SCRIPT.replace("thread a ", "thread a{long} ")
        for name, is_there in (("a5", True), ("a50", False), ("a7", False), ("a", False)):
            toml = self.write(TOML.replace('thread = "a"', f'thread = "{name}"'), script)
            if is_there:
                self.assertEqual(read_sweep(toml).count, 9)
            else:
                with self.assertRaisesRegex(WrongSweep, f"no thread '{name}'"):
                    read_sweep(toml)

    def test_what_the_script_does_not_have_to_wait_for(self) -> None:
        """An object, a thread that is joined, or a set of signals; and a call that waits. Else the waits would be 0 without a word."""
        waits = TOML + '[[measure]]\nname = "w"\nkind = "blocked"\nthread = "a"\n'
        script = "mutex m{long} none\nsem s 0\n" + SCRIPT
        for there in ('on = "s"', 'on = "m5"', 'on = "b"', 'on = "rt1,rt7"', 'on = "all"', 'call = "lock"', 'call = "join"\non = "b"'):
            self.assertEqual(read_sweep(self.write(f"{waits}{there}\n", script)).count, 9)
        for wrong, named in (('on = "t"', "has no 't' to wait for; it has m{long}, s, a, b"), ('on = "m7"', "no 'm7'"),
                             ('call = "lokc"', "and not 'lokc'"), ('call = "unlock"', "and not 'unlock'")):
            with self.assertRaisesRegex(WrongSweep, named):
                read_sweep(self.write(f"{waits}{wrong}\n", script))

    def test_what_is_missing_or_has_a_unit_is_named(self) -> None:
        for wrong, told in ((TOML.replace("horizon = 20", ""), "the file needs 'horizon': a number of ticks"),
                            (TOML.replace('script = "two.task.in"', ""), "the file needs 'script': the name"),
                            (TOML + '[[measure]]\nname = "j"\nkind = "periodic"\nthread = "a"\nperiod = "20ms"\n',
                             "'period' is a number of at least 1, or in a sweep \"{name}\", and not '20ms'; all times are in ticks, without a unit")):
            with self.assertRaises(WrongSweep) as raised:
                read_sweep(self.write(wrong))
            self.assertIn(told, str(raised.exception))

    def test_words_and_files_that_are_wrong(self) -> None:
        self.write()
        for words in (["--jobs", "0"], ["--frob"], ["--engine", "ls"]):
            ended = self.sweep(*words)
            self.assertEqual((ended.returncode, ended.stderr.count("\n")), (1, 1), ended.stderr)
        for column in ("speed", "fault"):
            ended = self.sweep("--plot", column)
            self.assertEqual((ended.returncode, ended.stderr.count("\n")), (2, 1), ended.stderr)
        self.assertEqual(self.sweep("--plot", "a", "--over", "a,b,c").returncode, 2)
        for words, named in (("--columns", "a_greatest"), "--by"), (("--over", "long"), "--plot"):
            ended = self.sweep(*words)
            self.assertEqual(ended.returncode, 1)
            self.assertIn(named, ended.stderr)
        for wrong in (TOML.replace("20", '"x"', 1), TOML.replace("[2, 5, 0]", "[]"), TOML.replace("when =", "then ="),
                      TOML + '[[measure]]\nname = "a"\nkind = "lock"\n', TOML.replace("step = 2", "step = 0"), "script =",
                      TOML + '[[measure]]\nname = "j"\nkind = "periodic"\nthread = "a"\nperiod = "{when}"\n'):
            with self.assertRaises(WrongSweep, msg=wrong):
                read_sweep(self.write(wrong))
        self.assertEqual(subprocess.run([sys.executable, str(SWEEP), str(self.folder / "none.toml")], capture_output=True,
                                        check=False).returncode, 2)


if __name__ == "__main__":
    unittest.main()
