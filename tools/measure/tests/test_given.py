"""What the command measures: a trace, a detail or a script, of a file or of standard input."""
from __future__ import annotations

import os
import subprocess
import sys
import tempfile
import unittest
from pathlib import Path

from view.lines import MOST_LINES
from view.source import REFERENCE

TOP = Path(__file__).resolve().parents[3]
# a runs for two ticks and takes one to end; b has the other two from 1 on.
SCRIPT = b"# horizon 6\nthread a fifo 9 at 0\nrun 2\nend\nthread b fifo 5 at 1\nrun 1\nend\n"
HEADING = b"6 ticks, of which the processor ran for 5 (83.3%) and was idle for 1\n"
READY = b"b                    2  33.3%      2        0          0      0\n"  # it is ready from 1 to 3, and a runs


def measure(words: list[str], text: bytes = b"", **environment: str) -> subprocess.CompletedProcess[bytes]:
    return subprocess.run([sys.executable, str(TOP / "bin/pse52-measure"), *words], input=text, capture_output=True, check=False,
                          env=dict(os.environ, **environment))


def by_reference(command: str) -> bytes:
    return subprocess.run([sys.executable, str(REFERENCE), command, "6"], input=SCRIPT, capture_output=True, check=True).stdout


class WhatIsGiven(unittest.TestCase):
    def setUp(self) -> None:
        folder = tempfile.TemporaryDirectory(suffix=" with blanks")
        self.addCleanup(folder.cleanup)
        self.folder = Path(folder.name)

    def file(self, name: str, text: bytes) -> str:
        path = self.folder / name
        path.write_bytes(text)
        return str(path)

    def test_a_script_and_a_detail_tell_all(self) -> None:
        script, detail = self.file("s.task", SCRIPT), by_reference("detail")
        given = ([], SCRIPT), (["-"], SCRIPT), (["--script", "-"], SCRIPT), ([script], b""), (["--script", script], b""), ([], detail), \
            ([self.file("detail", detail)], b"")
        for words, text in given:
            ended = measure(words, text)
            self.assertEqual((ended.returncode, ended.stderr), (0, b""), words)
            self.assertTrue(ended.stdout.startswith(HEADING) and READY in ended.stdout, (words, ended.stdout))

    def test_a_trace_alone(self) -> None:
        for words, text in (([], by_reference("run")), ([self.file("trace", by_reference("run"))], b"")):
            ended = measure(words, text)
            self.assertEqual((ended.returncode, ended.stdout.startswith(HEADING)), (0, True))
            self.assertNotIn(b"ready", ended.stdout)
            self.assertIn(b"a trace does not tell what a thread waits for", ended.stderr)

    def test_calls_that_had_no_effect_are_named(self) -> None:
        # lock in the first tick of a pass, the run in two, unlock in the fourth, the jump in the fifth; EAGAIN is no mistake.
        script = (b"# horizon 20\nmutex m protect 4\nsem s 0\nthread a fifo 5 at 0\nloop 2\nlock m\nrun 2\nunlock m\nend\n"
                  b"sem_trywait s\nend\n")
        due = ("pse52-measure: 'lock' answered EINVAL 2 times and had no effect, first to 'a' at 1 (docs/CALLS.md)\n"
               "pse52-measure: 'unlock' answered EPERM 2 times and had no effect, first to 'a' at 4 (docs/CALLS.md)\n")
        self.assertEqual(measure([], script).stderr.decode(), due)
        self.assertEqual(measure(["--horizon", "1"], script).stderr.decode(), due.splitlines(True)[0].replace("2 times", "once"))

    def test_a_run_that_a_signal_ends_is_told(self) -> None:
        # The timer is set in the first tick for 3, where the thread works and does not mask its signal.
        script = b"# horizon 20\ntimer t rt1 0\nthread a fifo 5 at 0\ntimer_settime t abs 3 0\nrun 8\nend\n"
        ended = measure([], script)
        self.assertTrue(ended.stdout.startswith(b"3 ticks, of which the processor ran for 3"), ended.stdout)
        self.assertIn(b"rt1 killed the process at 3, and the run ends there: a thread does not mask it", ended.stderr)

    def test_a_trace_without_closing_lines_says_that_no_threads_are_told(self) -> None:
        ended = measure([], b"0 start a\n0 dispatch a 5\n3 idle\n10 end\n")
        self.assertEqual(ended.returncode, 0)
        self.assertIn(b"the trace has no closing lines", ended.stderr)

    def test_a_run_of_more_lines_than_are_read(self) -> None:
        """The program is ended, so that its run takes no more memory; a trace that somebody else wrote is read no further."""
        for words, text, program in ((["--horizon", "20"], SCRIPT, f"sh -c 'yes 0 idle | head -n {MOST_LINES + 100}'"), ([], b"0 idle\n" * (MOST_LINES + 1), "")):
            ended = measure(words, text, PSE52=program)
            self.assertEqual((ended.returncode, ended.stdout), (2, b""))
            self.assertEqual(ended.stderr.decode(), f"pse52-measure: the run has more than {MOST_LINES} lines, and no more are read; take a nearer horizon\n")

    def test_a_run_in_which_nobody_has_started_has_all_columns(self) -> None:
        """The detail of a script has no facts then, and tells all the same that no thread was ready, waited or was preempted."""
        for words, script in ((["--horizon", "0"], SCRIPT), ([], b"# horizon 3\nthread a fifo 5 at 4\nrun 1\nend\n")):
            ended = measure(words, script)
            self.assertEqual((ended.returncode, ended.stderr), (0, b""))
            head, row = (line.split() for line in ended.stdout.decode().splitlines()[2:4])
            self.assertEqual(head[-4:], ["ready", "blocked", "preempted", "turns"])
            self.assertEqual((row[0], row[-4:]), ("a", ["0"] * 4))

    def test_a_horizon_and_tasks_of_a_script_on_standard_input(self) -> None:
        self.assertIn(b"2 ticks, of which the processor ran for 2", measure(["--horizon", "2"], SCRIPT).stdout)
        self.assertEqual(measure(["--horizon", "0"], SCRIPT).stderr, b"")
        self.assertIn(b"rta: task", measure(["--rta"], SCRIPT).stdout)

    def test_what_does_not_go(self) -> None:
        trace = by_reference("run")
        for words, text, status, why in (
                (["--horizon", "6"], trace, 1, b"--horizon is for a script"), (["--rta"], trace, 1, b"--rta is for a script"),
                (["--script", "a", "b"], b"", 1, b"in place of FILE"), ([], SCRIPT.replace(b"# horizon 6\n", b""), 1, b"--horizon N"),
                (["--horizon", "1_0"], SCRIPT, 1, b"no number of ticks"), (["--horizon", "-1"], SCRIPT, 1, b"--horizon"),
                ([], SCRIPT.replace(b"run 2", b"rum 2"), 2, b"refused at line 3: UnknownWord"), ([], b"", 2, b"the text is empty"),
                ([str(self.folder / "none")], b"", 4, b"No such file"), ([str(self.folder)], b"", 4, b"Is a directory")):
            ended = measure(words, text)
            self.assertEqual((ended.returncode, ended.stdout), (status, b""), words)
            self.assertIn(why, ended.stderr, words)

    def test_a_horizon_that_no_run_has_is_none(self) -> None:
        for digits in (str(10**18 + 1), "9" * 20, "9" * 5000):
            ended = measure([], SCRIPT.replace(b"6", digits.encode(), 1))
            self.assertEqual((ended.returncode, ended.stdout), (1, b""), digits)
            self.assertIn(b"# horizon N, from 0 to 1000000000000000000", ended.stderr)
            self.assertNotIn(b"does not know", ended.stderr)
        self.assertIn(HEADING, measure([], SCRIPT.replace(b"6", b"0" * 30 + b"6", 1)).stdout)
        self.assertIn(HEADING, measure(["--horizon", "6"], SCRIPT.replace(b"6", b"9" * 5000, 1)).stdout)

    def test_words_of_the_environment_that_are_no_program(self) -> None:
        for program, why in (("'", b"PSE52 of the environment is no program: No closing quotation"),
                             ("sh -c 'echo what; exit 2'", b"the program ended with the status 2: what"),
                             ("sh -c 'echo a b c d e f; exit 2'", b"the program ended with the status 2: a b c d e f")):
            ended = measure([], SCRIPT, PSE52=program)
            self.assertEqual((ended.returncode, ended.stdout, ended.stderr.strip()), (2, b"", b"pse52-measure: " + why), program)
        self.assertIn(HEADING, measure([], SCRIPT, PSE52=" ").stdout)


if __name__ == "__main__":
    unittest.main()
