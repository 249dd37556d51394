"""When runs tell enough, what is put back, and what the command says first; with logs in the place of runs."""
from __future__ import annotations

import contextlib
import io
import os
import signal
import tempfile
import unittest
from pathlib import Path
from unittest import mock

from command import Usage
from live import main as command
from live import rig, settings
from live.due import REFERENCE, Side
from live.main import Status, words_of

from .kept import CASES, log_of

AGREES = CASES["broadcast_order"]
DIFFERS = CASES["boost_after_timeout"]
SIDE = Side(("python3", str(REFERENCE)), "the reference")


def noisy(text: str) -> str:
    return text.replace("gaps 0", "gaps 1")


class Attempts(unittest.TestCase):
    def run_with(self, case: object, *logs: str) -> rig.Result:
        """A script whose runs leave these logs, the last one again and again."""
        left = list(logs)
        with mock.patch.object(rig, "run_flat", lambda *_: left.pop(0) if len(left) > 1 else left[0]), \
                mock.patch.object(rig, "realtime", lambda *_: contextlib.nullcontext()), mock.patch.object(rig, "PAUSE", 0):
            return rig.run_script(case.text, case.horizon, SIDE, rig.Options(core=0))

    def test_two_runs_that_agree_are_enough(self) -> None:
        result = self.run_with(AGREES, log_of(AGREES.name))
        self.assertTrue(result.agrees)
        self.assertEqual(result.attempts, 2)

    def test_a_difference_has_its_name(self) -> None:
        result = self.run_with(DIFFERS, log_of(DIFFERS.name))
        self.assertEqual((result.agrees, result.attempts, result.names), (False, 2, ["boost-after-timeout"]))

    def test_a_disturbed_run_that_differs_counts_for_nothing(self) -> None:
        wrong = noisy(log_of(AGREES.name).replace("return broadcast 0 0", "return broadcast EINVAL 0"))
        result = self.run_with(AGREES, wrong, wrong, log_of(AGREES.name))
        self.assertTrue(result.agrees)
        self.assertEqual(result.attempts, 4)

    def test_it_gives_up_where_every_run_is_disturbed(self) -> None:
        result = self.run_with(DIFFERS, noisy(log_of(DIFFERS.name)))
        self.assertEqual((result.attempts, result.gave_up), (rig.MOST_ATTEMPTS, "every run was disturbed"))

    def test_it_gives_up_where_no_two_runs_tell_the_same(self) -> None:
        one = log_of(AGREES.name).replace("return broadcast 0 0", "return broadcast EINVAL 0")
        other = log_of(AGREES.name).replace("return broadcast 0 0", "return broadcast EPERM 0")
        result = self.run_with(AGREES, *[one, other] * rig.MOST_ATTEMPTS)
        self.assertEqual(result.gave_up, "no two runs in a row told the same")

    def test_a_horizon_that_is_too_far(self) -> None:
        with self.assertRaises(rig.TooLong):
            rig.run_script(AGREES.text, 10**9, SIDE)


class Settings(unittest.TestCase):
    def setUp(self) -> None:
        folder = Path(self.enterContext(tempfile.TemporaryDirectory()))
        self.runtime, self.timeslice = folder / "runtime", folder / "timeslice"
        self.runtime.write_text("950000\n")
        self.timeslice.write_text("100\n")
        self.enterContext(mock.patch.multiple(settings, RUNTIME=self.runtime, TIMESLICE=self.timeslice, DEPTH=folder / "none", LOCK=folder / "lock"))

    def read(self) -> tuple[str, str]:
        return self.runtime.read_text().strip(), self.timeslice.read_text().strip()

    def test_they_are_set_and_put_back(self) -> None:
        with settings.realtime(40):
            self.assertEqual(self.read(), ("-1", "40"))
        self.assertEqual(self.read(), ("950000", "100"))

    def test_they_are_put_back_after_a_failure(self) -> None:
        with self.assertRaises(ValueError), settings.realtime(40):
            raise ValueError
        self.assertEqual(self.read(), ("950000", "100"))

    def test_they_are_put_back_after_each_signal_that_asks_for_the_end(self) -> None:
        for number in settings.ENDING:
            with self.subTest(number), self.assertRaises(settings.Interrupted) as raised, settings.realtime(40):
                os.kill(os.getpid(), number)
                signal.sigtimedwait(set(), 1)
            self.assertEqual(raised.exception.number, number)
            self.assertEqual(self.read(), ("950000", "100"))

    def test_the_signals_do_afterwards_what_they_did_before(self) -> None:
        before = [signal.getsignal(number) for number in settings.ENDING]
        with settings.realtime():
            pass
        self.assertEqual([signal.getsignal(number) for number in settings.ENDING], before)

    def test_what_is_missing(self) -> None:
        self.assertIn("root", settings.why_not(cores={0, 1}, user=1000))
        self.assertIn("two cores", settings.why_not(cores={0}, user=0))
        self.assertIsNone(settings.why_not(cores={0, 1}, user=0))


class Command(unittest.TestCase):
    def status(self, *words: str, why: str | None = None) -> tuple[int, str]:
        said = io.StringIO()
        with mock.patch.object(command, "why_not", lambda: why), mock.patch.object(command, "refused_by_kernel", lambda: None), \
                mock.patch.object(command, "build", lambda: None), contextlib.redirect_stderr(said):
            return command.main(list(words)), said.getvalue()

    def script(self, text: str) -> str:
        path = Path(self.enterContext(tempfile.TemporaryDirectory())) / "a.task"
        path.write_text(text)
        return str(path)

    def test_it_says_what_is_missing_before_anything_else(self) -> None:
        status, said = self.status("no_such_file", "x", why="root is needed")
        self.assertEqual((status, said), (Status.NOT_ALLOWED, "pse52-live: root is needed\n"))

    def test_the_lines_that_the_kernel_has_nothing_for(self) -> None:
        status, said = self.status(self.script("thread s sporadic 9 2 20 5 2 at 0\nend\n"), "10")
        self.assertEqual(status, Status.CANNOT_RUN)
        self.assertIn("line 1: SCHED_SPORADIC", said)

    def test_a_script_with_a_fault(self) -> None:
        status, said = self.status(self.script("thread a fifo 5\n"), "10")
        self.assertEqual(status, Status.REFUSED)
        self.assertIn("refused 1 3 WordCount", said)

    def test_words_that_are_no_command(self) -> None:
        self.assertEqual(self.status("one")[0], Status.USAGE)
        self.assertEqual(self.status("no_such_file", "5")[0], Status.USAGE)


class WordsOfLive(unittest.TestCase):
    def test_words_that_no_machine_can_do(self) -> None:
        for words, part in (("--tick 0", "at least 0.001"), ("--tick nan", "at least 0.001"), ("--core 99999", "--core is one of"), ("--times 0", "at least 1")):
            with self.assertRaisesRegex(Usage, part):
                words_of(["s.task", "10", *words.split()])


if __name__ == "__main__":
    unittest.main()
