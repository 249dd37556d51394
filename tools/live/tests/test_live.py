"""Runs on this machine's kernel, where that is possible."""
from __future__ import annotations

import io
import shutil
import sys
import unittest
from unittest import mock

from live import TOP, main
from live.due import REFERENCE, Side
from live.rig import Result, run_script
from live.settings import NotAllowed, refused_by_kernel, why_not

from .kept import CASES

SIDE = Side((sys.executable, str(REFERENCE)), "the reference")


class Words(unittest.TestCase):
    """The command, without a kernel."""

    def test_the_version_needs_no_root(self) -> None:
        with mock.patch.object(main, "why_not", lambda: "it is not allowed"), mock.patch("sys.stdout", io.TextIOWrapper(io.BytesIO())) as told, \
                mock.patch("sys.stderr", io.StringIO()):
            self.assertEqual(main.main(["--version"]), 0)
            self.assertEqual(main.main(["s.task", "20"]), 4)
        self.assertTrue(told.buffer.getvalue().startswith(b"pse52-live "))

    def test_a_trace_that_cannot_be_written_is_reported_all_the_same(self) -> None:
        result = mock.Mock()
        result.last.found.lines = ["0 end"]
        said = mock.Mock(script=TOP / "examples" / "one_thread.task")
        with open("/dev/full", "w") as full, mock.patch.object(main, "other_side"), mock.patch.object(main, "run_script", lambda *_: result), \
                mock.patch.object(main, "report", lambda *_: main.Status.KNOWN), mock.patch("sys.stdout", full), \
                mock.patch("sys.stderr", io.StringIO()) as told:
            self.assertEqual(main.carry_out(said), main.Status.KNOWN)
        self.assertIn("was not written", told.getvalue())


class OnThisKernel(unittest.TestCase):
    def setUp(self) -> None:
        why = why_not() or refused_by_kernel() or (None if shutil.which("cc") else "cc is not here")
        if why is not None:
            self.skip(why)

    def skip(self, why: str) -> None:
        print(f"skipped: real threads, since {why}", file=sys.stderr)
        self.skipTest(why)

    def run_it(self, text: bytes, horizon: int) -> Result:
        try:
            result = run_script(text, horizon, SIDE)
        except NotAllowed as why:
            self.skip(str(why))
        if result.gave_up is not None:
            self.skip(f"this machine is too busy: {result.gave_up}")
        return result

    def test_inheritance(self) -> None:
        text = (TOP / "examples" / "05_inherit.task").read_bytes()
        result = self.run_it(text, 26)
        self.assertTrue(result.agrees, result.last.found.differences)
        self.assertEqual(result.last.found.lines, (TOP / "examples" / "05_inherit.trace").read_text().splitlines())

    def test_round_robin(self) -> None:
        text = (TOP / "examples" / "03_round_robin.task").read_bytes()
        result = self.run_it(text, 28)
        self.assertTrue(result.agrees, result.last.found.differences)

    def test_a_probe_agrees_or_differs_by_name(self) -> None:
        case = CASES["ceiling_after_timeout"]
        result = self.run_it(case.text, case.horizon)
        self.assertTrue(result.is_explained, result.last.found.differences)


if __name__ == "__main__":
    unittest.main()
