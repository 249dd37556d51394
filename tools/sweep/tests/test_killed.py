"""A sweep, a run or a job of the engine that something kills: what is kept, and that the same words go on from there."""
from __future__ import annotations

import csv
import signal
import subprocess
import time
import unittest

from .folders import SLOW, TOML, Folder, engines

# As SLOW, but it goes on only when `long` is at most what the file `limit` beside it says, so that a sweep is not over before it is killed.
LIMITED = SLOW.replace("import sys, time, zlib", "import pathlib, re, sys, time, zlib").replace(
    "time.sleep(zlib", """\
limit = pathlib.Path(__file__).parent / "limit"
while int(re.search(rb"run (\\d+)", text)[1]) > int(limit.read_text()):
    time.sleep(0.02)
time.sleep(zlib"""
)

# Prints the trace of a yield. The first to come kills what WHOM says: itself, or the job that started it.
KILLER = """\
import os, pathlib, signal, sys
text = sys.stdin.buffer.read()
try:
    (pathlib.Path(__file__).parent / "killed").touch(exist_ok=False)
    print("0 idle", flush=True)
    os.kill(WHOM, signal.SIGKILL)
except FileExistsError:
    pass
print(f"0 start b\\n1 return b yield 0 0\\n{sys.argv[-1]} end\\nthread a ticks {len(text)}\\nthread b ticks 1")
"""


def heed_interrupts() -> None:
    """A shell has what it starts in the background ignore interrupts, and so would all that starts there."""
    signal.signal(signal.SIGINT, signal.SIG_DFL)


class Killed(Folder):
    def test_a_sweep_that_is_killed_goes_on(self) -> None:
        self.write(TOML.replace("[2, 5, 0]", "{ from = 1, to = 20 }"))
        program = self.program(LIMITED)
        words = self.words("--jobs", "2", program=program)
        for round, how in enumerate((signal.SIGKILL, signal.SIGINT, signal.SIGTERM), 1):
            (self.folder / "limit").write_text(str(4 * round))
            started = subprocess.Popen(words, stdout=subprocess.DEVNULL, stderr=subprocess.DEVNULL, preexec_fn=heed_interrupts)
            rows = self.folder / "two.rows"
            before = rows.read_text().count("\n") if rows.exists() else 1
            for _ in range(1200):
                if started.poll() is not None or (rows.exists() and rows.read_text().count("\n") > before + 4):
                    break
                time.sleep(0.05)
            started.send_signal(how)
            self.assertEqual(started.wait(), -how if how == signal.SIGKILL else 130)
            self.assertGreater(rows.read_text().count("\n"), before + 4)
            time.sleep(0.3)
        (self.folder / "limit").write_text("20")
        with rows.open("a") as file:
            file.write('[3, ["half a li')
        ended = self.sweep("--jobs", "2", program=program)
        self.assertEqual(ended.returncode, 0, ended.stderr)
        self.assertIn("runs were done before", ended.stderr)
        went_on = self.table()
        self.sweep("--anew", "--jobs", "3", program=program)
        self.assertEqual(went_on, self.table())
        self.assertEqual(len(went_on.splitlines()), 1 + 60)

    def test_a_run_that_is_killed_is_a_row_and_is_done_again(self) -> None:
        self.write()
        program = self.program(KILLER.replace("WHOM", "os.getpid()"))
        ended = self.sweep("--jobs", "2", program=program)
        self.assertEqual(ended.returncode, 0, ended.stderr)
        rows = [row for row in csv.DictReader(self.table().splitlines()) if row["status"] != "0"]
        self.assertEqual([(row["status"], row["fault"], row["a"]) for row in rows], [("-9", "killed by signal 9", "")])
        self.assertIn("as their rows say: 1;", ended.stderr)
        again = self.sweep("--jobs", "2", program=program)
        self.assertIn("8 of 9 runs were done before", again.stderr)
        self.assertNotIn(",-9,", self.table())
        self.assertEqual(len(self.table().splitlines()), 1 + 9)

    def test_a_job_that_is_killed(self) -> None:
        self.write()
        for engine in engines():
            program = self.program(KILLER.replace("WHOM", "os.getppid()"))
            (self.folder / "killed").unlink(missing_ok=True)
            ended = self.sweep("--anew", "--jobs", "2", "--engine", engine, program=program)
            self.assertEqual(ended.returncode, 3, ended.stderr)
            self.assertIn("start the sweep again to go on", ended.stderr)
            again = self.sweep("--jobs", "2", "--engine", engine, program=program)
            self.assertEqual(again.returncode, 0, again.stderr)
            went_on = self.table()
            self.sweep("--anew", "--jobs", "1", "--engine", engine, program=program)
            self.assertEqual(went_on, self.table())


if __name__ == "__main__":
    unittest.main()
