"""What the tests of whole sweeps have in common: a small sweep whose table is worked by hand, and a folder in which it runs."""
from __future__ import annotations

import os
import shutil
import subprocess
import sys
import tempfile
import unittest
from pathlib import Path

from sweep.engine import gnu_parallel

TOP = Path(__file__).resolve().parents[3]
SWEEP = TOP / "bin" / "pse52-sweep"
REFERENCE = f"{sys.executable} {TOP / 'tools' / 'reference' / 'simulate.py'}"

SCRIPT = """\
thread a fifo 5 at {when}
    run {long}
end
thread b fifo 9 at 3
    yield
end
"""
TOML = """\
script = "two.task.in"
horizon = 20
[values]
long = [2, 5, 0]
when = { from = 0, to = 4, step = 2 }
[[measure]]
name = "a"
kind = "ticks"
thread = "a"
[[measure]]
name = "yield"
kind = "response"
thread = "b"
from = "start"
to = "return b yield"
"""
# By hand: a runs for its ticks and one more; b is more urgent, so its yield returns a tick after its start. run 0 is out of range.
TABLE = """\
long,when,status,fault,a,yield_jobs,yield_least,yield_mean,yield_greatest,yield_jitter,yield_open
2,0,0,,3,1,1,1.000,1,0,0
2,2,0,,3,1,1,1.000,1,0,0
2,4,0,,3,1,1,1.000,1,0,0
5,0,0,,6,1,1,1.000,1,0,0
5,2,0,,6,1,1,1.000,1,0,0
5,4,0,,6,1,1,1.000,1,0,0
0,0,2,refused 2 5 NumberRange,,,,,,,
0,2,2,refused 2 5 NumberRange,,,,,,,
0,4,2,refused 2 5 NumberRange,,,,,,,
"""

# A program that takes a while that depends on its script, so that runs end in another order than they begin. It prints the trace of a yield.
SLOW = """\
import sys, time, zlib
text = sys.stdin.buffer.read()
time.sleep(zlib.crc32(text) % 7 / 50)
print(f"0 start b\\n1 return b yield 0 0\\n{sys.argv[-1]} end\\nthread a ticks {zlib.crc32(text) % 1000}\\nthread b ticks 1")
"""


def engines() -> list[str]:
    if gnu_parallel() is None:
        print("skipped: a sweep by GNU parallel, since it is not here", file=sys.stderr)
        return ["xargs"]
    return ["parallel", "xargs"]


class Folder(unittest.TestCase):
    def setUp(self) -> None:
        holder = tempfile.TemporaryDirectory()
        self.addCleanup(holder.cleanup)
        self.folder = Path(holder.name)

    def write(self, toml: str = TOML, script: str = SCRIPT) -> Path:
        (self.folder / "two.task.in").write_text(script)
        (self.folder / "two.toml").write_text(toml)
        return self.folder / "two.toml"

    def words(self, *words: str, program: str = REFERENCE) -> list[str]:
        return [sys.executable, str(SWEEP), str(self.folder / "two.toml"), "--program", program, *words]

    def sweep(self, *words: str, program: str = REFERENCE, path: str | None = None) -> subprocess.CompletedProcess[str]:
        environment = dict(os.environ, PATH=path or os.environ["PATH"])
        return subprocess.run(self.words(*words, program=program), env=environment, capture_output=True, text=True, check=False, timeout=300)

    def program(self, text: str) -> str:
        """The words of a program in Python with this text."""
        file = self.folder / "program.py"
        file.write_text(text)
        return f"{sys.executable} {file}"

    def path(self, *names: str) -> str:
        """A path that has these programs alone."""
        folder = self.folder / "bin"
        folder.mkdir()
        for name in names:
            (folder / name).symlink_to(shutil.which(name))
        return str(folder)

    def table(self) -> str:
        return (self.folder / "two.csv").read_text()
