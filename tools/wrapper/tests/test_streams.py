"""What each command answers where a standard stream is closed, full, or a folder."""
from __future__ import annotations

import os
import subprocess
import sys
import tempfile
import unittest
from pathlib import Path

TOP = Path(__file__).resolve().parents[3]
BESIDE = ("view", "measure", "sweep", "live", "lab", "from-ftrace")
SIMULATE = f"'{sys.executable}' tools/reference/simulate.py"
SWEEP = 'script = "s.task.in"\nhorizon = 9\n[values]\nn = [2, 3]\n[[measure]]\nname = "a"\nkind = "ticks"\nthread = "a"\n'


def shell(line: str) -> subprocess.CompletedProcess[str]:
    # Without the variable Python keeps what is printed back, up to its end, as on any machine.
    kept = {name: value for name, value in os.environ.items() if name != "PYTHONUNBUFFERED"}
    return subprocess.run(["sh", "-c", line], cwd=TOP, env=kept, stdin=subprocess.DEVNULL, capture_output=True, text=True, check=False)


def full() -> list[str]:
    """Where nothing can be written, and why."""
    return [">&-", *([">/dev/full"] if os.path.exists("/dev/full") else [])]


class Streams(unittest.TestCase):
    def test_help_and_version_that_are_not_written(self) -> None:
        for tool in BESIDE:
            for word in ("--help", "--version"):
                for where in full():
                    ended = shell(f"'{sys.executable}' bin/pse52-{tool} {word} {where}")
                    self.assertEqual(ended.returncode, 2 if tool == "sweep" else 5, (tool, word, where, ended.stderr))
                    self.assertRegex(ended.stderr, rf"\Apse52-{tool}: the output was not written: [^\n]*\n\Z")
                self.assertEqual(shell(f"'{sys.executable}' bin/pse52-{tool} {word} 2>&-").returncode, 0, tool)

    def test_the_reference(self) -> None:
        script = "examples/one_thread.task"
        for line, status in ((f"{SIMULATE} run 10 <&-", 4), (f"{SIMULATE} run 10 < examples", (4, 1)), (f"{SIMULATE} run 10 <{script} | tail -n 1", 0),
                             *((f"{SIMULATE} run 10 <{script} {where}", 5) for where in full())):
            ended = shell(line)
            self.assertIn(ended.returncode, status if isinstance(status, tuple) else (status,), line)
            self.assertNotIn("Traceback", ended.stderr, line)
        ended = shell(f"{{ {SIMULATE} run 9000 < examples/20_controller.task; echo $? >&2; }} | head -n 1")
        self.assertEqual((ended.stdout.count("\n"), ended.stderr), (1, "5\n"))

    def test_explain(self) -> None:
        script = "examples/one_thread.task"
        for line, status, told in (("< examples", 4, "pse52: standard input is a folder, and no text\n"),
                                   ("- < examples", 4, "pse52: standard input is a folder, and no text\n"),
                                   ("<&-", 4, "pse52: standard input: Bad file descriptor\n"), (f"{script} < examples", 0, ""),
                                   (f"{script} <&-", 0, ""), (f"< {script}", 0, "")):
            ended = shell(f"sh bin/pse52 explain {line}")
            self.assertEqual((ended.returncode, ended.stderr, ended.stdout), (status, told, "" if status else "no fault\n"), line)

    def test_a_sweep(self) -> None:
        """Its table is a file, and is written wherever its words go."""
        with tempfile.TemporaryDirectory() as folder:
            Path(folder, "s.toml").write_text(SWEEP)
            Path(folder, "s.task.in").write_text("thread a fifo 5 at 0\nrun {n}\nend\n")
            sweep = f"'{sys.executable}' bin/pse52-sweep --anew --engine xargs --program \"{SIMULATE}\" {folder}/s.toml --by n"
            for where in full():
                ended = shell(f"{sweep} {where}")
                self.assertEqual(ended.returncode, 2, where)
                self.assertEqual(ended.stderr.splitlines()[-1].split(": ")[:2], ["pse52-sweep", "the output was not written"], where)
                self.assertEqual(ended.stderr.count("was not written"), 1, where)
                self.assertEqual(Path(folder, "s.csv").read_text(), "n,status,fault,a\n2,0,,3\n3,0,,4\n")
            for where in ["2>&-", *(["2>/dev/full"] if os.path.exists("/dev/full") else [])]:
                ended = shell(f"{sweep} {where}")
                self.assertEqual((ended.returncode, ended.stdout.splitlines()[-1].split()), (0, ["3", "1", "0", "4"]), where)


if __name__ == "__main__":
    unittest.main()
