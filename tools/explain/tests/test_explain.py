"""What is told of the faults of a script."""
from __future__ import annotations

import os
import subprocess
import sys
import tempfile
import unittest
from pathlib import Path

from explain import TOP
from explain.show import shown
from explain.text import faults_of

sys.path.insert(0, str(TOP / "tools" / "reference"))
from forms import Stage  # noqa: E402
from mutate import refused  # noqa: E402
from reader import read  # noqa: E402
from writer import accepted  # noqa: E402

BODY = "thread a fifo 5 at 0\n{}\nend\n"

# A script, the line and column of its one fault, its kind, and a part of what is told.
CASES = [
    (BODY.format("sleep 3"), 2, 1, "UnknownWord", "`nanosleep` is what does it here"),
    (BODY.format("pthread_mutex_lock m"), 2, 1, "UnknownWord", "`lock`"),
    ("sem s 0\n" + BODY.format("sem_give s"), 3, 1, "UnknownWord", "`sem_post` is what does it here"),
    (BODY.format("sleep_until 5"), 2, 1, "UnknownWord", "`clock_nanosleep` is what does it here"),
    (BODY.format("increase 5"), 2, 1, "UnknownWord", "`add` is what does it here"),
    (BODY.format("raise rt1"), 2, 1, "UnknownWord", "`tkill` is what does it here"),  # by the standard it is for the caller
    (BODY.format("  rum 3"), 2, 3, "UnknownWord", "did you mean `run`?"),
    (BODY.format("else"), 2, 1, "UnknownWord", "there is no `else`"),
    (BODY.format("if ENOENT\nend"), 2, 4, "UnknownWord", "`EAGAIN`"),
    (BODY.format("if ETIMEOUT\nend"), 2, 4, "UnknownWord", "did you mean `ETIMEDOUT`?"),
    (BODY.format("unless eintr\nend"), 2, 8, "UnknownWord", "did you mean `EINTR`?"),
    (BODY.format("xyzzyq 5"), 2, 1, "UnknownWord", "has every line that there is"),
    ("mutex m foo\n" + BODY.format("run 1"), 1, 9, "UnknownWord", "`none`, `inherit` or `protect`; the nearest pattern is `mutex NAME none`"),
    ("mutex m 9\n" + BODY.format("run 1"), 1, 9, "UnknownWord", "a word is missing before `9`"),
    ("mutex m ceiling 9\n" + BODY.format("run 1"), 1, 9, "UnknownWord", "the nearest pattern is `mutex NAME protect P`"),
    ("thread a fifo 5 0\nend\n", 1, 17, "UnknownWord", "fix: write `thread NAME fifo P at N`"),
    ("thread a fifo 5 sleeping\nend\n", 1, 17, "UnknownWord", "the nearest pattern is `thread NAME fifo P dormant`"),
    (BODY.format("fifo 5"), 2, 1, "UnknownWord", "`fifo` stands behind another word: docs/SCRIPT.md, Patterns"),
    (BODY.format("sigmask set rt1, rt2"), 2, 18, "WordCount", "a set has no blanks round its commas"),
    (BODY.format("//hi"), 2, 1, "UnknownWord", "a comment begins with `#`"),
    (BODY.format("; hi"), 2, 1, "UnknownWord", "a comment begins with `#`"),
    (BODY.format("-- hi"), 2, 1, "UnknownWord", "a comment begins with `#`"),
    (BODY.format("run 1 // hi"), 2, 7, "WordCount", "a comment begins with `#`"),
    (BODY.format("run"), 2, 5, "WordCount", "N is missing"),
    (BODY.format("run 2.5"), 2, 5, "BadNumber", "whole numbers"),
    (BODY.format("run 5ms"), 2, 5, "BadNumber", "without a unit, as 5"),
    (BODY.format("set -1"), 2, 5, "BadNumber", "no number is negative"),
    (BODY.format("run {budget}"), 2, 5, "BadNumber", "bin/pse52-sweep fills it in"),
    (BODY.format("run 0x10"), 2, 5, "BadNumber", "in decimal: 16"),
    (BODY.format(f"run 0x{'f' * 5000}"), 2, 5, "BadNumber", f"'0x{'f' * 53}...' is no number"),
    (f"thread s sporadic 9 1 {'9' * 5000} 3 at 0\nend\n", 1, 10, "UnknownWord", "there are 4"),
    (f"thread {'a' * 99} fifo 5 at 0\nend\n", 1, 8, "BadName", "the name has 99 bytes"),
    (BODY.format("run 1\0"), 2, 6, "BadByte", "byte 6 is a zero byte"),
    (BODY.format("run 1_000"), 2, 5, "BadNumber", "write all its digits"),
    (BODY.format("run frob"), 2, 5, "BadNumber", "fix: digits stand here (the pattern"),
    (BODY.format("exit frob"), 2, 6, "BadNumber", "fix: digits stand here, or `reg` (the pattern"),
    (BODY.format("clock_nanosleep"), 2, 17, "WordCount", "`clock_nanosleep V` or `clock_nanosleep V real`"),
    (BODY.format("sigmask set rt1,"), 2, 13, "BadName", "signals between commas"),
    ("thread Ab fifo 5 at 0\nend\n", 1, 8, "BadName", "write `ab`"),
    ("thread a-b fifo 5 at 0\nend\n", 1, 8, "BadName", "since it has '-'"),
    ("thread 1a fifo 5 at 0\nend\n", 1, 8, "BadName", "since it begins with '1'"),
    (BODY.format("run reg"), 2, 5, "BadNumber", "only where a pattern has V"),
    (BODY.format("kill SIGUSR1"), 2, 6, "BadName", "`rt0` to `rt31`"),
    (BODY.format("lock m"), 2, 6, "UnknownName", "`mutex m inherit`"),
    (BODY.format("signal rt1"), 2, 8, "UnknownName", "a signal is sent by `kill rt1`"),
    (BODY.format("lock a"), 2, 6, "WrongKind", "`a` is a thread, and a mutex belongs here"),
    (BODY.format("loop 0\nend"), 2, 6, "NumberRange", "1 to 10^18"),
    ("Thread a fifo 5 at 0\nrun 1\nend\n", 1, 1, "UnknownWord", "did you mean `thread`?"),
    ("thread s sporadic 20 40 10 4 at 0\nend\n", 1, 10, "UnknownWord", "missing is the low priority or the high priority"),
    ("thread s sporadic 20 2 40 30 at 0\nend\n", 1, 10, "UnknownWord", "missing is the greatest number of pending replenishments: "),
    ("thread s sporadic 20 2 40 at 0\nend\n", 1, 10, "WordCount", "there are 3"),
    ("thread s sporadic 5 5 10 3 4 at 0\nend\n", 1, 21, "ServerRange", "low priority 5 is not below the high one, 5"),
    ("thread s sporadic 5 2 10 30 4 at 0\nend\n", 1, 26, "ServerRange", "budget 30 is above the period, 10"),
    ("thread a fifo 5 at 0\r\nend\n", 1, 21, "BadByte", "a Windows line end"),
    ("# caf\xc3\xa9\n" + BODY.format("run 1"), 1, 6, "BadByte", "the letter 'é', which is not ASCII"),
    ("# \xe9t\xe9\n" + BODY.format("run 1"), 1, 3, "BadByte", "the letter 'é', which is not ASCII"),
    (BODY.format("\xc2\xa0run 1"), 2, 1, "BadByte", "U+00A0, which cannot be seen"),
    ("thread a fifo 5 at 0\r\nend\n", 1, 21, "BadByte", "byte 21 is 13, a Windows line end\n"),
    ("thread a\r fifo 5 at 0\nend\n", 1, 9, "BadByte", "byte 9 is a Windows line end\n"),
    ("# \xe2\x82\xac5\n" + BODY.format("run 1"), 1, 3, "BadByte", "byte 3 begins the letter '\u20ac', which is not ASCII"),
    ("# \x93a\n" + BODY.format("run 1"), 1, 3, "BadByte", "U+0093, which cannot be seen"),
    (BODY.format("run 1 \x07"), 2, 7, "BadByte", "byte 7 is a control byte, 7"),
    (BODY.format("run 1 \x7f"), 2, 7, "BadByte", "byte 7 is a delete"),
    ("# caf\xe9s\n" + BODY.format("run 1"), 1, 6, "BadByte", "byte 6 begins the letter '\xe9', which is not ASCII"),
    ("\xef\xbb\xbf" + BODY.format("run 1"), 1, 1, "BadByte", "byte order mark"),
    ("mutex m none\nmutex m none\n" + BODY.format("run 1"), 2, 7, "DuplicateName", "declared here first"),
    ("action rt2 ignore\naction rt1 ignore\naction rt1 ignore\n" + BODY.format("run 1"), 3, 8, "DuplicateName", "2 | action rt1 ignore\n      | said here first"),
    ("mutex bus none\ncond buss\n" + BODY.format("lock buz"), 4, 6, "UnknownName", "did you mean `bus`? Else declare it"),
    ("mutex m none\n" + BODY.format("wait c m"), 3, 6, "UnknownName", "`cond c`"),
    ("cond c\n" + BODY.format("wait c m"), 3, 8, "UnknownName", "`mutex m inherit`"),
    ("cond c\n" + BODY.format("wait c c"), 3, 8, "WrongKind", "`c` is a condition, and a mutex belongs here"),
    ("thread s sporadic 5 2 10 0 4 at 0\nend\n", 1, 26, "ServerRange", "the budget is 0"),
    ("thread s sporadic 5 2 10 10 17 at 0\nend\n", 1, 29, "ServerRange", "17 replenishments may not be pending"),
    (BODY.format("\n".join(["loop 1"] * 16 + ["end"] * 16)), 17, 1, "TooMany", "or lies too deep"),
    (BODY.format("run 1") + "end\n", 4, 1, "StrayClose", "closes nothing"),
    ("run 1\n" + BODY.format("run 1"), 1, 1, "NotHere", "`run` is a step, and no body is open here"),
    ("mutex m none\nhandler h\nlock m\nend\n" + BODY.format("run 1"), 3, 1, "NotHere", "make no call that may block"),
    ("handler h\nsigmask set all\nend\n" + BODY.format("run 1"), 2, 1, "NotHere", "a signal handler runs with all signals masked"),
    ("thread a fifo 5 at 0\nloop 2\nrun 1\nthread b fifo 5 at 0\nend\n", 4, 1, "NotHere", "`loop` of line 2 and the `thread` of line 1 are still open"),
    ("thread a fifo 5 at 0\nloop 2\nrun 1\nend\nthread b fifo 5 at 0\nend\n", 5, 1, "NotHere", "fix: write `end` before this line"),
    ("cleanup u\nend\n" + BODY.format("push u\nend"), 5, 1, "StrayClose", "`pop 1` or `pop 0`"),
    ("cleanup u\nlock m\nend\nmutex m none\n" + BODY.format("run 1"), 2, 1, "NotHere", "may not stand in a cleanup handler"),
    ("version 3\n" + BODY.format("run 1"), 1, 9, "BadVersion", "write `version 2`"),
    ("version\n" + BODY.format("run 1"), 1, 1, "BadVersion", "write `version 2`"),
    ("version 2\nthread s strict 9 2 10 3 4 dormnt\nend\n", 2, 28, "UnknownWord", "did you mean `dormant`?"),
    (BODY.format("version 2"), 2, 1, "UnknownWord", "first line"),
    ("thread s strict 9 2 10 3 4 at 0\nend\n", 1, 10, "UnknownWord", "policy of version 2"),
    ("version 2\nthread s strict 9 2 10 30 4 at 0\nend\n", 2, 24, "ServerRange", "budget 30 is above the period, 10"),
    (BODY.format("clock_nanosleep 5 CLOCK_REALTIME"), 2, 19, "WordCount", "write `real`"),
    (BODY.format("clock_nanosleep real"), 2, 17, "BadNumber", "`real` behind it"),
    (BODY.format("nanosleep 5 real"), 2, 13, "WordCount", "behind an absolute time"),
    (BODY.format("clock_nanosleep 5 real real"), 2, 24, "WordCount", "stands once"),
    (BODY.format("clock_nanosleep 5 monotonic"), 2, 19, "WordCount", "without `real`"),
    (BODY.format("gettime real"), 2, 9, "WordCount", "`real_gettime`"),
    ("timer k rt1 0\n" + BODY.format("timer_settime k abs 5 0 real"), 3, 25, "WordCount", "`timer NAME SIG N real`"),
    (BODY.format("settimeofday 5"), 2, 1, "UnknownWord", "`clock_settime` is what does it here"),
    ("quantum 5\nquantum 5\n" + BODY.format("run 1"), 2, 1, "TooMany", "said twice"),
]


def text_of(script: str) -> bytes:
    return script.encode("latin-1")


class Faults(unittest.TestCase):
    def test_each_mistake_is_told_at_its_word(self) -> None:
        for script, line, column, kind, part in CASES:
            faults = faults_of(text_of(script))
            told = shown(text_of(script), faults)
            self.assertEqual([(fault.line, fault.word.column, fault.kind.name) for fault in faults], [(line, column, kind)], told)
            self.assertIn(part, told)

    def test_a_forgotten_end_is_named_where_it_was_forgotten(self) -> None:
        script = b"thread a fifo 5 at 0\n    loop 2\n        run 1\nend\nthread b fifo 5 at 0\n    run 1\nend\n"
        told = shown(script, faults_of(script))
        self.assertIn("line 5, column 1: NotHere", told)
        self.assertIn("the `loop` of line 2 was not closed: write `end` before line 4", told)

    def test_a_block_that_ends_by_its_indentation(self) -> None:
        script = b"thread a fifo 5 at 0\n    loop 2\n        run 1\n    run 2\nend\n"
        told = shown(script, faults_of(script))
        self.assertIn("Unclosed", told)
        self.assertIn("write `end` before line 4", told)

    def test_a_declaration_in_a_body(self) -> None:
        script = b"thread a fifo 5 at 0\n    loop 2\n        mutex m none\n        lock m\n    end\nend\nthread b fifo 5 at 0\nend\n"
        told = shown(script, faults_of(script))
        self.assertIn("move it above line 1; or, where the body was to be over, 2 closing lines are missing: write `end` for the `loop` of line 2, "
                      "then `end` for the `thread` of line 1, before this line", told)
        self.assertEqual([(fault.line, fault.kind.name) for fault in faults_of(script)], [(3, "NotHere")], told)

    def test_a_declaration_behind_a_body_without_its_end(self) -> None:
        script = b"thread a fifo 5 at 0\n    run 1\nmutex m none\nthread b fifo 5 at 0\nend\n"
        self.assertEqual([(fault.line, fault.kind.name) for fault in faults_of(script)], [(3, "NotHere")])

    def test_all_faults_at_once(self) -> None:
        script = text_of(BODY.format("rum 1\nrun x\nlock m") + "thread a fifo 300 at 0\nend\n")
        self.assertEqual([(fault.line, fault.kind.name) for fault in faults_of(script)],
                         [(2, "UnknownWord"), (3, "BadNumber"), (4, "UnknownName"), (6, "DuplicateName"), (6, "NumberRange")])
        self.assertIn("5 faults; the program answers that of line 2, UnknownWord", shown(script, faults_of(script)))

    def test_windows_line_ends_are_told_once(self) -> None:
        script = BODY.format("\n".join(["run 1"] * 20)).replace("\n", "\r\n").encode()
        told = shown(script, faults_of(script))
        self.assertEqual(told.count("a Windows line end"), 1)
        self.assertIn("the same in 21 lines more", told)


class Agreement(unittest.TestCase):
    """The least fault is the one that the reference answers, and an accepted script has none."""

    def test_refused(self) -> None:
        for seed in range(400):
            text = refused(seed, (Stage.WHOLE, Stage.VERSION2)[seed % 2])
            fault = read(text)[1]
            faults = faults_of(text)
            self.assertEqual(min(found.rank for found in faults), (fault.phase, fault.line, fault.kind.value), f"seed {seed}")
            shown(text, faults)

    def test_accepted(self) -> None:
        for seed in range(100):
            self.assertEqual(faults_of(accepted(seed, (Stage.WHOLE, Stage.VERSION2)[seed % 2])[0]), [], f"seed {seed}")

    def test_worked(self) -> None:
        for path in sorted((TOP / "tests" / "worked").glob("*.task")):
            text = path.read_bytes()
            fault, faults = read(text)[1], faults_of(text)
            self.assertEqual(min((found.rank for found in faults), default=None),
                             fault and (fault.phase, fault.line, fault.kind.value), path.name)


class Command(unittest.TestCase):
    def run_on(self, text: bytes) -> tuple[int, str]:
        with tempfile.TemporaryDirectory() as folder:
            script = Path(folder) / "s.task"
            script.write_bytes(text)
            ended = subprocess.run([sys.executable, str(TOP / "tools/explain/main.py"), str(script)], capture_output=True, text=True, check=False)
            return ended.returncode, ended.stdout

    def test_statuses(self) -> None:
        self.assertEqual(self.run_on(text_of(BODY.format("run 1"))), (0, "no fault\n"))
        self.assertEqual(self.run_on(b"")[0], 2)
        self.assertEqual(self.run_on(b"\n" * 1_048_577)[0], 3)

    def test_bytes_of_names_and_texts_in_any_locale(self) -> None:
        with tempfile.TemporaryDirectory() as folder:
            script = os.fsencode(folder) + b"/\xe4.task"
            Path(os.fsdecode(script)).write_bytes("thread \u00e4 fifo 5 at 0\nend\n".encode())
            for locale in ("C", "C.UTF-8"):
                ended = subprocess.run([sys.executable, str(TOP / "tools/explain/main.py"), "--lines", script], capture_output=True, check=False,
                                       env=dict(os.environ, LC_ALL=locale, PYTHONUTF8="0", PYTHONCOERCECLOCALE="0"))
                self.assertEqual(ended.returncode, 2, ended.stderr)
                self.assertTrue(ended.stdout.startswith(script + b":1:8: BadByte: byte 8 begins the letter '\xc3\xa4'"), ended.stdout)


if __name__ == "__main__":
    unittest.main()
