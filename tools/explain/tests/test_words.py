"""Faults of the words of a line, in one line each, worked out by hand from the patterns of docs/SCRIPT.md."""
from __future__ import annotations

import unittest

from explain.show import in_one_line_each
from explain.text import faults_of

FIVE = "the five are high priority, low priority, period, budget, and how many replenishments may be pending"
THEY = "they are, in this order: high priority, low priority, period, budget, and how many replenishments may be pending"
LEAST = "the greatest number of pending replenishments"

# A step in a body, the column of its fault, and what is told of it.
STEPS = [
    ("run 1\x0b", 6, "BadByte: byte 6 is a vertical tab; remove it"),
    ("run 1\x0c", 6, "BadByte: byte 6 is a form feed; remove it"),
    ("run 1\x1b", 6, "BadByte: byte 6 is an escape; remove it"),
    ("# \xef\xbb\xbf", 3, "BadByte: byte 3 begins U+FEFF, which cannot be seen and is not ASCII; remove it, or write a blank"),
    ("# \x80", 3, "BadByte: byte 3 begins U+0080, which cannot be seen and is not ASCII; remove it, or write a blank"),
    ("run 1 2", 7, "WordCount: '2' is a word too many; write `run N`"),
    ("yield 1", 7, "WordCount: '1' is a word too many; write `yield`"),
    ("if EINTR 3\nend", 10, "WordCount: '3' is a word too many; write `if EINTR`"),
    ("run", 5, "WordCount: the line ends too early: N is missing; write `run N`"),
    ("sigqueue", 10, "WordCount: the line ends too early: SIG V is missing; write `sigqueue SIG V`"),
    ("sem_timedwait s", 17, "WordCount: the line ends too early; write `sem_timedwait S V` or `sem_timedwait S V real`"),
    ("setsched a", 12, "WordCount: the line ends too early; write `setsched T fifo P`, `setsched T rr P` or `setsched T sporadic P P N N N`"),
    ("clock_nanosleep 5 clock_monotonic", 19, "WordCount: 'clock_monotonic' is a word too many; leave it out: without `real` a time is one of CLOCK_MONOTONIC"),
    ("clock_nanosleep 5 realtime", 19, "WordCount: 'realtime' is a word too many; write `real`: that puts the time on CLOCK_REALTIME"),
    ("lock m real", 8, "WordCount: 'real' is a word too many; leave it out: `real` stands once, behind an absolute time and a timer's declaration alone"),
    ("lock m realtime", 8, "WordCount: 'realtime' is a word too many; leave it out: `real` stands once, behind an absolute time and a timer's declaration alone"),
    ("gettime realtime", 9, "WordCount: 'realtime' is a word too many; write `real_gettime`, which reads CLOCK_REALTIME"),
    ("run 1e3", 5, "BadNumber: '1e3' is no number; write all its digits, and nothing between them (the pattern is `run N`)"),
    ("run 1,000", 5, "BadNumber: '1,000' is no number; write all its digits, and nothing between them (the pattern is `run N`)"),
    ("run 0XfF", 5, "BadNumber: '0XfF' is no number; write it in decimal: 255 (the pattern is `run N`)"),
    ("set reg", 5, "BadNumber: `reg` may not stand here; a number stands here: only where a pattern has V may the register stand (the pattern is `set N`)"),
    ("sigqueue rt32 1", 10, "BadName: 'rt32' is no signal; signals are `rt0` to `rt31` (the pattern is `sigqueue SIG V`)"),
    ("run 0", 5, "NumberRange: 0 is out of the range of this number, 1 to 10^18; choose a number in it"),
    ("run 1000000000000000001", 5, "NumberRange: 1000000000000000001 is out of the range of this number, 1 to 10^18; choose a number in it"),
    ("set 9999999999999999999", 5, "NumberRange: 9999999999999999999 is out of the range of this number, 0 to 10^18; choose a number in it"),
    ("setsched a fifo 256", 17, "NumberRange: 256 is out of the range of this number, 1 to 255; choose a number in it"),
    ("clock_nanosleep real 5", 22, "WordCount: '5' is a word too many; write `clock_nanosleep V real`: `real` stands last"),
    ("sem_timedwait s real 5", 22, "WordCount: '5' is a word too many; write `sem_timedwait S V real`: `real` stands last"),
    ("clock_nanosleep 5 rael", 19, "WordCount: 'rael' is a word too many; did you mean `real`?"),
    ("sigmask set rt1 rt2", 17, "WordCount: 'rt2' is a word too many; write `sigmask set SET`; the signals of a set stand between commas, as `rt1,rt5`"),
    ("sigmask rt1,rt2", 9, "UnknownWord: a word is missing before `rt1,rt2`; write `sigmask block SET`, `sigmask unblock SET` or `sigmask set SET`"),
    ("timer_settime k 8 0", 17, "UnknownWord: a word is missing before `8`; write `timer_settime K rel N N` or `timer_settime K abs V N`"),
    ("Version 2", 1, "UnknownWord: 'Version' begins no line of a script; did you mean `version 2`? That is the first line with words"),
    ("version2", 1, "UnknownWord: 'version2' begins no line of a script; did you mean `version 2`? That is the first line with words"),
    ("lock s", 6, "WrongKind: `s` is a semaphore, and a mutex belongs here; use a name of that kind (the pattern is `lock M`)"),
    ("timer_settime k foo 3 0", 17, "UnknownWord: 'foo' may not stand behind `timer_settime k`; there stands `rel` or `abs`; the nearest pattern is `timer_settime K rel N N`"),
    ("mutex_lock m", 1, "UnknownWord: 'mutex_lock' begins no line of a script; `lock` is what does it here (`lock M`)"),
    ("0 start a", 1, "UnknownWord: '0' begins no line of a script; this is a line of a trace, which pse52-view draws and pse52-measure measures"),
    ("0 stop a", 1, "UnknownWord: '0' begins no line of a script; `0` stands behind another word: docs/SCRIPT.md, Patterns, has every line that there is"),
    ("task a 3 1 10 0", 1, "UnknownWord: 'task' begins no line of a script; this is a line of tasks, which `pse52 rta N` reads; a script has `thread NAME fifo P at N`"),
    ("sigwaitinfo SIGUSR1", 13, "BadName: 'SIGUSR1' is no set of signals; a set is `all`, `none`, or signals between commas, of `rt0` to `rt31`, as `rt1,rt5` (the pattern is `sigwaitinfo SET`)"),
    ("sleep 3 4", 1, "UnknownWord: 'sleep' begins no line of a script; `nanosleep` is what does it here (`nanosleep N`)"),
]

# The head of a thread, the column of its fault, and what is told of it.
HEADS = [
    ("thread x fifo at 0", 15, "UnknownWord: a word is missing before `at`; write `thread NAME fifo P at N`"),
    ("thread x SCHED_RR 5 at 0", 10, "UnknownWord: 'SCHED_RR' may not stand behind `thread x`; did you mean `rr`?"),
    ("mutex n PTHREAD_PRIO_INHERIT", 9, "UnknownWord: 'PTHREAD_PRIO_INHERIT' may not stand behind `mutex n`; did you mean `inherit`?"),
    ("mutex n none PTHREAD_MUTEX_RECURSIVE", 14, "WordCount: 'PTHREAD_MUTEX_RECURSIVE' is a word too many; did you mean `recursive`?"),
    ("action rt1 h", 12, "UnknownWord: a word is missing before `h`; write `action SIG run H`"),
    ("queue q 3 8 nonblocking", 13, "WordCount: 'nonblocking' is a word too many; did you mean `nonblock`?"),
    ("thread x 5 at 0", 10, "UnknownWord: a word is missing before `5`; write `thread NAME fifo P at N` or `thread NAME rr P at N`"),
    ("thread x fifo 5 at2", 17, "UnknownWord: 'at2' may not stand behind `thread x fifo 5`; did you mean `at 2`?"),
    ("thread x rr10 at 2", 10, "UnknownWord: 'rr10' may not stand behind `thread x`; did you mean `rr 10`?"),
    ("thread fifo 5 at 0", 8, "UnknownWord: a word is missing before `fifo`; write `thread NAME fifo P at N`"),
    ("thread x rr dormant", 21, "WordCount: the line ends too early; write `thread NAME rr P at N` or `thread NAME rr P dormant`"),
    ("thread x fifo 5", 17, "WordCount: the line ends too early; write `thread NAME fifo P at N` or `thread NAME fifo P dormant`"),
    ("thread " + "x" * 33 + " fifo 5 at 0", 8, "BadName: the name has 33 bytes; a name has at most 32 (the pattern is `thread NAME fifo P at N`)"),
    ("thread s sporadic 9 2 10 3 at 0", 10, f"UnknownWord: behind `sporadic` come five numbers, and there are 4; {THEY}"),
    ("thread s sporadic 20 9 9 9 at 0", 10, f"UnknownWord: behind `sporadic` come five numbers, and there are 4; {THEY}"),
    ("thread s sporadic 20 2 40 30 at 0", 10, f"UnknownWord: behind `sporadic` come five numbers, and there are 4; missing is {LEAST}: {FIVE}"),
    ("thread s sporadic 9 10 3 4 at 0", 10, f"UnknownWord: behind `sporadic` come five numbers, and there are 4; missing is the low priority or the high priority: {FIVE}"),
    ("thread s sporadic 9 2 3 4 at 0", 10, f"UnknownWord: behind `sporadic` come five numbers, and there are 4; missing is the budget or the period: {FIVE}"),
    ("thread s sporadic 2 9 10 3 at 0", 10, f"UnknownWord: behind `sporadic` come five numbers, and there are 4; {THEY}"),
    ("thread s sporadic 256 2 10 3 at 0", 10, f"UnknownWord: behind `sporadic` come five numbers, and there are 4; {THEY}"),
    ("thread s sporadic 9 2 10 3 4 5 at 0", 10, f"UnknownWord: behind `sporadic` come five numbers, and there are 6; {THEY}"),
    ("thread s sporadic at 0", 24, "WordCount: the line ends too early; write `thread NAME sporadic P P N N N at N` or `thread NAME sporadic P P N N N dormant`"),
]


class Words(unittest.TestCase):
    def told(self, script: str) -> str:
        return in_one_line_each("x", faults_of(script.encode("latin-1")))

    def test_steps(self) -> None:
        for step, column, told in STEPS:
            self.assertEqual(self.told(f"mutex m none\ntimer k rt1 0\nsem s 0\nthread a fifo 5 at 0\n{step}\nend\n"), f"x:5:{column}: {told}\n")

    def test_heads_of_threads(self) -> None:
        for head, column, told in HEADS:
            body = "end\n" if head.startswith("thread") else ""
            self.assertEqual(self.told(f"thread a fifo 5 at 0\nend\n{head}\n{body}"), f"x:3:{column}: {told}\n")

    def test_versions(self) -> None:
        for line, column, what in (("version 2 3", 1, "2 3"), ("version two", 9, "two")):
            self.assertEqual(self.told(f"{line}\nthread a fifo 5 at 0\nend\n"),
                             f"x:1:{column}: BadVersion: there is no version '{what}'; write `version 2`, or leave the line out for version 1\n")

    def test_the_longest_names_and_greatest_numbers_are_no_faults(self) -> None:
        name = "a" * 32
        script = f"thread {name} fifo 255 at {10**18}\nrun {10**18}\nset 0\ntkill {name} rt31\nsetsched {name} fifo 1\nend\n"
        self.assertEqual(faults_of(script.encode()), [])


if __name__ == "__main__":
    unittest.main()
