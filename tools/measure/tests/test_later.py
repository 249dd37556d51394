"""From when on the jobs of a measure count as later than they are: a release that nobody sees, and a period that is not the thread's."""
from __future__ import annotations

import unittest

from measure.jobs import asleep_with_an_open_job
from measure.measures import measure_of_words
from measure.notes import later_in_many, notes_of
from measure.seen import Seen
from view.lines import read_trace
from view.tests.details import detail_of, trace_of

# By hand: each job runs 3 ticks and calls in the fourth; from the second on a jump comes first. So t sleeps from 4, 25, 45 .. on.
SLEEPER = b"thread t fifo 5 at 0\nset 0\nforever\nrun 3\nadd 20\nclock_nanosleep reg\nend\nend\n"
# Up to 41 hog has the processor, so t is late for its release at 20 and for that at 40, and does not sleep in between.
LATE = b"thread hog fifo 9 at 10\nrun 30\nend\n" + SLEEPER
# The job of 10 ends at 36: the signal for 20 is pending then, and those for 30 are none.
OVERRUN = (b"timer beat rt1 0\nthread t fifo 5 at 0\nsigmask block rt1\ntimer_settime beat abs 10 10\n"
           b"sigwaitinfo rt1\nrun 25\nforever\nsigwaitinfo rt1\nrun 1\nend\nend\n")


def seen(text: bytes) -> Seen:
    return Seen(read_trace(text.splitlines(keepends=True)))


def notes(script: bytes, words: str) -> list[str]:
    return notes_of(seen(detail_of(script, 100)), [measure_of_words(words)])


class Later(unittest.TestCase):
    def test_a_thread_that_sleeps_has_no_open_job(self) -> None:
        for script, period, phase, count, wanted in ((SLEEPER, 20, 0, None, None), (SLEEPER, 10, 0, None, 25), (SLEEPER, 10, 0, 2, None),
                                                     (SLEEPER, 15, 0, None, 45), (LATE, 20, 0, None, None), (LATE, 10, 0, None, 51)):
            for text in (detail_of(script, 100), trace_of(script, 100)):
                self.assertEqual(asleep_with_an_open_job(seen(text), "t", period, phase, count), wanted, (script, period))

    def test_a_period_that_is_another_is_told(self) -> None:
        self.assertEqual(notes(SLEEPER, "thread=t period=20"), [])
        told = ["measure 't': from 25 on each job counts as later than it is, since its thread sleeps although a job is released and not done, "
                "so that the period or the phase is another"]
        self.assertEqual(notes(SLEEPER, "thread=t period=10"), told)
        # What ends a job may come before the thread sleeps in its midst, so of another line nothing is said.
        self.assertEqual(notes(SLEEPER.replace(b"add", b"gettime\nadd"), 'thread=t period=10 to="return t gettime"'), [])

    def test_an_overrun_is_told(self) -> None:
        words = 'thread=t period=10 phase=10 to="call sigwaitinfo"'
        told = ["measure 't': from 36 on each job counts as later than it is, since a timer expired while its last signal was still pending, "
                "so that a release has no signal (an overrun)"]
        self.assertEqual(notes(OVERRUN, words), told)
        self.assertEqual(notes(OVERRUN.replace(b"25", b"5"), words), [])
        self.assertEqual(later_in_many(seen(detail_of(OVERRUN, 100)), measure_of_words(words).words),
                         ["measure 't' counts jobs as later than they are, since a timer expired while its last signal was still pending, "
                          "so that a release has no signal (an overrun)"])


if __name__ == "__main__":
    unittest.main()
