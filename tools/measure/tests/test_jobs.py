"""The jobs of traces that are written by hand: which ones there are, when they are done, and which are late."""
from __future__ import annotations

import unittest

from measure.jobs import Job, NamesNothing, answered, behind_a_lost_signal, periodic
from measure.seen import Seen
from view.lines import read_trace

# t ends a job at 4, 13, 22 and 36, and itself at 41; u, below it, has the rest.
ENDED = """\
0 start t
0 start u
0 dispatch t 9
4 return t gettime 0 0
4 dispatch u 5
10 dispatch t 9
13 return t gettime 0 0
13 dispatch u 5
20 dispatch t 9
22 return t gettime 0 0
22 dispatch u 5
30 dispatch t 9
36 return t gettime 0 0
41 exit t
41 dispatch u 5
90 end
thread t ticks 20
thread u ticks 70
"""
# w takes rt1 three times, the last one at 45.
SIGNALS = """\
0 start w
0 dispatch w 9
{sleep}10 deliver w rt1 {code} 0
10 return w sigwaitinfo 0 1
12 return w gettime 0 0
20 deliver w rt1 {code} 0
20 return w sigwaitinfo 0 1
44 return w gettime 0 0
45 deliver w rt1 {code} 0
45 return w sigwaitinfo 0 1
46 return w gettime 0 0
50 end
thread w ticks 50
"""


def seen(text: str) -> Seen:
    return Seen(read_trace(text.encode().splitlines(keepends=True)))


class JobsByHand(unittest.TestCase):
    def test_a_thread_that_ends_releases_nothing_behind_its_end(self) -> None:
        """The release of 40 is before its end at 41, and is never done; at 80 one is due that nobody waits for."""
        jobs = periodic(seen(ENDED), "t", 10, 0, "return t gettime", None)
        self.assertEqual(jobs.jobs, [Job(0, 4), Job(10, 13), Job(20, 22), Job(30, 36), Job(40, None)])
        self.assertEqual((jobs.responses, jobs.jitter, jobs.mean), ([2, 3, 4, 6], 4, 15 / 4))
        self.assertEqual([jobs.late(deadline) for deadline in (1, 2, 3, 4, 5, 6, 49, 50)], [5, 4, 3, 2, 2, 1, 1, 0])
        self.assertEqual([jobs.percentile(percent) for percent in (1, 25, 26, 50, 51, 75, 76, 100)], [2, 2, 3, 3, 4, 4, 6, 6])
        self.assertEqual(periodic(seen(ENDED), "t", 10, 0, "return t gettime", 4).jobs, jobs.jobs[:4])

    def test_a_job_is_never_done_before_or_at_its_release(self) -> None:
        """The second end, at 13, would be that of a release at 15, 14 or 13."""
        for period, phase in ((12, 3), (11, 3)):
            with self.assertRaisesRegex(NamesNothing, f"at 13 ends a job before its release at {phase + period}"):
                periodic(seen(ENDED), "t", period, phase, "return t gettime", None)
        with self.assertRaisesRegex(NamesNothing, "at 13 ends a job before its release at 13"):
            periodic(seen(ENDED), "t", 13, 0, "return t gettime", None)

    def test_what_comes_at_the_first_release_does_not_end_it(self) -> None:
        self.assertEqual(periodic(seen(ENDED), "t", 9, 4, "return t gettime", 3).jobs, [Job(4, 13), Job(13, 22), Job(22, 36)])

    def test_a_thread_that_is_starved_up_to_the_greatest_horizon(self) -> None:
        """10^18 ticks have 10^17 releases each 10. The last one is 10 ticks old at the end, and that before it 20."""
        trace = "0 start hog\n0 start low\n0 dispatch hog 9\n1000000000000000000 end\nthread hog ticks 1000000000000000000\nthread low ticks 0\n"
        jobs = periodic(seen(trace), "low", 10, 0, "return low gettime", None)
        self.assertEqual((jobs.count, len(jobs.open), jobs.responses), (10**17, 10**17, []))
        self.assertEqual([jobs.late(deadline) for deadline in (9, 10, 19, 20, 10**18 - 1, 10**18)], [10**17, 10**17 - 1, 10**17 - 1, 10**17 - 2, 1, 0])

    def test_a_line_of_more_than_one_begin_in_a_row(self) -> None:
        """u gets the processor at 4, 13 and 22 and t ends a job at 13, 22 and 36: the oldest is ended first, and the last at 41 is open."""
        jobs = answered(seen(ENDED), "dispatch u", "return t gettime", None)
        self.assertEqual(jobs.jobs, [Job(4, 13), Job(13, 22), Job(22, 36), Job(41, None)])
        self.assertEqual([jobs.late(deadline) for deadline in (8, 9, 13, 14, 48, 49)], [4, 2, 2, 1, 1, 0])

    def test_only_signals_of_timers_are_lost(self) -> None:
        """The releases are 10, 20, 30 and 40. At 45 w takes a signal for 30, and 40 has passed: one was lost, where a timer sent them.

        A thread that sleeps up to its releases does not wait for that timer; that another one sleeps says nothing.
        """
        for code, sleep, lost in (("TIMER", "", 45), ("QUEUE", "", None), ("TIMER", "5 return w clock_nanosleep 0 0\n", None),
                                  ("TIMER", "5 return u clock_nanosleep 0 0\n", 45), ("TIMER", "5 return w nanosleep 0 0\n", 45)):
            trace = seen(SIGNALS.format(code=code, sleep=sleep))
            self.assertEqual(behind_a_lost_signal(trace, "w", 10, 10, "return w gettime"), lost, (code, sleep))
        self.assertIsNone(behind_a_lost_signal(seen(SIGNALS.format(code="TIMER", sleep="")), "w", 15, 15, "return w gettime"))


if __name__ == "__main__":
    unittest.main()
