"""Threads of which no job is done: those that get too little of the processor, and those whose jobs end by another line."""
from __future__ import annotations

import unittest

from measure.jobs import NamesNothing
from measure.measures import Measure, measure_of_words
from measure.notes import notes_of
from measure.seen import Seen
from measure.tables import jobs_table
from view.lines import read_trace
from view.tests.details import detail_of, trace_of

# hog has a run of 8, its sleep and its jump in each 10 ticks, so that low gets one tick in all: the first job of hog has no jump.
HOG = "thread hog fifo 9 at 0\nset 0\nforever\nrun 8\nadd 10\nclock_nanosleep reg\nend\nend\n"
LOW = "thread low fifo 5 at 0\nset 0\nforever\nrun 3\ngettime\nadd 20\nclock_nanosleep reg\nend\nend\n"
# source sends three times; server, below hog, waits in mq_receive from 1 on and has the first message at 11.
SERVER = ("queue jobs 4 8\nthread source fifo 12 at 10\nset 10\nforever\nmq_send jobs 8 1 1\nadd 20\nclock_nanosleep reg\nend\nend\n"
          "thread hog fifo 9 at 5\nrun 100\nend\nthread server fifo 5 at 0\nforever\nmq_receive jobs\nrun 3\ngettime\nend\nend\n")


class Starved(unittest.TestCase):
    def seen(self, script: str, horizon: int, make=detail_of) -> Seen:
        return Seen(read_trace(make(script.encode(), horizon).splitlines(keepends=True)))

    def row(self, seen: Seen, measure: Measure) -> dict[str, str]:
        table = jobs_table(seen, [measure])
        return {column: figure for column, figure in zip(table.columns, table.rows[0]) if figure}

    def test_the_late_and_open_jobs_of_a_starved_thread(self) -> None:
        """Its jobs of 0, 20, 40 and 60 are older than 20 at the end, 81; that of 80 is open and not late."""
        for words, deadline, late in (("", "20", "4"), (' to="return low gettime"', "20", "4"), (" deadline=60", "60", "2"), (" deadline=61", "61", "1")):
            for make in (detail_of, trace_of):
                measure = measure_of_words("thread=low period=20" + words)
                seen = self.seen(HOG + LOW, 81, make)
                self.assertEqual(self.row(seen, measure), {"measure": "low", "jobs": "5", "deadline": deadline, "late": late, "open": "5"})
                self.assertIn("measure 'low': of 5 jobs none is done, so there is no response time", notes_of(seen, [measure])[0])

    def test_a_starved_server(self) -> None:
        """The jump back is a tick before the second and the third: requests of 11, 32 and 52. At 63 the first two are older than 30."""
        measure = measure_of_words('from="return source mq_send" to="return server gettime" deadline=30')
        seen = self.seen(SERVER, 63)
        self.assertEqual(self.row(seen, measure), {"measure": "jobs", "jobs": "3", "deadline": "30", "late": "2", "open": "3"})
        self.assertIn("of 3 jobs none is done, so", notes_of(seen, [measure])[0])

    def test_a_thread_whose_jobs_end_otherwise(self) -> None:
        """hog does all its jobs; low, alone, has done three at 61, and one that ends has done its only one."""
        for script, words, horizon in (
                (HOG + LOW, 'thread=hog period=10 to="return hog gettime"', 81),
                (LOW, 'thread=low period=20 to="return low yield"', 61),
                (LOW, 'thread=low period=20 to="call nanosleep"', 61),
                (SERVER, 'from="return source mq_send" to="return server yield"', 200),
                ("thread one fifo 9 at 0\nrun 3\nend\n", "thread=one period=10", 50),
                (HOG + LOW.replace("at 0", "at 90"), "thread=low period=20", 81),
                (HOG + LOW, 'from="start low" to=idle', 81)):
            with self.assertRaisesRegex(NamesNothing, r"^measure '\w+': of \d+ jobs none is done, for", msg=words):
                notes_of(self.seen(script, horizon), [measure_of_words(words)])

    def test_the_second_sleep_tells_that_the_first_job_is_done(self) -> None:
        """low, alone, sleeps from 5 to 20 and from 26 on: up to 25 it may be in the middle of its first job."""
        measure = measure_of_words('thread=low period=20 to="return low yield"')
        for horizon in (4, 6, 24, 25):
            self.assertIn("the thread is still in the first, or 'return low yield' is not what ends one", notes_of(self.seen(LOW, horizon), [measure])[0])
        for horizon in (27, 30):
            with self.assertRaises(NamesNothing, msg=horizon):
                notes_of(self.seen(LOW, horizon), [measure])

    def test_a_thread_that_ends_behind_a_release(self) -> None:
        """Its jobs are those of 0 and 20. Behind the second it sleeps up to 40, and its end takes a tick."""
        seen = self.seen(LOW.replace("forever", "loop 2"), 90)
        self.assertEqual(self.row(seen, measure_of_words("thread=low period=20"))["jobs"], "3")
        self.assertEqual(notes_of(seen, [measure_of_words("thread=low period=20")]),
                         ["measure 'low': its thread ended at 41, and of 3 jobs that were released up to there 2 are done; where it has no more, say jobs=2"])
        self.assertEqual(notes_of(seen, [measure_of_words("thread=low period=20 jobs=2")]), [])

    def test_no_job_begins(self) -> None:
        with self.assertRaisesRegex(NamesNothing, "^measure 'jobs': 'return low yield' begins no job"):
            notes_of(self.seen(HOG + LOW, 81), [measure_of_words('from="return low yield" to="return low gettime"')])
        with self.assertRaisesRegex(NamesNothing, "^measure 'low': no job is released up to the end .*: the first is due at 81$"):
            notes_of(self.seen(HOG + LOW, 81), [measure_of_words("thread=low period=20 phase=81")])

    def test_the_measure_that_is_wrong_is_named(self) -> None:
        """Of several only one is wrong: hog sleeps at 9, 20 and so on, and not once in 5 ticks."""
        measures = [measure_of_words(f"thread=hog period={period} name={name}") for period, name in ((10, "fine"), (60, "wrong"))]
        with self.assertRaisesRegex(NamesNothing, "^measure 'wrong': 'call clock_nanosleep' at 20 ends a job before its release at 60"):
            notes_of(self.seen(HOG + LOW, 81), measures)

    def test_jobs_that_are_done_need_no_word(self) -> None:
        self.assertEqual(notes_of(self.seen(HOG + LOW, 81), [measure_of_words("thread=hog period=10")]), [])


if __name__ == "__main__":
    unittest.main()
