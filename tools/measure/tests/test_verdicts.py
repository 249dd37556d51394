"""The verdict on a task, for each case of the page, and what the table and the remarks say of it."""
from __future__ import annotations

import unittest

from measure.jobs import Job, Jobs
from measure.measures import measure_of_words
from measure.rta import Analysed, Analysis, remarks, rta_table
from measure.seen import Seen
from measure.tasks import Task
from view.lines import read_trace
from view.tests.details import detail_of

from .test_rta import thread, whole


def row(proved: int | None, deadline: int | None, longest: int | None, period: int | None = 10, why: str | None = None) -> Analysed:
    """A task with one job that took so long, or with none that was seen."""
    jobs = None if longest is None else Jobs([Job(0, longest)], 100)
    return Analysed(Task("a", 5, 0, cost=1, period=period), deadline, why=why, proved=proved, bound=50, seen=jobs)


class Verdicts(unittest.TestCase):
    def test_each_verdict(self) -> None:
        for wanted, told, given in (
                ("in time", "8", row(8, 10, 5)), ("in time", "8", row(8, 8, 8)), ("in time", "10", row(10, 10, 10)), ("in time", "8", row(8, 10, None)),
                ("may be late", "8", row(8, 7, 5)), ("may be late", "11", row(11, 20, 5)), ("may be late", ">50", row(None, 10, 5)),
                ("may be late", "8", row(8, 7, None)), ("late", "8", row(8, 7, 8)), ("late", ">50", row(None, 10, 11)), ("late", "11", row(11, 20, 21)),
                ("may be late", "11", row(11, 20, 15)), ("longer than proved", "8", row(8, 10, 9)), ("longer than proved", "8", row(8, 8, 9)),
                ("not analysed", "", row(None, 10, 5, why="it has a server")), ("not analysed", "", row(None, 10, None, why="it has a server")),
                ("late", "", row(None, 10, 11, why="it has a server")), ("runs once", "80", row(80, None, 70, None)),
                ("runs once", ">50", row(None, None, 70, None)), ("longer than proved", "80", row(80, None, 81, None)), ("in time", "80", row(80, 90, 70, None))):
            self.assertEqual((given.verdict, given.told), (wanted, told), given)

    def test_a_job_that_is_not_done_is_late_by_its_age(self) -> None:
        for deadline, wanted in ((99, "late"), (100, "not analysed")):
            given = row(None, deadline, None, why="it has a server")
            given.seen = Jobs([], 100, [0])
            self.assertEqual(given.verdict, wanted)

    def test_a_job_of_a_thread_that_ended_is_as_old_as_it_was_there(self) -> None:
        """The request of 42 acts in place of the sleep of the third job, and a ends at 48: 8 ticks behind the release, and not 160."""
        row = whole(thread("a", 5, "run 3", 20) + "thread b fifo 9 at 41\ncancel a\nend\n", 200).rows[0]
        self.assertEqual(([job.done for job in row.seen.jobs], row.seen.end, row.verdict), ([4, 25, None], 48, "not analysed"))
        for deadline, verdict in ((8, "not analysed"), (7, "late")):
            row.deadline = deadline
            self.assertEqual(row.verdict, verdict)

    def test_a_measure_that_counts_otherwise(self) -> None:
        """The script says that a releases its jobs from 7 on; each takes 5 or 6 ticks, whatever phase a measure names."""
        script = thread("a", 5, "run 4", 20, 7).encode()
        for words, told in (("thread=a period=20", 1), ("thread=a period=10 phase=7", 1), ("thread=a period=20 phase=7", 0)):
            analysis = Analysis(script, {})
            analysis.prove()
            analysis.look(Seen(read_trace(detail_of(script, 100).splitlines(keepends=True))), [measure_of_words(words)])
            row, = analysis.rows
            self.assertEqual((row.verdict, row.proved, row.seen.responses, len(analysis.notes)), ("in time", 6, [5, 6, 6, 6, 6], told), words)
        self.assertEqual(Analysis(script, {}).notes, [])

    def test_the_table_and_the_remarks(self) -> None:
        """high has 3 + 2 of 10 ticks, low 8 + 2 of 20, and its response time is 10 + 2 * 5 = 20; s has a server."""
        script = thread("high", 9, "run 3", 10) + thread("low", 5, "run 8", 20) + "thread s sporadic 3 1 20 3 4 at 0\nrun 1\nend\n"
        analysis = Analysis(script.encode(), {"low": 19})
        analysis.prove()
        analysis.look(Seen(read_trace(detail_of(script.encode(), 60).splitlines(keepends=True))), [measure_of_words("thread=low period=20 deadline=19")])
        table = rta_table(analysis)
        self.assertEqual([dict(zip(table.columns, line, strict=True)) for line in table.rows], [dict(zip(
            "task verdict priority cost period blocking deadline proved seen jobs late".split(), line.replace("-", "").split(","), strict=True)) for line in (
                "high,in time,9,5,10,0,10,5,5,6,0", "low,late,5,10,20,0,19,20,20,3,2", "s,not analysed,3,,,,,,,,")])
        self.assertEqual(remarks(analysis), "utilisation of the periodic tasks: 100.0%\ns is not analysed: it has a server\n")
        more = Analysis((thread("high", 9, "run 3", 10) + thread("low", 5, "run 9", 20)).encode(), {})
        self.assertEqual(remarks(more), "utilisation of the periodic tasks: 105.0%\nthat is more than the processor has\n")


if __name__ == "__main__":
    unittest.main()
