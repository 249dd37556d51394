"""The tables, with figures that are worked out by hand."""
from __future__ import annotations

import unittest

from measure.main import heading
from measure.measures import measure_of_words
from measure.tables import as_csv, as_text, jobs_table, servers_table, share, tables_of, threads_table

from .test_jobs import ENDED
from .test_jobs import seen as read
from .test_measures import CHANGED
from .test_usage import POSTS, detail


class TablesByHand(unittest.TestCase):
    def test_jobs(self) -> None:
        """Response times of 2, 3, 4 and 6 and a job that is not done; and of 9, 9 and 14 and one more, which have no deadline."""
        measures = [measure_of_words('thread=t period=10 to="return t gettime"'), measure_of_words('from="dispatch u" to="return t gettime" name=u'),
                    measure_of_words('from="dispatch u" to="return t gettime" deadline=13 name=v')]
        table = jobs_table(read(ENDED), measures)
        self.assertEqual([dict(zip(table.columns, row, strict=True)) for row in table.rows], [dict(zip(
            "measure jobs least mean p50 p90 p99 greatest jitter deadline late open".split(), row.replace("-", "").split(","), strict=True)) for row in (
                "t,5,2,3.750,3,6,6,6,4,10,1,1", "u,4,9,10.667,9,14,14,14,5,-,-,1", "v,4,9,10.667,9,14,14,14,5,13,2,1")])
        self.assertEqual(as_csv([table]).splitlines()[1:3] + as_csv([table]).splitlines()[20:22],
                         ["jobs,t,,jobs,5", "jobs,t,,least,2", "jobs,u,,deadline,", "jobs,u,,late,"])

    def test_percentiles_of_many_jobs(self) -> None:
        """Response times of 1 to 150 ticks: 75 of 150 are at most 75, 135 at most 135, and 149, which is more than 99 of 100, at most 149."""
        lines = [f"{1000 * job + job + 1} return t gettime 0 {1000 * job + job + 1}" for job in range(150)]
        seen = read("\n".join(["0 start t", "0 dispatch t 5", *lines, "149900 end", "thread t ticks 149900\n"]))
        table = jobs_table(seen, [measure_of_words('thread=t period=1000 to="return t gettime"')])
        self.assertEqual(table.rows, [["t", "150", "1", "75.500", "75", "135", "149", "150", "149", "1000", "0", "0"]])

    def test_threads(self) -> None:
        """a runs for 1 + 2 + 2 ticks and waits for 4 + 6 + 15; b runs for 4 + 6 + 11, is ready in the 5 of a, and loses the processor twice."""
        self.assertEqual(threads_table(detail(POSTS, 30)).rows, [["a", "5", "16.7%", "0", "25", "0", "0"], ["b", "21", "70.0%", "5", "0", "2", "0"]])
        self.assertEqual(heading(detail(POSTS, 30)), "30 ticks, of which the processor ran for 26 (86.7%) and was idle for 4\n\n")
        lines = as_csv(tables_of(detail(POSTS, 30), [])).splitlines()
        self.assertIn("threads,a,,share,16.7", lines)
        self.assertIn("waits,a,sem_wait s,longest,15", lines)
        self.assertIn("priorities,b,5,ticks,21", lines)

    def test_a_trace_alone_has_fewer_columns(self) -> None:
        table = threads_table(read(ENDED))
        self.assertEqual((table.columns, table.rows), (["thread", "ticks", "share"], [["t", "20", "22.2%"], ["u", "70", "77.8%"]]))
        self.assertEqual(as_text([table]).splitlines()[:2], ["threads: thread  ticks  share", "t                   20  22.2%"])

    def test_servers(self) -> None:
        """Of s, which has ended, nothing tells what it had; w used its budget and the refill."""
        self.assertEqual(servers_table(read(CHANGED.decode())).rows, [["s", "5", "", "", "2", "4", "2"], ["w", "6", "6", "100.0%", "2", "5", "3"]])

    def test_shares(self) -> None:
        """Rounded to the digit behind the point, halves to the even one."""
        self.assertEqual([share(part, whole) for part, whole in ((0, 7), (1, 3), (2, 3), (1, 2000), (3, 2000), (7, 7), (0, 0))],
                         ["0.0%", "33.3%", "66.7%", "0.0%", "0.2%", "100.0%", ""])


if __name__ == "__main__":
    unittest.main()
