"""The tasks of a script and their response times: worked by hand, and against runs of the reference's machine."""
from __future__ import annotations

import random
import unittest

from measure.rta import Analysis
from measure.seen import Seen
from measure.tasks import NoTask, tasks_of
from view.lines import read_trace
from view.tests.details import detail_of

PERIODIC = "thread {name} {policy} at {phase}\nset {phase}\nforever\n{job}\nadd {period}\nclock_nanosleep reg\nend\nend\n"


def thread(name: str, priority: int, job: str, period: int, phase: int = 0, policy: str = "fifo {}") -> str:
    return PERIODIC.format(name=name, policy=policy.format(priority), job=job, period=period, phase=phase)


def analysed(script: str) -> dict[str, tuple]:
    """What the analysis takes of each thread: priority, cost, period, blocking, and whether it applies."""
    return {row.task.name: (row.task.priority, row.task.cost, row.task.period, row.blocking, row.why is None)
            for row in Analysis(script.encode(), {}).rows}


def whole(script: str, horizon: int) -> Analysis:
    analysis = Analysis(script.encode(), {})
    analysis.prove()
    analysis.look(Seen(read_trace(detail_of(script.encode(), horizon).splitlines(keepends=True))), [])
    return analysis


class Tasks(unittest.TestCase):
    def test_costs(self) -> None:
        # A jump, the run, a call in a loop of three passes with its two jumps, a test that may come true, and the sleep: 1+4+5+2+1.
        job = "run 4\nloop 3\ngettime\nend\nif 0\nrun 2\nend"
        self.assertEqual(analysed(thread("a", 5, job, 20))["a"], (5, 13, 20, 0, True))
        # The sleep comes first: until then the job is an add and a sleep, and the others go from the sleep round to it.
        first = "thread a fifo 5 at 3\nset 3\nforever\nadd 20\nclock_nanosleep reg\nrun 4\nend\nend\n"
        self.assertEqual(analysed(first)["a"], (5, 6, 20, 0, True))
        self.assertEqual(analysed("thread a fifo 5 at 3\nrun 4\nyield\nend\n")["a"], (5, 6, None, 0, True))

    def test_threads_that_are_no_tasks(self) -> None:
        for script, why in (
                ("thread a sporadic 8 2 20 3 4 at 0\nrun 1\nend\n", "it has a server"),
                (thread("a", 5, "nanosleep 3", 20), "its job waits in 'nanosleep'"),
                ("sem s 0\n" + thread("a", 5, "sem_wait s", 20), "its job waits in 'sem_wait'"),
                (thread("a", 5, "add 1", 20), "it does not add one period"),
                (thread("a", 5, "run 1", 20).replace("at 0", "at 7"), "it counts its releases from 0, and starts at 7"),
                (thread("a", 5, "run 1", 20).replace("set 0", "set 5"), "it counts its releases from 5, and starts at 0"),
                (thread("a", 5, "forever\nend", 20), "a loop in its job has no end"),
                (thread("a", 5, "run 1", 20) + "action rt1 run h\nhandler h\nend\n", "signal handlers take ticks"),
                (thread("a", 5, "setprio a 6", 20), "'setprio' changes")):
            found = Analysis(script.encode(), {}).rows[0]
            self.assertIn(why, found.why or "", script)
        with self.assertRaises(NoTask):
            tasks_of(b"thread\n")

    def test_blocking_under_a_ceiling(self) -> None:
        # low owns m for a run and the unlock, 4 ticks, and n, whose ceiling is mid's priority, for 8, those of m among them.
        script = ("mutex m protect 9\nmutex n protect 5\n" + thread("high", 9, "lock m\nunlock m", 50) + thread("mid", 5, "lock n\nunlock n", 50)
                  + thread("low", 2, "lock n\nrun 2\nlock m\nrun 3\nunlock m\nunlock n", 50))
        self.assertEqual({name: row[3] for name, row in analysed(script).items()}, {"high": 4, "mid": 8, "low": 0})

    def test_blocking_by_all_passes_a_recursive_mutex_and_a_cleanup(self) -> None:
        """What comes behind an inner section counts too, while the outer mutex is owned: five passes with their four jumps, and so on."""
        high = thread("high", 9, "lock m\nunlock m", 50)
        for declared, job, blocking in (
                ("mutex m protect 9\nmutex k protect 5\n", "lock m\nloop 5\nlock k\nunlock k\nend\nunlock m", 15),
                ("mutex m protect 9 recursive\n", "lock m\nlock m\nunlock m\nrun 20\nunlock m", 23),
                ("mutex m protect 9\nmutex k protect 9\ncleanup u\nrun 10\nend\n", "lock m\npush u\nlock k\nunlock k\npop 1\nunlock m", 16),
                ("mutex m protect 9\nmutex k protect 9\ncleanup u\nrun 10\nend\n", "lock m\npush u\nlock k\nunlock k\npop 0\nunlock m", 5),
                ("mutex m protect 9\ncleanup u\nunlock m\nend\n", "lock m\npush u\nrun 4\npop 1", 7),
                ("mutex m protect 9\n", "lock m\ngettime\nif 0\nlock m\nend\nunlock m", 3)):
            rows = whole(declared + high.replace("at 0", "at 3").replace("set 0", "set 3") + thread("low", 2, job, 100), 400).rows
            self.assertEqual((rows[0].why, rows[0].blocking), (None, blocking), job)
            self.assertNotEqual(rows[0].verdict, "longer than proved", job)

    def test_where_a_mutex_is_kept(self) -> None:
        """Whoever waits or goes on without end while it owns a mutex keeps others from it for nobody knows how long, also those above all."""
        high = "mutex m protect 9\n" + thread("high", 9, "lock m\nrun 1\nunlock m", 10)
        for low in ("thread low fifo 5 at 0\nset 0\nlock m\nforever\nunlock m\nlock m\nadd 100\nclock_nanosleep reg\nend\nend\n",
                    "thread low fifo 5 at 0\nlock m\nforever\nrun 1\nend\nend\n", "thread low fifo 5 at 0\nlock m\nend\n"):
            rows = Analysis((high + low + thread("z", 1, "run 3", 100)).encode(), {}).rows
            self.assertNotIn(None, [row.why for row in rows], low)
        # mid waits for m while it owns p; low then has the priority that p gave to mid, which is above x.
        chain = ("mutex p protect 20\nmutex m inherit\n" + thread("x", 15, "lock p\nunlock p", 40) + thread("low", 2, "lock m\nrun 20\nunlock m", 200)
                 + thread("mid", 8, "lock p\nlock m\nunlock m\nunlock p", 100))
        self.assertFalse(analysed(chain)["x"][4])
        long = high + "thread low fifo 2 at 0\nlock m\nrun 2000000\nunlock m\nend\n"
        self.assertIn("for more than 1000000 ticks", Analysis(long.encode(), {}).rows[0].why)

    def test_a_loop_without_end_that_locks_nothing(self) -> None:
        low = "thread low fifo 2 at 0\nyield\nif EINTR\nforever\nrun 1\nend\nend\nend\n"
        self.assertEqual([row[4] for row in analysed(thread("high", 9, "run 1", 20) + low).values()], [True, False])

    def test_where_the_analysis_does_not_apply(self) -> None:
        shared = thread("high", 9, "lock m\nunlock m", 50) + thread("mid", 5, "run 1", 50) + thread("low", 2, "lock m\nrun 3\nunlock m", 50)
        for protocol, applies in (("none", [False, False, True]), ("inherit", [False, False, True]), ("protect 9", [True, True, True])):
            self.assertEqual([row[4] for row in analysed(f"mutex m {protocol}\n" + shared).values()], applies, protocol)
        server = thread("a", 9, "run 1", 50) + "thread s sporadic 5 2 20 3 4 at 0\nrun 1\nend\n" + thread("b", 3, "run 1", 50)
        self.assertEqual([row[4] for row in analysed(server).values()], [True, False, False])
        same = thread("a", 5, "run 1", 50) + thread("b", 5, "run 1", 50) + thread("c", 3, "run 1", 50)
        self.assertEqual([row[4] for row in analysed(same).values()], [False, False, True])
        sleeper = "mutex m protect 9\n" + thread("a", 9, "lock m\nunlock m", 50) + "thread b fifo 1 at 0\nlock m\nnanosleep 5\nunlock m\nend\n"
        self.assertEqual([row[4] for row in analysed(sleeper).values()], [False, False])


    def test_as_many_threads_as_there_may_be(self) -> None:
        """`rta` takes 255 tasks. Each job has a jump and a sleep, so that behind 254 others one takes 2 + 254 * 2 ticks."""
        low = thread("low", 1, "", 100000).replace("\n\n", "\n")
        for count, why, proved in ((254, None, 510), (255, "more than 254 threads are above it", None)):
            others = "".join(thread(f"t{number}", 9, "", 1000).replace("\n\n", "\n") for number in range(count))
            row = whole("version 2\n" + others + low, 10).rows[-1]
            self.assertEqual((row.why, row.proved), (why, proved))


class ResponseTimes(unittest.TestCase):
    def test_the_verdict_of_an_overload(self) -> None:
        # hog takes 12 of 20 ticks and lo needs 13: hog is in time, and lo is late from its first job on.
        rows = whole(thread("hog", 50, "run 10", 20) + thread("lo", 10, "run 10\ngettime", 20), 400).rows
        self.assertEqual([(row.proved, row.verdict) for row in rows], [(12, "in time"), (None, "late")])

    def test_a_first_job_beyond_its_period(self) -> None:
        """11 ticks each 10: the later jobs wait for the earlier ones, which nothing that is proved denies."""
        row, = whole(thread("lo", 10, "run 9", 10), 100).rows
        self.assertGreater(max(row.seen.responses), row.proved)
        self.assertEqual((row.proved, row.verdict), (11, "late"))
        row.deadline = 40
        self.assertEqual(row.verdict, "may be late")

    def test_the_first_jobs_take_what_is_proved(self) -> None:
        """Where all are released at once and nobody blocks, the job behind the first has the jump too: it takes no more than is proved."""
        exact = 0
        for seed in range(10):
            draw = random.Random(seed)
            tasks = [(f"t{n}", 10 + n, draw.randrange(1, 6), draw.choice((20, 24, 30))) for n in range(3)]
            # A `run 1` in front of the loop stands for the jump of the other jobs.
            script = "".join(thread(name, priority, f"run {work}", period).replace("forever", "run 1\nforever") for name, priority, work, period in tasks)
            for row in whole(script, 240).rows:
                if row.proved is not None and row.proved <= row.task.period:
                    self.assertEqual(row.seen.jobs[0].response, row.proved, (seed, row.task.name))
                    exact += 1
        self.assertGreater(exact, 20)

    def test_no_job_takes_longer_than_is_proved(self) -> None:
        """Sets with phases, ceilings and tests, by runs of the reference."""
        proved = blocked = 0
        for seed in range(12):
            draw = random.Random(seed)
            script = "mutex m protect 12\nmutex n protect 11\n"
            for number in range(3):
                steps = []
                for _ in range(draw.randrange(1, 4)):
                    work = draw.randrange(1, 4)
                    steps.append(draw.choice((f"run {work}", f"lock m\nrun {work}\nunlock m", "gettime\nif 0\nrun 1\nend",
                                              f"loop {work}\nyield\nend") + ((f"lock n\nrun {work}\nunlock n",) if number < 2 else ())))
                script += thread(f"t{number}", 10 + number, "\n".join(steps), draw.choice((30, 36, 45)), draw.randrange(0, 20))
            for row in whole(script, 720).rows:
                self.assertIsNone(row.why, script)
                self.assertNotEqual(row.verdict, "longer than proved", script)
                if row.verdict == "in time":
                    self.assertEqual(row.seen.late(row.deadline), 0)
                    proved, blocked = proved + 1, blocked + (row.blocking > 0)
        self.assertGreater(min(proved, blocked), 5)


if __name__ == "__main__":
    unittest.main()
