"""What the tool takes for a task: costs and periods that are worked out by hand, and threads that are none."""
from __future__ import annotations

import unittest

from measure.rta import Analysis
from measure.tasks import Task, tasks_of

LOOP = "thread a fifo 5 at {phase}\n{before}\n{loop}\n{body}\nend\n{behind}\nend\n"


def one(body: str, before: str = "set 0", loop: str = "forever", behind: str = "", phase: int = 0, declared: str = "") -> Task:
    text = declared + LOOP.format(phase=phase, before=before, loop=loop, body=body, behind=behind)
    return next(task for task in tasks_of(text.encode())[1] if task.name == "a")


class TasksByHand(unittest.TestCase):
    def test_the_first_job_has_what_stands_before_the_loop(self) -> None:
        """7 and 1 and the sleep; each later job has the jump, the 1 and the sleep."""
        task = one("run 1\nadd 20\nclock_nanosleep reg", "run 7\nset 0")
        self.assertEqual((task.why, task.cost, task.period, task.jobs), (None, 9, 20, None))
        self.assertEqual(one("run 1\nadd 20\nclock_nanosleep reg").cost, 3)

    def test_the_last_job_has_what_stands_behind_the_loop(self) -> None:
        """Behind the last sleep come the rest of the body, what is behind the loop, and the tick in which the thread ends."""
        task = one("run 1\nadd 20\nclock_nanosleep reg", loop="loop 3", behind="run 30")
        self.assertEqual((task.why, task.cost, task.period, task.jobs), (None, 31, 20, 3))
        self.assertEqual(one("add 20\nclock_nanosleep reg\nrun 4", loop="loop 3", behind="run 5").cost, 10)
        self.assertEqual(one("run 1\nadd 20\nclock_nanosleep reg", behind="run 30").cost, 3)

    def test_the_register_before_the_loop(self) -> None:
        """It holds 0 at first, and `add` counts on; its value there is the first release."""
        for before, phase, why in (("", 0, None), ("add 4", 4, None), ("set 3\nadd 4", 7, None), ("add 3\nset 4", 4, None),
                                   ("", 4, "it counts its releases from 0, and starts at 4"), ("set 3\nadd 4", 4, "it counts its releases from 7, and starts at 4")):
            task = one("run 1\nadd 20\nclock_nanosleep reg", before, phase=phase)
            self.assertEqual((task.why, task.phase), (why, phase), before)

    def test_loops_that_are_no_periods(self) -> None:
        for body, why in (
                ("run 1\nclock_nanosleep reg\nadd 20", "it does not add one period in each pass, before it sleeps"),
                ("run 1\nadd 20\nset 7\nclock_nanosleep reg", "it does not add one period in each pass, before it sleeps"),
                ("run 1\nif 0\nadd 3\nend\nadd 20\nclock_nanosleep reg", "it does not add one period in each pass, before it sleeps"),
                ("run 1\nclock_nanosleep 400",
                 "it waits in 'clock_nanosleep', up to one fixed instant; a period is an 'add' and a 'clock_nanosleep reg' in each pass"),
                ("run 1\nadd 20\nclock_nanosleep reg real", "it waits in 'clock_nanosleep'"),
                ("run 1\nadd 0\nclock_nanosleep reg", "its period is not between 1 and 1000000000"),
                ("run 1\nadd 1000000001\nclock_nanosleep reg", "its period is not between 1 and 1000000000"),
                ("run 1000000\nadd 20\nclock_nanosleep reg", "a job may take more than 1000000 ticks")):
            self.assertEqual(one(body).why, why, body)
        self.assertEqual([one(f"run 1\nadd {period}\nclock_nanosleep reg").period for period in (1, 1_000_000_000)], [1, 1_000_000_000])
        self.assertEqual(one("run 999998\nadd 20\nclock_nanosleep reg").cost, 1_000_000)

    def test_threads_that_run_once(self) -> None:
        once = "thread a fifo 5 at 3\n{}\nend\nsem s 0\n"
        for body, cost, why in (("run 4", 5, None), ("run 4\nsem_post s", 6, None), ("run 4\nsem_wait s", 0, "it waits in 'sem_wait'"),
                                ("run 999999", 1_000_000, None), ("run 1000000", 1_000_001, "a job may take more than 1000000 ticks")):
            task, = tasks_of(once.format(body).encode())[1]
            self.assertEqual((task.cost, task.why, task.period, task.jobs, task.phase), (cost, why, None, 1, 3), body)

    def test_costs_of_blocks(self) -> None:
        """A loop has a jump between two passes; a block with a cleanup handler a push and a pop, and, where the pop runs it, the handler and its end."""
        declared = "cleanup h\nrun 10\nend\n"
        for body, cost in (("loop 3\nrun 2\nend", 8), ("loop 2\nrun 1\nloop 3\nrun 2\nend\nend", 19), ("loop 1\nrun 5\nend", 5),
                           ("push h\nrun 4\npop 1", 17), ("push h\nrun 4\npop 0", 6), ("if 0\nrun 4\ngettime\nend", 5), ("yield", 1)):
            task, = tasks_of(f"{declared}thread a fifo 5 at 0\n{body}\nend\n".encode())[1]
            self.assertEqual((task.why, task.cost), (None, cost + 1), body)

    def test_which_mutexes_a_thread_locks(self) -> None:
        """Also in blocks; one that it unlocks alone is none of them, and a cleanup handler locks nothing."""
        declared = "mutex k none\nmutex m none\nmutex n none\ncleanup h\nunlock n\nend\n"
        for body, locks in (("lock m\nunlock m", {1}), ("unlock m", set()), ("if 0\ntrylock k\nend", {0}), ("push h\nlock m\npop 1", {1}), ("loop 2\nlock k\nunlock k\nend", {0})):
            task, = tasks_of(f"{declared}thread a fifo 5 at 0\n{body}\nend\n".encode())[1]
            self.assertEqual(task.locks, locks, body)

    def test_threads_that_another_one_creates(self) -> None:
        """b is created by a, and c by nobody, so that c is not there at all."""
        text = "thread c fifo 6 dormant\nrun 9\nend\nthread b fifo 7 dormant\nrun 1\nend\nthread a fifo 5 at 0\ncreate b\nend\n"
        self.assertEqual([(task.name, task.why) for task in tasks_of(text.encode())[1]], [("b", "another thread creates it"), ("a", None)])
        early = text.replace("thread b fifo 7 dormant", "thread b fifo 7 at 30")
        self.assertEqual(tasks_of(early.encode())[1][0].why, "another thread creates it, perhaps before 30")

    def test_the_deadline_and_the_bound(self) -> None:
        """A period of 20 and a deadline of 35: response times are asked for up to the greater one."""
        text = LOOP.format(phase=0, before="set 0", loop="forever", body="run 1\nadd 20\nclock_nanosleep reg", behind="").encode()
        for deadlines, bound in (({"a": 35}, 35), ({"a": 5}, 20), ({}, 20)):
            analysis = Analysis(text, deadlines)
            analysis.prove()
            self.assertEqual((analysis.rows[0].bound, analysis.rows[0].proved, analysis.rows[0].verdict), (bound, 3, "in time"))
        late = Analysis(text, {"a": 2})
        late.prove()
        self.assertEqual(late.rows[0].verdict, "may be late")


if __name__ == "__main__":
    unittest.main()
