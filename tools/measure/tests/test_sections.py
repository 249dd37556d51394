"""Blocking under a ceiling, worked out by hand: the ticks in which the lower thread owns the mutex, up to the end of its unlock."""
from __future__ import annotations

import unittest

from measure.rta import Analysis, longest_above, shared
from measure.sections import Stretch, stretches_of
from measure.tasks import NoTask, tasks_of

from .test_rta import thread

DECLARED = "mutex m protect 9\nmutex k protect 5\nmutex p none\ncleanup h\nrun 6\nend\n"
HIGH = thread("high", 9, "lock m\nunlock m", 50)


def blocking(job: str, middle: str = "") -> list[int | str | None]:
    """That of high, and of middle where there is one."""
    rows = Analysis((DECLARED + HIGH + middle + thread("low", 2, job, 500)).encode(), {}).rows
    return [row.why or row.blocking for row in rows[:-1]]


class Sections(unittest.TestCase):
    def test_blocks_without_a_mutex_of_their_own(self) -> None:
        for job, ticks in (("lock m\nrun 5\nunlock m", 6), ("lock m\nunlock m", 1), ("lock m\nloop 1\nrun 3\nend\nunlock m", 4),
                           ("lock m\nloop 2\nrun 3\nend\nunlock m", 8), ("lock m\nloop 3\nrun 3\nend\nunlock m", 12),
                           ("lock m\nif 0\nrun 3\nend\nunlock m", 4), ("lock m\nloop 2\nloop 2\nrun 3\nend\nend\nunlock m", 16),
                           ("run 90\nlock m\nrun 2\nunlock m\nrun 80", 3), ("lock m\npush h\nrun 4\npop 1\nunlock m", 14), ("lock m\npush h\nrun 4\npop 0\nunlock m", 7)):
            self.assertEqual(blocking(job), [ticks], job)

    def test_two_sections_are_not_added_up(self) -> None:
        """Nor are two passes of a loop, each with a section of its own; the longer one counts."""
        for job, ticks in (("lock m\nrun 5\nunlock m\nlock m\nrun 7\nunlock m", 8), ("lock m\nrun 7\nunlock m\nyield\nlock m\nrun 5\nunlock m", 8),
                           ("loop 4\nlock m\nrun 2\nunlock m\nend", 3)):
            self.assertEqual(blocking(job), [ticks], job)

    def test_whom_a_ceiling_blocks(self) -> None:
        """m, of ceiling 9, blocks both of them; k, of ceiling 5, blocks the one of priority 5 and not that of 9, and not one of 6."""
        job = "lock k\nrun 10\nunlock k\nlock m\nrun 3\nunlock m"
        self.assertEqual(blocking(job, thread("middle", 5, "lock k\nunlock k", 60)), [4, 11])
        self.assertEqual(blocking(job, thread("middle", 6, "run 1", 60)), [4, 4])
        self.assertEqual(blocking("lock k\nlock m\nrun 3\nunlock m\nrun 10\nunlock k", thread("middle", 5, "lock k\nunlock k", 60)), [4, 16])

    def test_longest_above(self) -> None:
        self.assertEqual([longest_above([(3, 5), (4, 9), (2, 0), (6, 5)], priority) for priority in (1, 5, 6, 9, 10)], [7, 7, 4, 4, 0])

    def test_a_test_that_gives_a_mutex_back_may_not_come_true(self) -> None:
        """Then low owns m all the time. Where it comes true, the lock is a tick without m: 3 + 1 in front, 4 + 1 + 1 behind."""
        for inner, ticks in (("unlock m\nlock m", 8), ("run 2\nunlock m\nlock m", 8), ("run 9\nunlock m\nlock m", 13), ("unlock m\nlock m\nrun 9", 14),
                             ("unlock m\nlock m\nrun 20\nunlock m\nlock m", 21), ("if 0\nunlock m\nlock m\nend\nrun 2", 10), ("run 2", 10)):
            self.assertEqual(blocking(f"lock m\nrun 3\nif 0\n{inner}\nend\nrun 4\nunlock m"), [ticks], inner)

    def test_sections_that_do_not_end_in_their_block(self) -> None:
        for job in ("loop 2\nlock m\nend\nunlock m", "lock m\nif 0\nunlock m\nend"):
            self.assertIn("does not end in the block in which it begins", str(blocking(job)[0]), job)

    def test_locks_under_a_ceiling(self) -> None:
        """Of a mutex without a ceiling: one that others lock may be waited for, unless it is only tried."""
        for job, fine in (("lock m\nlock p\nunlock p\nunlock m", False), ("lock m\ntrylock p\nunlock p\nunlock m", True),
                          ("lock m\ntimedlock p 5\nunlock p\nunlock m", False), ("lock p\nlock m\nunlock m\nunlock p", True)):
            for others, owned_by_others in ((thread("other", 1, "lock p\nunlock p", 500), True), ("", False)):
                script, tasks = tasks_of((DECLARED + thread("low", 2, job, 500) + others).encode())
                self.assertEqual(2 in shared(script, tasks), owned_by_others)
                if fine or not owned_by_others:
                    self.assertTrue(stretches_of(script, "low", frozenset(shared(script, tasks))), job)
                else:
                    with self.assertRaisesRegex(NoTask, "may wait in", msg=job):
                        stretches_of(script, "low", frozenset(shared(script, tasks)))

    def test_what_is_owned_in_each_tick(self) -> None:
        script, _ = tasks_of((DECLARED + "thread low fifo 2 at 0\nrun 4\nlock m\nrun 3\nlock k\nunlock m\nrun 5\nunlock k\nend\n").encode())
        owned = [(stretch.ticks, sorted(stretch.owned)) for stretch in stretches_of(script, "low", frozenset())]
        self.assertEqual(owned, [(4, []), (1, []), (3, [0]), (1, [0]), (1, [0, 1]), (5, [1]), (1, [1])])
        self.assertEqual(stretches_of(script, "low", frozenset())[0], Stretch(4, frozenset()))


if __name__ == "__main__":
    unittest.main()
