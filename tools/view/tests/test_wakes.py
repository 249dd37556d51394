"""Who wakes whom, in scripts whose ticks are counted by hand. In each a runs whenever it can, and b in between."""
from __future__ import annotations

import unittest

from view.lines import Return, read_trace
from view.seen import timeline_of
from view.timeline import Timeline

from .details import detail_of

# main creates w in the tick up to 1, posts in that up to 3, joins low in that up to 5, and cancels w in that up to 8; the one tick of
# low is over at 6, and its end at 7. w waits from 2 and from 4 on.
CALLS = b"""\
sem s 0
thread main fifo 5 at 0
create w
sem_post s
join low
cancel w
run 1
end
thread w fifo 9 dormant
sem_wait s
sem_wait s
end
thread low fifo 2 at 0
run 1
end
"""
# The condition of a times out at 5 while b owns m, which it unlocks at 9. The second one times out at 14, where m is free; the sleeps
# of a end at 17 and 20, and its semaphore times out at 23. At each of these a call of b returns, which has nothing to do with it.
TIMES = b"""\
mutex m none
cond c
sem s 0
thread a fifo 9 at 0
lock m
timedwait c m 5
timedwait c m 14
nanosleep 2
clock_nanosleep 20
sem_timedwait s 23
end
thread b fifo 5 at 3
lock m
run 4
unlock m
""" + 20 * b"gettime\n" + b"end\n"
# b sends rt1 to a at 4 and rt4 at 20, into its sleep. The timers expire at 8, for which a waits, and at 16, in its other sleep; at 11 a
# has waited long enough for rt1. A call of b returns then, too.
SIGNALS = b"""\
timer k rt2 0
timer q rt3 0
action rt3 run h
action rt4 run h
handler h
run 1
end
thread a fifo 9 at 0
sigmask block rt1,rt2
sigwaitinfo rt1
timer_settime k rel 3 0
sigwaitinfo rt2
sigtimedwait rt1 2
timer_settime q rel 4 0
nanosleep 9
nanosleep 9
end
thread b fifo 5 at 0
run 1
tkill a rt1
""" + 7 * b"gettime\n" + b"tkill a rt4\nrun 3\nend\n"


def told(script: bytes) -> Timeline:
    return timeline_of(read_trace(detail_of(script, 30).splitlines(keepends=True)))


class Wakes(unittest.TestCase):
    def wakes(self, seen: Timeline) -> list[tuple[int, str, str, str]]:
        return [(wake.time, wake.waker, wake.woken, wake.by) for wake in seen.wakes]

    def returns(self, seen: Timeline, name: str) -> list[tuple[int, str]]:
        return [(event.time, event.result) for event in seen.trace.events if isinstance(event, Return) and event.name == name]

    def test_calls_and_ends_wake(self) -> None:
        self.assertEqual(self.wakes(told(CALLS)), [
            (1, "main", "w", "create"), (3, "main", "w", "sem_post"), (7, "low", "main", "exit"), (8, "main", "w", "cancel")])

    def test_time_has_no_waker(self) -> None:
        seen = told(TIMES)
        self.assertEqual(self.wakes(seen), [(9, "b", "a", "unlock")])
        self.assertEqual(self.returns(seen, "a"), [(1, "0"), (9, "ETIMEDOUT"), (14, "ETIMEDOUT"), (17, "0"), (20, "0"), (23, "ETIMEDOUT")])
        self.assertLessEqual({(time, "0") for time in (9, 14, 17, 20, 23)}, set(self.returns(seen, "b")))

    def test_signals_of_threads_wake_and_those_of_timers_do_not(self) -> None:
        seen = told(SIGNALS)
        self.assertEqual(self.wakes(seen), [(4, "b", "a", "tkill"), (20, "b", "a", "tkill")])
        waits = {(4, "0"), (8, "0"), (11, "EAGAIN"), (16, "EINTR"), (20, "EINTR")}
        self.assertLessEqual(waits, set(self.returns(seen, "a")))
        self.assertLessEqual({time for time, _ in waits}, {time for time, _ in self.returns(seen, "b")})

    def test_an_arrow_goes_from_a_thread_that_ran_up_to_it(self) -> None:
        """Where the processor is idle nobody wakes, and the thread that ran before it does not either."""
        lines = b"0 start a\n0 start b\n0 dispatch a 9\n2 dispatch b 5\n3 idle\n5 return a sem_wait 0 0\n5 return b join 0 0\n5 dispatch a 9\n6 end\n"
        self.assertEqual(timeline_of(read_trace(lines.splitlines(keepends=True))).wakes, [])


if __name__ == "__main__":
    unittest.main()
