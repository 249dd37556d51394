"""The measures against worked traces, with figures read off them by hand."""
from __future__ import annotations

import unittest
from pathlib import Path

from measure.jobs import NamesNothing
from measure.measures import WrongMeasure, jobs_of, lost_signal, measure_of, measure_of_words, measures_in, never_done, without_places
from measure.seen import Seen
from view.lines import Trace, read_trace
from view.tests.details import detail_of, trace_of
from view.seen import timeline_of
from view.timeline import State

TOP = Path(__file__).resolve().parents[3]
WORKED = TOP / "tests" / "worked"
CONTROLLER, TWO_BUDGETS, CHAIN = (
    "controller_with_server_and_monitor", "six_high_ticks_in_one_period", "timeout_within_an_inheritance_chain")


# A server that gets new parameters under its wait for a refill and ends in the next one, and one whose refill comes. Their script:
#     thread s sporadic 8 2 20 3 4 at 0: run 4, setsched s sporadic 8 2 20 2 4, run 3
#     thread w sporadic 7 2 6 3 4 at 9: run 50
CHANGED = b"""\
0 start s
0 activate s 3
0 dispatch s 8
3 exhaust s
3 plan s 3 20
5 return s setsched 0 0
5 activate s 2
7 exhaust s
7 plan s 2 25
9 exit s
9 start w
9 activate w 3
9 dispatch w 7
12 exhaust w
12 plan w 3 15
15 refill w 3 3
15 activate w 3
18 exhaust w
18 plan w 3 21
20 end
thread s ticks 9
thread w ticks 11 high 6 init 3 refilled 3 capacity 0
"""

OVERLOAD = b"""\
thread hog fifo 50 at 0
    set 0
    forever
        run 10
        add 20
        clock_nanosleep reg
    end
end
thread lo fifo 10 at 0
    set 0
    forever
        run 10
        gettime
        add 20
        clock_nanosleep reg
    end
end
"""


def read(file: Path) -> Trace:
    return read_trace(file.read_bytes().splitlines(keepends=True))


def seen(name: str) -> Seen:
    return Seen(read(WORKED / f"{name}.trace"))


class Measures(unittest.TestCase):
    def check(self, trace: str, wanted: dict[str, str], **table: object) -> None:
        self.check_in(seen(trace), wanted, **table)

    def check_in(self, trace: Seen, wanted: dict[str, str], **table: object) -> None:
        measure = measure_of({"name": "m", **table})
        figures = dict(zip(measure.columns, measure.figures(trace), strict=True))
        self.assertEqual({column: figures.get(column) for column in wanted}, wanted)

    def test_from_an_event(self) -> None:
        # The request of 33 is answered as the server unlocks at 40.
        self.check(CONTROLLER, {"m_jobs": "1", "m_greatest": "7", "m_mean": "7.000", "m_late": "1", "m_open": "0"},
                   kind="response", **{"from": "return ctl mq_send", "to": "return srv unlock"}, deadline=6)
        self.check(CONTROLLER, {"m_jobs": "1", "m_greatest": "7", "m_mean": "7.000", "m_late": "0", "m_open": "0"},
                   kind="response", **{"from": "return ctl mq_send", "to": "return srv unlock"}, deadline=7)

    def test_from_any_thread(self) -> None:
        # Calls of mutexes: locks return at 21, 29, 36 and 44, unlocks at 29, 32 and 40. The lock of 21 waits until 29, 8 ticks;
        # that of 29 for 3 and that of 36 for 4; the one of 44 is open.
        self.check(CONTROLLER, {"m_jobs": "4", "m_least": "3", "m_greatest": "8", "m_mean": "5.000", "m_jitter": "5", "m_open": "1"},
                   kind="response", **{"from": "return * lock 0", "to": "return * unlock 0"})

    def test_from_a_start(self) -> None:
        # mon starts at 3, and its first lock returns at 21. The second has no start before it.
        self.check(CONTROLLER, {"m_jobs": "1", "m_greatest": "18", "m_mean": "18.000", "m_open": "0"},
                   kind="response", thread="mon", **{"from": "start", "to": "return mon lock"})

    def test_from_a_wake(self) -> None:
        # ctl wakes at 24 from its wait for the signal, and at 29 with the mutex; its unlock returns at 32.
        self.check(CONTROLLER, {"m_jobs": "1", "m_greatest": "8", "m_mean": "8.000", "m_open": "0"},
                   kind="response", thread="ctl", **{"from": "wake", "to": "return ctl unlock"})

    def test_what_is_not_answered(self) -> None:
        # mon sleeps until 20 and 42 and unlocks at 29 alone: 9 ticks, and one that is 2 ticks old at the end.
        for deadline, late in ((8, "1"), (9, "0"), (1, "2"), (2, "1")):
            self.check(CONTROLLER, {"m_jobs": "2", "m_greatest": "9", "m_mean": "9.000", "m_late": late, "m_open": "1"},
                       kind="response", **{"from": "return mon clock_nanosleep", "to": "return mon unlock"}, deadline=deadline)

    def test_columns(self) -> None:
        periodic = {"name": "m", "kind": "periodic", "thread": "t", "period": 5}
        self.assertEqual(measure_of(periodic).columns, ("m_jobs", "m_least", "m_mean", "m_greatest", "m_jitter", "m_late", "m_open"))
        self.assertEqual(measure_of({**periodic, "percentiles": [50, 99]}).columns[3:6], ("m_p50", "m_p99", "m_greatest"))
        response = {"name": "m", "kind": "response", "from": "start t", "to": "exit t"}
        self.assertEqual(measure_of(response).columns, ("m_jobs", "m_least", "m_mean", "m_greatest", "m_jitter", "m_open"))
        self.assertEqual([measure_of(table).needs_detail for table in (periodic, {**periodic, "to": "return t yield"}, response)],
                         [True, False, False])
        of_a_thread = ("ticks", "utilisation", "high_share", "capacity", "exhausted", "refill_wait", "lock", "blocked", "preempted")
        self.assertEqual([kind for kind in of_a_thread if measure_of({"name": "m", "kind": kind, "thread": "t"}).needs_detail],
                         ["refill_wait", "blocked", "preempted"])

    def test_nothing_to_measure(self) -> None:
        for table in ({"kind": "ticks", "thread": "nobody"}, {"kind": "high_share", "thread": "mon"}, {"kind": "exhausted", "thread": "mon"},
                      {"kind": "response", "from": "return nobody join", "to": "return ctl yield"},
                      {"kind": "response", "from": "return ctl join", "to": "return nobody yield"},
                      {"kind": "periodic", "thread": "nobody", "period": 4}, {"kind": "lock", "thread": "nobody"}):
            with self.assertRaises(NamesNothing, msg=table):
                measure_of({"name": "m", **table}).figures(seen(CONTROLLER))
        self.check(CONTROLLER, {"m_jobs": "0", "m_greatest": "", "m_mean": "", "m_open": "0"},
                   kind="response", **{"from": "return ctl join", "to": "return ctl yield"})

    def test_what_never_comes_is_told(self) -> None:
        measure = measure_of({"name": "m", "kind": "response", "from": "start ctl", "to": "exit ctl"})
        row = dict(zip(measure.columns, measure.figures(seen(CONTROLLER))))
        self.assertTrue(never_done(measure, [row, row]))
        self.assertFalse(never_done(measure, [row, {**row, "m_jobs": "2"}]))

    def test_a_periodic_thread_counts_from_its_releases(self) -> None:
        # hog takes 12 of 20 ticks; lo has a jump, a run of 10, its gettime and its sleep, and is released each 20. It never waits,
        # so there is no wake at all. The figures were counted by hand from the trace, release by release.
        overload = Seen(read_trace(trace_of(OVERLOAD, 400).splitlines(keepends=True)))
        words = {"kind": "periodic", "thread": "lo", "period": 20, "to": "return lo gettime"}
        self.check_in(overload, {"m_jobs": "20", "m_least": "34", "m_greatest": "173", "m_jitter": "139", "m_late": "19", "m_open": "8"}, **words)
        responses = [job.response for job in jobs_of(overload, words).jobs if job.done is not None]
        self.assertEqual(responses, [34, 39, 56, 73, 78, 95, 100, 117, 134, 139, 156, 173])
        self.check_in(overload, {"m_p50": "95", "m_p100": "173", "m_p1": "34"}, **words, percentiles=[1, 50, 100])
        self.check_in(overload, {"m_late": "12", "m_jobs": "12", "m_open": "0"}, **words, jobs=12)
        self.check_in(overload, {"m_jobs": "0"}, kind="response", thread="lo", **{"from": "wake", "to": "return lo gettime"})
        for wrong in ({"period": 60}, {"period": 20, "jobs": 11}):
            with self.assertRaises(NamesNothing):
                measure_of({"name": "m", **words, **wrong}).figures(overload)

    def test_warnings(self) -> None:
        self.assertIn("leaves out", measure_of(
            {"name": "m", "kind": "response", "thread": "t", "from": "wake", "to": "exit t"}).warning)
        self.assertIsNone(measure_of({"name": "m", "kind": "periodic", "thread": "t", "period": 5}).warning)

    def test_values_stand_in_places(self) -> None:
        measure = measure_of({"name": "m", "kind": "response", "from": "return ctl mq_send", "to": "return srv unlock", "deadline": "{d}"})
        self.assertEqual([measure.figures(seen(CONTROLLER), {"d": d})[5] for d in (6, 7)], ["1", "0"])

    def test_threads_and_servers(self) -> None:
        for thread, ticks in (("ctl", "12"), ("srv", "7"), ("mon", "12")):
            self.check(CONTROLLER, {"m": ticks}, kind="ticks", thread=thread)
        self.check(CONTROLLER, {"m": "1.000"}, kind="high_share", thread="srv")
        self.check(TWO_BUDGETS, {"m": "0.750"}, kind="high_share", thread="s")
        self.check(CONTROLLER, {"m": "2"}, kind="exhausted", thread="srv")
        # From 40 to the refill at 42, and from 43 to the end at 44.
        self.check(CONTROLLER, {"m_total": "3", "m_longest": "2"}, kind="refill_wait", thread="srv")
        # At 12 the refill comes at once; from 15 to the end at 17.
        self.check(TWO_BUDGETS, {"m_total": "2", "m_longest": "2"}, kind="refill_wait", thread="s")

    def test_a_server_that_changes(self) -> None:
        trace = Seen(read_trace(CHANGED.splitlines(keepends=True)))
        # s waits from 3 to 5 and from 7 to 9; of its 9 ticks those from 0 to 3 and from 5 to 7 are at high priority.
        self.check_in(trace, {"m_total": "4", "m_longest": "2"}, kind="refill_wait", thread="s")
        self.check_in(trace, {"m": "0.556"}, kind="high_share", thread="s")
        # w waits from 12 to 15 and from 18 to the end; of its 11 ticks those from 9 to 12 and from 15 to 18 are at high priority.
        self.check_in(trace, {"m_total": "5", "m_longest": "3"}, kind="refill_wait", thread="w")
        self.check_in(trace, {"m": "0.545"}, kind="high_share", thread="w")
        self.check_in(trace, {"m": "2"}, kind="exhausted", thread="w")

    def test_signals_and_timers(self) -> None:
        # The timer expires at 23, while the worker stands ready; its handler has counted that at 30.
        watchdog = Seen(read(TOP / "examples" / "23_watchdog.trace"))
        self.check_in(watchdog, {"m_jobs": "1", "m_greatest": "7", "m_mean": "7.000", "m_late": "1", "m_open": "0"},
                      kind="response", **{"from": "deliver worker rt7 TIMER", "to": "return worker sem_post"}, deadline=6)
        # ctl takes its beat at 24 and sends its command at 33.
        self.check(CONTROLLER, {"m_jobs": "1", "m_greatest": "9", "m_mean": "9.000", "m_open": "0"},
                   kind="response", **{"from": "deliver ctl rt5", "to": "return ctl mq_send"})

    def test_waits_are_those_of_the_viewer(self) -> None:
        """In all worked traces and examples: which returns end a wait, and when that began."""
        count = 0
        for file in sorted([*WORKED.glob("*.trace"), *(TOP / "examples").glob("*.trace")]):
            trace = read(file)
            drawn = {(thread.name, span.call, span.start, span.end) for thread in timeline_of(trace).threads for span in thread.spans
                     if span.state is State.WAITING and span.call not in ("", "cancelled")}
            found = {(call.event.name, call.event.call, call.waited_since, call.event.time) for call in Seen(trace).returned
                     if call.waited_since is not None}
            self.assertEqual(found, drawn, file.name)
            count += len(found)
        self.assertGreater(count, 200)

    def test_locks(self) -> None:
        # ctl calls lock in the tick from 24 on and has the mutex at 29. The locks of the others take their tick.
        self.check(CONTROLLER, {"m": "5"}, kind="lock")
        self.check(CONTROLLER, {"m": "5"}, kind="lock", thread="ctl")
        self.check(CONTROLLER, {"m": "1"}, kind="lock", thread="mon")
        # b calls timedlock from 2 on and gives up at 20; c calls lock from 4 on and has it at 21; d from 5 on, at 22.
        for thread, wanted in (("a", "1"), ("b", "18"), ("c", "17"), ("d", "17")):
            self.check(CHAIN, {"m": wanted}, kind="lock", thread=thread)
        self.check(CHAIN, {"m": "18"}, kind="lock")
        self.check(TWO_BUDGETS, {"m": ""}, kind="lock")

    def test_events_are_found_by_their_first_words(self) -> None:
        controller = seen(CONTROLLER)
        self.assertEqual([time for _, time in controller.lines(["return", "srv"])], [33, 36, 40])
        self.assertEqual([time for _, time in controller.lines(["exhaust", "*"])], [40, 43])
        self.assertEqual(controller.lines(["return", "s"]), [])
        # A word alone begins the lines of all threads, and those that have no thread.
        self.assertEqual([time for _, time in controller.lines(["exhaust"])], [40, 43])
        self.assertEqual([time for _, time in controller.lines(["idle"])], [7])
        self.assertEqual([time for _, time in controller.lines(["end"])], [44])

    def test_a_signal_of_a_timer_that_is_lost(self) -> None:
        """The job of 40 ends at 69. The signal of 50 is pending then, that of 60 is lost, and of the next, of 70, the tool takes it for that of 60."""
        job = "sigwaitinfo rt1\nrun 2\n"
        script = ("timer beat rt1 0\nthread c fifo 8 at 0\nsigmask block rt1\ntimer_settime beat abs 10 10\n"
                  f"loop 3\n{job}end\nsigwaitinfo rt1\nrun 28\nforever\n{job}end\nend\n").encode()
        for horizon, phase, lost in ((120, 10, 69), (69, 10, 69), (68, 10, None), (40, 0, None)):
            words = measure_of({"name": "m", "kind": "periodic", "thread": "c", "period": 10, "phase": phase, "to": "call sigwaitinfo"}).words
            self.assertEqual(lost_signal(Seen(read_trace(detail_of(script, horizon).splitlines(keepends=True))), words), lost, horizon)

    def test_words_that_say_no_measure(self) -> None:
        table = {"name": "a", "kind": "periodic", "thread": "t", "period": "{p}"}
        self.assertEqual(measure_of(table).words["period"], "{p}")
        for said in (lambda: without_places(measure_of(table)), lambda: measure_of_words("thread=t period={p}"),
                     lambda: measure_of_words('thread=t period=5 to="return t')):
            with self.assertRaises(WrongMeasure):
                said()

    def test_words_without_a_beginning(self) -> None:
        for said in ("thread=low", 'to="return t gettime"', ""):
            with self.assertRaisesRegex(WrongMeasure, "needs period= of a periodic thread, or from=", msg=said):
                measure_of_words(said)

    def test_a_word_that_is_said_twice(self) -> None:
        with self.assertRaisesRegex(WrongMeasure, "--jobs has 'thread=' twice"):
            measure_of_words("thread=t thread=u period=5")

    def test_a_call_ends_a_job_of_a_periodic_thread_alone(self) -> None:
        with self.assertRaisesRegex(WrongMeasure, "'call sem_wait' may end a job of a periodic thread alone, which has period="):
            measure_of_words('thread=a from="return b sem_post" to="call sem_wait"')

    def test_tables_that_say_no_measure(self) -> None:
        for table in ({}, {"name": "a b"}, {"name": "a"}, {"name": "a", "kind": "speed"}, {"name": "a", "kind": "ticks"},
                      {"name": "a", "kind": "ticks", "thread": 5}, {"name": "a", "kind": "ticks", "thread": "t", "deadline": 1},
                      {"name": "a", "kind": "response", "from": "wake", "to": "return t lock"},
                      {"name": "a", "kind": "response", "from": "start t", "to": "exit t", "deadline": -1},
                      {"name": "a", "kind": "response", "from": "start t", "to": "returns t lock"},
                      {"name": "a", "kind": "response", "from": "start t", "to": "return t lok"},
                      {"name": "a", "kind": "response", "from": "deliver t rt32", "to": "exit t"},
                      {"name": "a", "kind": "periodic", "thread": "t"}, {"name": "a", "kind": "periodic", "thread": "t", "period": 0},
                      {"name": "a", "kind": "periodic", "thread": "t", "period": 5, "to": "call gettim"},
                      {"name": "a", "kind": "periodic", "thread": "t", "period": 5, "percentiles": [0]},
                      {"name": "a", "kind": "periodic", "thread": "t", "period": 5, "percentiles": [True]},
                      {"name": "a", "kind": ["ticks"], "thread": "t"}):
            with self.assertRaises(WrongMeasure, msg=table):
                measure_of(table)
        for tables in (5, "ticks", {"name": "a", "kind": "ticks", "thread": "t"}, ["ticks"]):
            with self.assertRaisesRegex(WrongMeasure, "stands in tables", msg=tables):
                measures_in(tables)

    def test_words_of_another_kind(self) -> None:
        for said in ("thread=t kind=ticks", "kind=lock", "thread=t kind=7"):
            with self.assertRaisesRegex(WrongMeasure, "--jobs is of kind periodic or response", msg=said):
                measure_of_words(said)


if __name__ == "__main__":
    unittest.main()
