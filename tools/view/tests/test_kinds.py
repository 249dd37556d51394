"""What a stretch is said to be: the kind of each wait, its words, and whole sentences, by hand."""
from __future__ import annotations

import unittest

from view.facts import ThreadFact
from view.kinds import COLOURS, WORDS, labels, sentence
from view.text import SIGNS
from view.timeline import Span, State
from view.told import wait_kind

WAITS = {"lock": "mutex", "timedlock": "mutex", "wait": "condition", "timedwait": "condition", "sem_wait": "semaphore", "sem_timedwait": "semaphore",
         "mq_send": "queue", "mq_timedsend": "queue", "mq_receive": "queue", "mq_timedreceive": "queue", "sigwaitinfo": "signal",
         "sigtimedwait": "signal", "nanosleep": "sleep", "clock_nanosleep": "sleep", "join": "join"}


class Waits(unittest.TestCase):
    def test_the_kind_of_each_call(self) -> None:
        """A condition that was signalled leaves its thread waiting for the mutex."""
        for call, kind in WAITS.items():
            self.assertEqual(wait_kind(ThreadFact("blocked", 5, 5, call, "x"), {"m"}), kind, call)
        for call in ("wait", "timedwait"):
            self.assertEqual(wait_kind(ThreadFact("blocked", 5, 5, call, "m"), {"m"}), "mutex", call)
        self.assertEqual(wait_kind(ThreadFact("blocked", 5, 5, "join", "m"), {"m"}), "join")

    def test_each_kind_has_its_word_its_colour_and_its_sign(self) -> None:
        kinds = set(WAITS.values())
        self.assertEqual({kind: WORDS[kind] for kind in kinds}, {
            "mutex": "mutex", "condition": "cond", "semaphore": "sem", "queue": "queue", "signal": "signal", "sleep": "sleep", "join": "join"})
        self.assertEqual((len({COLOURS[kind] for kind in kinds}), len({SIGNS[State.WAITING, kind][0] for kind in kinds})), (7, 7))
        for kind in kinds:
            self.assertRegex(COLOURS[kind], "^#[0-9a-f]{6}$")

    def test_what_may_be_written_into_a_wait(self) -> None:
        self.assertEqual(labels(Span(0, 1, State.WAITING, call="lock")), ["lock"])
        self.assertEqual(labels(Span(0, 1, State.WAITING, call="lock", kind="mutex", what="m")), ["mutex m", "m", "mutex"])
        self.assertEqual(labels(Span(0, 1, State.WAITING, call="nanosleep", kind="sleep")), ["sleep", "", "sleep"])


class Sentences(unittest.TestCase):
    def test_runs(self) -> None:
        for how, told in (({}, ""), ({"high": True}, ", the server's high priority"), ({"high": False}, ", low: no capacity to use"),
                          ({"frame": "h"}, ", in the signal handler h"), ({"frame": "u", "cleanup": True}, ", in the cleanup handler u")):
            self.assertEqual(sentence("a", Span(3, 8, State.RUNNING, 7, **how)), f"a runs at priority 7 for 5 ticks [3, 8){told}")

    def test_waits(self) -> None:
        for how, told in (
                ({}, "a waits for 5 ticks [3, 8)"),
                ({"call": "lock"}, "a waits in lock for 5 ticks [3, 8)"),
                ({"call": "lock", "kind": "mutex", "what": "m"}, "a waits in lock for the mutex m for 5 ticks [3, 8)"),
                ({"call": "join", "kind": "join", "what": "b"}, "a waits in join for the thread b for 5 ticks [3, 8)"),
                ({"call": "timedlock", "kind": "mutex", "what": "m", "until": 9}, "a waits in timedlock for the mutex m for 5 ticks [3, 8), at most until 9"),
                ({"call": "nanosleep", "kind": "sleep", "until": 9}, "a waits in nanosleep for 5 ticks [3, 8), until 9"),
                ({"call": "lock", "kind": "mutex", "what": "m", "frame": "u", "cleanup": True},
                 "a waits in lock for the mutex m for 5 ticks [3, 8), in the cleanup handler u")):
            self.assertEqual(sentence("a", Span(3, 8, State.WAITING, **how)), told)

    def test_others(self) -> None:
        self.assertEqual(sentence("a", Span(3, 8, State.READY)), "a is ready and does not run for 5 ticks [3, 8)")
        self.assertEqual(sentence("a", Span(3, 8, State.READY, 4, frame="h")), "a is ready at priority 4 and does not run for 5 ticks [3, 8), in the signal handler h")
        self.assertEqual(sentence("a", Span(3, 8, State.OFF)), "a does not run for 5 ticks [3, 8); the trace does not tell whether it waits")


if __name__ == "__main__":
    unittest.main()
