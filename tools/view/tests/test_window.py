"""Parts of a run, with what stands in them worked out by hand."""
from __future__ import annotations

import re
import unittest
from dataclasses import astuple

from view.lines import read_trace
from view.main import drawer
from view.seen import timeline_of
from view.timeline import MarkKind, Timeline
from view.window import NoWindow, window

from .details import detail_of

# s has a budget of 3 and a period of 20, and runs for 30 ticks but for two in which u has the processor; v has the rest.
SERVER = """\
0 start s
0 start v
0 activate s 3
0 dispatch s 8
3 exhaust s
3 plan s 3 20
10 start u
10 dispatch u 9
12 exit u
12 dispatch s 2
20 refill s 3 3
20 activate s 3
20 dispatch s 8
23 exhaust s
23 plan s 3 40
33 exit s
33 dispatch v 1
35 exit v
35 idle
40 end
thread s ticks 31
thread v ticks 2
thread u ticks 2
"""


# b owns m from 1 to 9, and a, which waits for it from 5 on, from 9 to 12; the unlock of b wakes it.
MUTEX = b"mutex m none\nthread a fifo 9 at 4\nlock m\nrun 2\nunlock m\nend\nthread b fifo 5 at 0\nlock m\nrun 6\nunlock m\nrun 5\nend\n"

KILLED = b"0 start a\n0 dispatch a 5\n5 return a kill 0 0\n5 killed rt1\n5 end\nthread a ticks 5\n"


# s plans 2 ticks for 20 and 1 for 25, and ends before either is due.
TWO_PLANS = """\
0 start s
0 activate s 3
0 dispatch s 9
2 plan s 2 20
2 idle
5 return s nanosleep 0 0
5 activate s 1
5 dispatch s 9
6 exhaust s
6 plan s 1 25
7 exit s
7 idle
50 end
thread s ticks 4
"""


def server() -> Timeline:
    return timeline_of(read_trace(SERVER.encode().splitlines(keepends=True)))


class Window(unittest.TestCase):
    def part(self, start: int | None, end: int | None) -> Timeline:
        return window(server(), start, end, None)

    def test_the_capacity_at_both_edges(self) -> None:
        """It falls from 3 to 0 up to 3, stays there up to 20, and falls again."""
        self.assertEqual([astuple(piece) for piece in self.part(1, 22).threads[0].capacity], [(1, 3, 2, True), (3, 20, 0, False), (20, 22, 3, True)])
        self.assertEqual([piece.last for piece in self.part(1, 22).threads[0].capacity], [0, 0, 1])
        self.assertEqual([astuple(piece) for piece in self.part(3, 20).threads[0].capacity], [(3, 20, 0, False)])
        self.assertEqual([astuple(piece) for piece in self.part(2, 3).threads[0].capacity], [(2, 3, 1, True)])

    def test_runs_and_idle_stretches(self) -> None:
        part = self.part(5, 37)
        self.assertEqual([thread.runs for thread in part.threads], [[(5, 10), (12, 33)], [(33, 35)], [(10, 12)]])
        self.assertEqual(part.idle, [(35, 37)])
        self.assertEqual([thread.ticks for thread in part.threads], [26, 2, 2])
        self.assertEqual((self.part(10, 12).threads[0].runs, self.part(12, 33).threads[1].runs, self.part(12, 33).threads[2].runs), ([], [], []))
        self.assertEqual((self.part(0, 35).idle, self.part(36, 37).idle), ([], [(36, 37)]))

    def test_plans_that_reach_into_it(self) -> None:
        """One was made at 3 and carried out at 20, and one at 23 is never."""
        for start, end, wanted in ((0, 2, []), (0, 3, [3]), (5, 8, [3]), (20, 22, [3]), (21, 22, []), (21, 23, [23]), (30, 40, [23]), (20, 23, [3, 23])):
            self.assertEqual([plan.time for plan in self.part(start, end).threads[0].plans], wanted, (start, end))

    def test_plans_from_before_it_are_drawn_from_its_edge(self) -> None:
        """Each has its own arrow and amount while it may still be due there, and none behind that; the edge is where the axis begins."""
        whole = timeline_of(read_trace(TWO_PLANS.encode().splitlines(keepends=True)))
        for start, dues in ((10, [20, 25]), (20, [25]), (22, [25]), (26, [])):
            picture = drawer("svg")(window(whole, start, 50, None))
            arrows = re.findall(r'd="M([\d.]+),[^>]*class="arrow"><title>[^<]* due at (\d+);', picture)
            self.assertEqual([int(due) for _, due in arrows], dues, start)
            edge = re.search(r'<line x1="([\d.]+)" y1="66" x2="[\d.]+" y2="66"', picture)[1]
            self.assertEqual({x for x, _ in arrows}, {edge} if dues else set(), start)
        for start, amounts in ((10, ["+2", "+1"]), (20, ["+2", "+1"]), (22, ["+1"]), (26, [])):
            self.assertEqual(re.findall(r">(\+\d)</text>", drawer("svg")(window(whole, start, 50, None))), amounts, start)

    def test_marks_and_ends_at_the_edges(self) -> None:
        def marks(start: int, end: int, kind: MarkKind) -> list[int]:
            return [mark.time for mark in self.part(start, end).threads[0].marks if mark.kind is kind]
        self.assertEqual((marks(3, 23, MarkKind.EXHAUST), marks(4, 22, MarkKind.EXHAUST), marks(3, 20, MarkKind.REFILL)), ([3, 23], [], [20]))
        for start, end, ended, over in ((0, 32, None, False), (0, 33, 33, False), (33, 40, 33, False), (34, 40, None, True)):
            thread = self.part(start, end).threads[0]
            self.assertEqual((thread.ended, thread.over), (ended, over), (start, end))

    def test_owners_and_wakes(self) -> None:
        whole = timeline_of(read_trace(detail_of(MUTEX, 25).splitlines(keepends=True)))
        self.assertEqual([mutex.bars for mutex in whole.mutexes], [[(1, 5, "b", 0), (5, 9, "b", 1), (9, 12, "a", 0)]])
        for start, end, bars in ((6, 9, [(6, 9, "b", 1)]), (9, 20, [(9, 12, "a", 0)]), (7, 10, [(7, 9, "b", 1), (9, 10, "a", 0)]), (12, 20, []), (0, 1, []),
                                 (3, 8, [(3, 5, "b", 0), (5, 8, "b", 1)])):
            self.assertEqual([mutex.bars for mutex in window(whole, start, end, None).mutexes], [bars], (start, end))
        for start, names, owners in ((6, ["a"], ["b", "a"]), (9, ["b"], None), (9, ["a"], ["a"]), (9, ["b", "a"], ["a"])):
            found = [[owner for _, _, owner, _ in mutex.bars] for mutex in window(whole, start, 25, names).mutexes]
            self.assertEqual(found, [] if owners is None else [owners], (start, names))
        for start, end, names, wakes in ((0, 9, None, [9]), (0, 8, None, []), (9, 12, None, [9]), (10, 12, None, []), (0, 25, ["a"], []), (0, 25, ["b"], [])):
            self.assertEqual([wake.time for wake in window(whole, start, end, names).wakes], wakes, (start, end, names))

    def test_colours_are_those_of_the_whole_run(self) -> None:
        self.assertEqual((self.part(4, 8).scale, self.part(33, 35).scale), ([9, 8, 2, 1], [9, 8, 2, 1]))
        self.assertEqual(window(self.part(4, 20), 5, 6, None).scale, [9, 8, 2, 1])

    def test_what_killed_it(self) -> None:
        whole = timeline_of(read_trace(KILLED.splitlines(keepends=True)))
        self.assertEqual([window(whole, 0, end, None).killed is not None for end in (4, 5, 6)], [False, True, True])

    def test_no_stretch_is_empty(self) -> None:
        for start, end in ((10, 12), (12, 20), (20, 23), (33, 35), (3, 10)):
            self.assertEqual([span for thread in self.part(start, end).threads for span in thread.spans if span.start >= span.end], [], (start, end))

    def test_where_nothing_stands(self) -> None:
        for start, end in ((40, None), (41, None), (7, 7), (8, 7)):
            with self.assertRaises(NoWindow, msg=(start, end)):
                self.part(start, end)
        empty = timeline_of(read_trace([b"0 end\n"]))
        self.assertEqual([(part.start, part.end) for part in (window(empty, None, None, None), window(empty, 0, 5, None))], [(0, 0), (0, 0)])
        self.assertEqual((self.part(39, 99).start, self.part(39, 99).end), (39, 40))


if __name__ == "__main__":
    unittest.main()
