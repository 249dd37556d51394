"""The time line for a terminal, drawn by hand: which sign stands in which column, and what the last lines say of it."""
from __future__ import annotations

import unittest

from view.lines import Trace
from view.text import Columns, draw, letters_of, mark_rows, owners_told, ruler, state_row
from view.timeline import Mark, MarkKind, Owned, Span, State, ThreadLine, Timeline

from .worked import timeline_of_text

RUN, READY, WAIT, OFF = State.RUNNING, State.READY, State.WAITING, State.OFF
KINDS = ("", "sleep", "mutex", "condition", "semaphore", "queue", "signal", "join")

# It sleeps up to 1000, where 3 ticks at each side of the cut are left, as many as the middle one of all gaps has: 3, 997, 3 and 7.
CUT = """\
0 start a
0 dispatch a 5
3 idle
1000 return a nanosleep 0 0
1000 dispatch a 5
1003 exit a
1003 idle
1010 end
thread a ticks 6
"""
CUT_TEXT = """\
ticks 0 to 1010, a column is one tick; idle for 1004
tick 0    5  997
     |....|//|..|..........
a    AAA...//...AAA
     >             x
idle    iii//iii   iiiiiii

priority: A 5
. waiting, i the processor is idle
marks: > start, x exit
// the axis is cut: nothing happens from 6 to 997, 991 ticks
"""


def seen(spans: list[Span], end: int, marks: list[Mark] = [], **more) -> Timeline:
    return Timeline([ThreadLine("a", spans, marks=marks)], end, more.pop("idle", []), None, True, Trace([], []), **more)


def rows(timeline: Timeline, width: int | None = None) -> list[str]:
    """Without the heading and the ruler."""
    return draw(timeline, width).splitlines()[3:]


def legend(timeline: Timeline, width: int) -> list[str]:
    """What stands behind the rows and an empty line."""
    lines = draw(timeline, width).splitlines()
    return lines[lines.index("") + 1:]


class Signs(unittest.TestCase):
    def test_each_state_has_its_sign(self) -> None:
        spans = [Span(0, 1, RUN, 7), Span(1, 2, READY), *(Span(at, at + 1, WAIT, kind=kind) for at, kind in enumerate(KINDS, 2)), Span(10, 11, OFF)]
        self.assertEqual(rows(seen(spans, 11), 200), [
            "a    A-..#~%=!:?", "", "priority: A 7",
            "- ready, . waiting, . sleeping, # waiting for a mutex, ~ for a condition, % for a semaphore, = for a queue, ! for a signal, "
            ": for a thread to end, ? not running and no more is told"])

    def test_only_what_is_there_is_said(self) -> None:
        self.assertEqual(rows(seen([], 3)), ["a", "", "no thread ran"])
        self.assertEqual(rows(seen([Span(0, 2, RUN, 7)], 3, idle=[(2, 3)])), ["a    AA", "idle   i", "", "priority: A 7", "i the processor is idle"])

    def test_letters_of_many_priorities(self) -> None:
        """A to Z; from the 26th on there is Z alone."""
        for count, letter, told in ((25, "Y", "Y 1"), (26, "Z", "Z 1 and below"), (30, "Z", "Z 5 and below")):
            timeline = seen([Span(at, at + 1, RUN, at + 1) for at in range(count)], count)
            self.assertEqual((letters_of(timeline.priorities)[1], letters_of(timeline.priorities)[count]), (letter, "A"))
            self.assertTrue(rows(timeline, 300)[-1].endswith(told), count)
            self.assertEqual(rows(timeline, 300)[-1].count(", "), min(count, 26) - 1)
            self.assertTrue(rows(timeline, 300)[-1].startswith(f"priority: A {count}, B {count - 1}, "), count)

    def test_handlers_have_a_row(self) -> None:
        spans = [Span(0, 2, RUN, 7), Span(2, 5, RUN, 7, frame="h"), Span(5, 6, READY, frame="u", cleanup=True)]
        self.assertEqual(rows(seen(spans, 6)), ["a    AAAAA-", "       ***_", "", "priority: A 7", "- ready, * in a signal handler, _ in a cleanup handler"])

    def test_marks_of_one_column(self) -> None:
        """Each kind once, in the order in which they happen; of more than four the last row says that there are more. A return of 0 has none."""
        kinds = [MarkKind.START, MarkKind.DELIVER, MarkKind.RETURN, MarkKind.DELIVER, MarkKind.ERROR, MarkKind.CANCEL, MarkKind.EXIT]
        for count, column in ((0, []), (1, [">"]), (4, [">", "s"]), (6, [">", "s", "e", "c"]), (7, [">", "s", "e", "&"])):
            marks = [Mark(3, kind, "", 0) for kind in kinds[:count]]
            timeline = seen([], 9, marks)
            self.assertEqual(mark_rows(timeline.threads[0], Columns(timeline, 40)), ["   " + sign for sign in column])
        several = seen([], 9, [Mark(1, MarkKind.EXIT, "", 0), *(Mark(3, kind, "", 0) for kind in kinds[:4])])
        self.assertEqual(mark_rows(several.threads[0], Columns(several, 40)), [" x >", "   s"])

    def test_what_each_mark_is(self) -> None:
        told = "marks: > start, x exit, c cancel, s deliver, e an error is returned, k the clock is set, ^ activate, ! exhaust, p plan, + refill, " \
               "r release of a job, L a deadline is missed"
        self.assertEqual(rows(seen([], 20, [Mark(at, kind, "", 0) for at, kind in enumerate(reversed(MarkKind))]), 200)[-1], told)

    def test_owners(self) -> None:
        threads = [ThreadLine("a"), ThreadLine("b")]
        mutexes = [Owned("m", [(1, 3, "b", 0), (3, 4, "b", 2), (6, 7, "a", 1)]), Owned("nn", [(0, 1, "c", 0)])]
        timeline = Timeline(threads, 8, [], None, True, Trace([], []), mutexes=mutexes)
        self.assertEqual(rows(timeline), ["a", "b", "m     222  1", "nn   +", "", "no thread ran", "owners: 1 a, 2 b, + a thread that is not shown"])
        timeline.mutexes = mutexes[:1]
        self.assertEqual(owners_told(timeline), ["1 a", "2 b"])


    def test_of_more_threads_than_signs_those_have_one_that_own_a_mutex(self) -> None:
        """There are 9 digits, 26 small letters and 26 large ones."""
        for count, last in ((61, "Z"), (62, "1")):
            threads = [ThreadLine(f"t{number}") for number in range(count)]
            timeline = Timeline(threads, 8, [], None, True, Trace([], []), mutexes=[Owned("m", [(1, 3, f"t{count - 1}", 0)])])
            self.assertEqual([line for line in draw(timeline, 1000).splitlines() if line.startswith("m ")], [f"m     {last}{last}"])

    def test_lists_at_each_of_their_changes(self) -> None:
        """In the part of the run that is shown: a change at its end is none of it. A list without a thread is not told."""
        facts = ["2 list 9 a", "2 list 5 c d", "4 list 9", "4 list 5 d c", "6 list 5", "8 list 9 a"]
        timeline = timeline_of_text("0 idle\n" + "".join(f"{fact}\n" for fact in facts) + "9 end\n")
        told = ["  2: 9 a, 5 c d", "  4: 5 d c", "  6: all empty", "  8: 9 a"]
        for start, end, first, last in ((0, 9, 0, 4), (2, 8, 0, 3), (3, 9, 1, 4), (4, 7, 1, 3)):
            timeline.start, timeline.end = start, end
            self.assertEqual(draw(timeline, 100, lists=True).splitlines()[-1 - last + first:], ["lists, head first:", *told[first:last]])
            self.assertEqual(draw(timeline, 100, lists=True).splitlines()[-2 - last + first], "")
        self.assertNotIn("lists", draw(timeline, 100))


class ManyTicks(unittest.TestCase):
    """100 ticks do not go into 40 columns; one for 5 is the least step of 1, 2, 5 and so on that does."""

    def test_columns_of_five_ticks(self) -> None:
        spans = [Span(0, 5, RUN, 9), Span(5, 7, RUN, 3), Span(7, 12, READY), Span(12, 20, RUN, 3), Span(20, 30, WAIT, kind="sleep"), Span(30, 31, RUN, 3),
                 Span(31, 32, RUN, 9), Span(32, 100, READY)]
        self.assertEqual(draw(seen(spans, 100, idle=[(22, 24)]), 45).splitlines(), [
            "ticks 0 to 100, a column is 5 ticks; idle for", "  2", "tick 0         50", "     |.........|..........", "a    AbbB..a-------------", "idle     i",
            "", "priority: A 9, B 3", "- ready, . sleeping, i the processor is idle", "a small letter: it runs in a part of the", "  column; another sign: in a part of it at",
            "  least"])

    def test_what_a_small_letter_is(self) -> None:
        """It is said where a column is more than a tick."""
        for ticks, said in ((39, 0), (40, 1)):
            self.assertEqual(draw(seen([Span(0, ticks, RUN, 9)], ticks), 45).count("a small letter: "), said)

    def test_the_last_column_may_be_a_part(self) -> None:
        """Of 98 ticks it has three, and who runs in all of them has all of it."""
        for start, last in ((95, "A"), (96, "a")):
            timeline = seen([Span(0, 95, READY), Span(start, 98, RUN, 9)], 98)
            self.assertEqual(state_row(timeline.threads[0], Columns(timeline, 40), {9: "A"}), 19 * "-" + last)

    def test_marks_stand_in_the_column_of_their_tick(self) -> None:
        timeline = seen([], 100, [Mark(time, MarkKind.EXIT, "", 0) for time in (4, 5, 49, 100)])
        self.assertEqual(mark_rows(timeline.threads[0], Columns(timeline, 40)), ["xx       x          x"])

    def test_how_many_ticks_a_column_has(self) -> None:
        for ticks, width, step in ((39, 40, 1), (40, 40, 2), (78, 40, 2), (79, 40, 5), (195, 40, 5), (196, 40, 10), (100, 101, 1)):
            columns = Columns(seen([], ticks), width)
            self.assertEqual((columns.step, columns.count, columns.of(ticks)), (step, -(-ticks // step) + 1, -(-ticks // step)), (ticks, width))


class Ruler(unittest.TestCase):
    def ruler(self, start: int, end: int, width: int = 105) -> list[str]:
        return [line[5:] for line in draw(seen([], end, start=start), width).splitlines()[1:3]]

    def test_each_stroke_with_room_has_its_number(self) -> None:
        self.assertEqual(self.ruler(0, 4), ["0", "|...."])
        self.assertEqual(self.ruler(0, 6), ["0    5", "|....|."])
        self.assertEqual(self.ruler(0, 10), ["0    5", "|....|....."])
        self.assertEqual(self.ruler(0, 11), ["0", "|.........|."])
        self.assertEqual(self.ruler(0, 12), ["0         10", "|.........|.."])
        self.assertEqual(self.ruler(0, 32), ["0         10        20        30", "|.........|.........|.........|.."])

    def test_between_two_numbers_is_a_blank(self) -> None:
        self.assertEqual(self.ruler(1000, 1010), ["1000 1005", "|....|....."])
        self.assertEqual(self.ruler(10000, 10010), ["10000", "|....|....."])

    def test_a_part_of_a_run(self) -> None:
        self.assertEqual(self.ruler(7, 24), ["7  10        20", "|..|.........|...."])
        self.assertEqual(self.ruler(109, 121), ["109", "||.........|."])

    def test_a_cut_drawn_by_hand(self) -> None:
        self.assertEqual(draw(timeline_of_text(CUT)), CUT_TEXT)

    def test_a_run_that_has_room_is_not_cut(self) -> None:
        """From 100 on, with a gap of 34 or 35 ticks behind five of one: 39 ticks and the end have 40 columns."""
        for end, ruler in ((139, "|.........|.........|.........|........."), (140, "|....|//|.")):
            events = [*range(100, 106), end]
            self.assertEqual(self.ruler_of(events, 45)[1], ruler)

    def ruler_of(self, instants: list[int], width: int) -> tuple[str, str]:
        """The ruler of a run in which something happens at these instants."""
        timeline = seen([], instants[-1], [Mark(at, MarkKind.RELEASE, "", -1, "a job") for at in instants], start=instants[0])
        return ruler(Columns(timeline, width - 5), None)

    def test_when_a_gap_is_cut(self) -> None:
        """39 of the 40 columns are for 390 ticks: of 30 gaps of ten, each one column wide, the middle one is told badly, and a gap of 90 is nine.

        Ten ticks stay at each side of a cut. Where the others have 20 ticks, and so two columns, nothing is cut.
        """
        tens = [*range(0, 301, 10)]
        self.assertEqual(self.ruler_of([*tens, 390], 45), ("0         100       200          380", "|.........|.........|.........|//|."))
        whole = "|.........|.........|.........|........."
        self.assertEqual(self.ruler_of([*tens, 389], 45)[1], whole)
        self.assertEqual(self.ruler_of([*range(0, 301, 20), 390], 45)[1], whole)

    def test_the_last_column_of_a_part(self) -> None:
        """Of gaps of 12, and one of 100, it has two ticks: 310 and 311 before the cut, and 398 and 399 behind it."""
        timeline = seen([], 400, [Mark(at, MarkKind.RELEASE, "", -1, "a job") for at in (*range(0, 301, 12), 400)])
        columns = Columns(timeline, 40)
        self.assertEqual([(part.start, part.end, part.column, part.step, part.cut) for part in columns.parts],
                         [(0, 312, 0, 10, False), (312, 388, 32, 10, True), (388, 400, 34, 10, False)])
        for start, end, row in ((290, 312, " " * 29 + "AAA//"), (300, 311, " " * 30 + "Aa//"), (388, 400, " " * 32 + "//AA"), (389, 399, " " * 32 + "//aa")):
            self.assertEqual(state_row(ThreadLine("a", [Span(start, end, RUN, 9)]), columns, {9: "A"}), row)

    def test_ten_cuts_in_forty_columns(self) -> None:
        """Each gap is eight times the one before, and between them is a tick; each is cut, and all of that has room."""
        instants = [0, 1]
        for power in range(1, 11):
            instants += [instants[-1] + 8 ** power, instants[-1] + 8 ** power + 1]
        told = self.ruler_of(instants, 45)[1]
        self.assertLessEqual(len(told), 40)
        self.assertGreaterEqual(told.count("//"), 9)

    def test_each_row_has_the_cut(self) -> None:
        """Who owns a mutex, or is in a handler, does so on both sides of the cut that CUT has."""
        timeline = timeline_of_text(CUT)
        timeline.mutexes = [Owned("m", [(2, 1001, "a", 0)]), Owned("n", [])]
        timeline.threads[0].spans[0].frame = "h"
        told = draw(timeline).splitlines()
        self.assertEqual([told[at] for at in (4, 7, 8)], ["     ***   //", "m      1111//1111", "n          //"])


class Narrow(unittest.TestCase):
    """Where a line that tells something has no room, it goes on below, two columns to the right."""

    def test_an_item_is_not_torn(self) -> None:
        """`- ready, . sleeping` are 19 letters, and with `, # waiting for a mutex` 42."""
        spans = [Span(0, 1, RUN, 7), Span(1, 2, READY), Span(2, 3, WAIT, kind="sleep"), Span(3, 4, WAIT, kind="mutex")]
        for width, told in ((42, ["- ready, . sleeping, # waiting for a mutex"]), (41, ["- ready, . sleeping,", "  # waiting for a mutex"])):
            self.assertEqual(legend(seen(spans, 4), width), ["priority: A 7", *told])

    def test_an_item_that_has_just_room(self) -> None:
        """`e an error is returned` has 22 letters, two stand before it and a comma behind it."""
        marks = [Mark(1, MarkKind.ERROR, "", 0), Mark(2, MarkKind.LATE, "", 0)]
        self.assertEqual(legend(seen([], 4, marks), 25)[1:], ["marks:", "  e an error is returned,", "  L a deadline is missed"])

    def test_a_list_that_has_just_room(self) -> None:
        """`9 ` and 20 letters, a comma behind them, and before them the tick in two more columns, or four blanks."""
        facts = "".join(f"3 list {9 - at} {letter * 20}\n" for at, letter in enumerate("nop"))
        lists = draw(timeline_of_text(f"0 idle\n{facts}9 end\n"), 28, lists=True).splitlines()
        self.assertEqual(lists[-3:], [f"  3: 9 {'n' * 20},", f"    8 {'o' * 20},", f"    7 {'p' * 20}"])

    def test_a_name_with_hyphens_is_one_word(self) -> None:
        timeline = seen([], 4)
        timeline.title = "a run of one-two-three"
        self.assertEqual(draw(timeline, 25).splitlines()[:2], ["a run of one-two-three:", "  ticks 0 to 4, a column"])
        timeline.title = "a run of it: one-two-three"
        self.assertEqual(draw(timeline, 25).splitlines()[:2], ["a run of it:", "  one-two-three: ticks 0"])

    def test_what_is_longer_than_a_line_is_told_on_several(self) -> None:
        timeline = seen([Span(0, 50, RUN, 7)], 50)
        timeline.title = "a_name_of_thirty_five_letters_in_all"
        self.assertEqual(draw(timeline, 25).splitlines(), [
            "a_name_of_thirty_five_let", "  ters_in_all: ticks 0 to", "  50, a column is 5", "  ticks; idle for 0", "tick 0    25", "     |....|.....",
            "a    AAAAAAAAAA", "", "priority: A 7", "a small letter: it runs", "  in a part of the", "  column; another sign:", "  in a part of it at", "  least"])

    def test_each_line_of_the_legend(self) -> None:
        threads = [ThreadLine(name, [Span(at, at + 1, RUN, at + 1)], marks=[Mark(at, kind, "", 0)])
                   for at, (name, kind) in enumerate(zip(("one", "two", "three", "four"), MarkKind))]
        timeline = Timeline(threads, 9, [], None, True, Trace([], []), mutexes=[Owned("m", [(0, 1, "one", 0)])])
        self.assertEqual(legend(timeline, 26), [
            "priority: A 4, B 3, C 2,", "  D 1", "owners: 1 one, 2 two,", "  3 three, 4 four", "marks: > start, x exit,", "  e an error is returned"])

    def test_the_axis_has_twenty_columns(self) -> None:
        """At least, beside names of four letters and a space; what is not asked for is 100 in all."""
        for width, ticks in ((1, 19), (25, 19), (26, 20), (None, 94)):
            for more, each in ((0, "one tick"), (1, "2 ticks")):
                told = " ".join(draw(seen([], ticks + more), width).split())
                self.assertIn(f"a column is {each};", told, (width, ticks + more))

    def test_no_line_is_wider_than_it_is_asked_for(self) -> None:
        spans = [Span(at, at + 1, WAIT, kind=kind) for at, kind in enumerate(KINDS)]
        marks = [Mark(at, kind, "", 0) for at, kind in enumerate(MarkKind)]
        for width in range(1, 120):
            lines = draw(seen([*spans, Span(8, 9, RUN, 7, frame="h")], 90, marks, idle=[(20, 30)]), width).splitlines()
            self.assertLessEqual(max(map(len, lines)), max(width, 25), width)

    def test_lists(self) -> None:
        """Of six threads with one list each; `3: 9 a, 8 b, 7 c, 6 d` are 22 letters, and stand two to the right."""
        facts = "".join(f"3 list {9 - at} {name}\n" for at, name in enumerate("abcdef"))
        timeline = timeline_of_text(f"0 idle\n{facts}9 end\n")
        told = draw(timeline, 25, lists=True).splitlines()
        self.assertEqual(told[told.index("lists, head first:") + 1:], ["  3: 9 a, 8 b, 7 c, 6 d,", "    5 e, 4 f"])


class Kill(unittest.TestCase):
    TRACE = "0 start a\n0 dispatch a 5\n{0} return a kill 0 0\n{0} killed rt1\n{0} end\nthread a ticks {0}\n"

    def test_a_cross_in_the_ruler(self) -> None:
        """At the instant of the kill, behind the last tick, where a stroke may stand too."""
        for end, ruler in ((5, "|....X"), (10, "|....|....X"), (20, "|.........|.........X")):
            told = draw(timeline_of_text(self.TRACE.format(end))).splitlines()
            self.assertEqual((told[2][5:], told[-1]), (ruler, "X in the ruler: rt1 kills the process"))

    def test_no_cross_where_nothing_is_killed(self) -> None:
        told = draw(seen([Span(0, 5, RUN, 7)], 5)).splitlines()
        self.assertEqual((told[2], told[-1]), ("     |.....", "priority: A 7"))


class Heading(unittest.TestCase):
    def test_what_it_says(self) -> None:
        timeline = seen([], 9, idle=[(2, 4), (5, 8)])
        timeline.title, timeline.tick, timeline.start, timeline.finished = "one", "5us", 2, False
        self.assertEqual(draw(timeline, 200).splitlines()[0], "one: ticks 2 to 9, a column is one tick; idle for 5; the trace has no end; a tick is 5us")
        killed = timeline_of_text("0 start a\n0 dispatch a 5\n5 return a kill 0 0\n5 killed rt1\n5 end\nthread a ticks 5\n")
        self.assertEqual(draw(killed).splitlines()[0], "ticks 0 to 5, a column is one tick; idle for 0; killed by rt1")


if __name__ == "__main__":
    unittest.main()
