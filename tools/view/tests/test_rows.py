"""Where the rows of a picture stand, how wide it is, and its heading, worked out by hand.

Up to 12 threads a row has 16 for marks, a bar of 20 and 8 below it, of a server 56 more; the first begins at 70, 4 below the axis.
"""
from __future__ import annotations

import unittest
import xml.etree.ElementTree as ElementTree

from view.lines import Killed, Trace, read_trace
from view.seen import timeline_of
from view.svg import draw, heading, plot_width
from view.svg_rows import Sizes
from view.timeline import Capacity, Mark, MarkKind, Owned, Span, State, ThreadLine, Timeline

from .details import detail_of
from .worked import timeline_of_text

SVG = "{http://www.w3.org/2000/svg}"


def seen(threads: list[ThreadLine], end: int = 10, **more) -> Timeline:
    return Timeline(threads, end, more.pop("idle", []), more.pop("killed", None), True, more.pop("trace", Trace([], [])), **more)


def runs(name: str, **more) -> ThreadLine:
    return ThreadLine(name, [Span(0, 5, State.RUNNING, 3)], **more)


def drawn(timeline: Timeline) -> ElementTree.Element:
    return ElementTree.fromstring(draw(timeline))


def tops(root: ElementTree.Element, kind: str) -> list[tuple[float, float]]:
    return [(float(rect.get("y")), float(rect.get("height"))) for rect in root.iter(f"{SVG}rect") if rect.get("class") == kind]


class Places(unittest.TestCase):
    def test_threads_then_mutexes(self) -> None:
        """b has a server, so its row ends at 70 + 44 + 100; the mutexes begin 6 below that, each 22 below the one before."""
        root = drawn(seen([runs("a"), runs("b", capacity=[Capacity(0, 10, 4, False)])],
                          mutexes=[Owned(name, [(0, 5, "a", 0)]) for name in ("m", "n")]))
        self.assertEqual((tops(root, "run"), tops(root, "owner")), ([(86, 20), (130, 20)], [(220, 13), (242, 13)]))
        names = {text.find(f"{SVG}title").tail: (text.find(f"{SVG}title").text, float(text.get("y"))) for text in root.iter(f"{SVG}text")
                 if text.find(f"{SVG}title") is not None}
        self.assertEqual(names, {"a": ("a: ran for 5 ticks", 101), "b": ("b: ran for 5 ticks", 145), "m": ("the mutex m", 231), "n": ("the mutex n", 253)})
        area = next(path for path in root.iter(f"{SVG}path") if path.get("class") == "capacity-area")
        self.assertIn(",156L", area.get("d"))  # 6 below the bar
        self.assertIn("V196H", area.get("d"))  # 16 of the 56 have amounts
        below = [float(line.get("y1")) for line in root.iter(f"{SVG}line") if line.get("x1") == "8"]
        self.assertEqual(below, [113, 213, 239, 261])

    def test_lists_below_the_mutexes(self) -> None:
        """a and b from 70 on, 44 each; the mutex 6 below them, then the lists 22 below it, 17 each; the strokes of the axis go 2 below those."""
        script = b"mutex m none\nthread a fifo 9 at 4\nlock m\nrun 2\nunlock m\nend\nthread b fifo 5 at 0\nlock m\nrun 6\nunlock m\nrun 5\nend\n"
        timeline = timeline_of(read_trace(detail_of(script, 25).splitlines(keepends=True)))
        for lists, tops_of_lists, bottom in ((True, {186, 203}, 222), (False, set(), 188)):
            root = ElementTree.fromstring(draw(timeline, None, lists))
            self.assertEqual({top for top, _ in tops(root, "list")}, tops_of_lists)
            self.assertEqual({top for top, _ in tops(root, "owner")}, {164})
            strokes = {float(line.get("y2")) for line in root.iter(f"{SVG}line") if line.get("x1") == line.get("x2")}
            self.assertEqual(max(strokes), bottom)
        wake = next(path.get("d") for path in root.iter(f"{SVG}path") if path.get("class") == "wakes")
        self.assertRegex(wake, r",130C.*,106$")  # from the upper edge of the bar of b to the lower one of a

    def test_marks_on_one_another_move_the_bar_down(self) -> None:
        """Each level above the first has two radii of 4.2 and 2."""
        marks = [Mark(0, kind, "", 0) for kind in (MarkKind.CANCEL, MarkKind.DELIVER, MarkKind.CLOCK)]
        timeline = seen([runs("a", marks=marks), runs("b")])
        timeline.trace.lines.append("0 cancel a")
        self.assertEqual(tops(drawn(timeline), "run"), [(86 + 20.8, 20), (130 + 20.8, 20)])

    def test_many_threads_have_low_rows(self) -> None:
        for count, high, marks, gap in ((12, 20, 16, 8), (13, 15, 12, 5), (28, 15, 12, 5), (29, 13, 9, 3)):
            places = tops(drawn(seen([runs(f"t{number}") for number in range(count)])), "run")
            self.assertEqual(places, [(70 + marks + number * (high + marks + gap), high) for number in range(count)], count)
        self.assertEqual([(sizes.server, sizes.text) for sizes in map(Sizes.for_threads, (12, 28, 29))], [(56, 12), (38, 10.5), (28, 10)])
        self.assertEqual([round(Sizes.for_threads(count).radius, 2) for count in (12, 28, 29)], [4.2, 3.36, 2.52])

    def test_names_have_room(self) -> None:
        """16 and 0.66 of the size, 12, for each letter of the longest name, but at least 44."""
        sizes = Sizes.for_threads(1)
        for threads, mutexes, room in ((["a"], [], 60), (["a"], ["m" * 20], 16 + 20 * 12 * 0.66), (["a" * 10, "b"], ["m"], 16 + 10 * 12 * 0.66), ([], [], 60)):
            timeline = seen([ThreadLine(name) for name in threads], mutexes=[Owned(name, []) for name in mutexes])
            self.assertAlmostEqual(sizes.gutter(timeline), room)

    def test_what_killed_it_is_a_line(self) -> None:
        """It goes from 6 above the axis down to 2 below the one row, at the tick of the kill: 60 and 5 times 56."""
        line = next(line for line in drawn(seen([runs("a")], killed=Killed(5, "rt1"))).iter(f"{SVG}line") if line.get("stroke") == "#c21f1f")
        self.assertEqual([float(line.get(name)) for name in ("x1", "y1", "x2", "y2")], [340, 60, 340, 116])
        self.assertEqual(line.find(f"{SVG}title").text, "5 killed rt1")


    def test_a_cut_has_torn_edges_over_all_rows(self) -> None:
        """The axis from 60 on has 1406 for 22 ticks and the 34 of the cut: 11 of them are 686 wide. The edges stand 6 within the cut."""
        marks = [Mark(time, MarkKind.RELEASE, "", -1, "a job") for time in (*range(11), *range(1000, 1011))]
        root = drawn(seen([runs("a", marks=marks)], 1010))
        self.assertEqual([path.get("d").split("L")[0] for path in root.iter(f"{SVG}path") if path.get("stroke") == "#b4a88c"], ["M752.0,66.0", "M774.0,66.0"])

    def test_a_label_at_the_end_of_the_axis(self) -> None:
        """There are 34 behind the axis: three letters have room behind their mark, seven have not, and stand before it."""
        for label, anchor in (("rt1", None), ("rt12345", "end")):
            root = drawn(seen([runs("a", marks=[Mark(10, MarkKind.DELIVER, label, 0)])], trace=Trace([], ["10 deliver a"])))
            self.assertEqual([text.get("text-anchor") for text in root.iter(f"{SVG}text") if text.text == label], [anchor])


class Width(unittest.TestCase):
    def test_how_wide_a_tick_is_at_least(self) -> None:
        """1406 are behind names of one letter and before the margin: 234 ticks are 6 wide, and 235 are not."""
        for end, cuts in ((234, 0), (235, 2)):
            marks = [Mark(time, MarkKind.RELEASE, "", -1, "a job") for time in range(end - 99)]
            root = drawn(seen([runs("a", marks=marks)], end))
            self.assertEqual(sum(path.get("stroke") == "#b4a88c" for path in root.iter(f"{SVG}path")), cuts)

    def test_ticks_of_a_good_size(self) -> None:
        """22 for a tick, at least 560 for all; the whole picture has at most 1500, of which the names and 34 behind the axis are a part."""
        for ticks, wide in ((1, 560), (25, 560), (26, 572), (60, 1320), (63, 1386), (64, 1406), (65, 1406), (10**18, 1406)):
            self.assertEqual(plot_width(seen([], ticks), 60, None), wide, ticks)
        self.assertEqual(plot_width(seen([], 126, start=100), 60, None), 572)

    def test_a_width_that_is_asked_for(self) -> None:
        for asked, wide in ((800, 706), (294, 200), (100, 200)):
            self.assertEqual(plot_width(seen([], 60), 60, asked), wide)

    def test_the_heading_has_room(self) -> None:
        root = drawn(seen([runs("a")], title="t" * 200))
        self.assertGreater(float(root.get("width")), 200 * 13 * 0.5)
        self.assertEqual(drawn(seen([runs("a")])).get("width"), "654")  # 60, 560 and 34


class Heading(unittest.TestCase):
    def test_what_it_says(self) -> None:
        one, two = [ThreadLine("a")], [ThreadLine("a"), ThreadLine("b")]
        self.assertEqual(heading(seen(one, 9)), "1 thread, ticks 0 to 9")
        self.assertEqual(heading(seen(two, 12345, start=7, idle=[(7, 9), (1000, 2000)])), "2 threads, ticks 7 to 12\u2009345, idle for 1\u2009002")
        self.assertEqual(heading(seen([], 9, killed=Killed(9, "rt1"), tick="5us", title="one")), "one: 0 threads, ticks 0 to 9, killed by rt1, a tick is 5us")
        self.assertEqual(heading(timeline_of_text("0 start a\n0 dispatch a 5\n7 return a yield 0 0\n")), "1 thread, ticks 0 to 7; the trace has no end")


if __name__ == "__main__":
    unittest.main()
