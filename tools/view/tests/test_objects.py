"""Mutexes, wakes, stretches and marks of a picture, with places that are worked out by hand: the axis begins at 100 and has 10 for a tick."""
from __future__ import annotations

import unittest
import xml.etree.ElementTree as ElementTree

from view.axis import Axis
from view.svg_marks import draw_marks, place_marks
from view.svg_objects import CONTENDED, OWNER, draw_mutex, draw_wakes
from view.svg_spans import bins_of, draw_spans
from view.svg_writer import Writer
from view.timeline import Mark, MarkKind, Owned, Span, State, ThreadLine
from view.wakes import Wake

SVG = "{http://www.w3.org/2000/svg}"


def read(out: Writer) -> ElementTree.Element:
    return ElementTree.fromstring(out.document(600, 100, ""))


def rects(root: ElementTree.Element, kind: str) -> list[tuple[float, ...]]:
    return [tuple(float(rect.get(name)) for name in ("x", "y", "width", "height")) for rect in root.iter(f"{SVG}rect") if rect.get("class") == kind]


def titles(root: ElementTree.Element, kind: str) -> list[str]:
    return [element.find(f"{SVG}title").text for element in root.iter() if element.get("class") == kind]


def texts(root: ElementTree.Element) -> list[tuple[str, float]]:
    return [("".join(text.itertext()), float(text.get("x"))) for text in root.iter(f"{SVG}text")]


class Mutexes(unittest.TestCase):
    def test_owners_and_who_waits_for_them(self) -> None:
        out = Writer()
        draw_mutex(out, Owned("m", [(1, 5, "b", 0), (5, 9, "b", 2), (12, 20, "a", 1)]), Axis([0, 20], 100, 200, 34, 6), 50)
        root = read(out)
        self.assertEqual(rects(root, "owner"), [(110, 50, 40, 13), (150, 50, 40, 13), (220, 50, 80, 13)])
        self.assertEqual([rect.get("fill") for rect in root.iter(f"{SVG}rect") if rect.get("class") == "owner"], [OWNER, CONTENDED, CONTENDED])
        self.assertEqual(titles(root, "owner"), ["b owns m for 4 ticks [1, 5)", "b owns m for 4 ticks [5, 9), and 2 wait for it",
                                                 "a owns m for 8 ticks [12, 20), and 1 wait for it"])
        self.assertEqual(texts(root), [("the mutex mm", 8), ("b", 130), ("b", 170), ("a", 260)])

    def test_names_that_have_no_room_in_a_bar(self) -> None:
        """12 letters are some 67 wide: across both bars of 40 and 40, and beside one of 20, behind it or, where others follow, before it.

        Where it has room beside none of them it begins in its bar and ends behind it, before the next bar.
        """
        wide, name = Axis([0, 40], 100, 400, 34, 6), "bbbbbbbbbbbb"
        for bars, places in (([(1, 5, name, 0), (5, 9, name, 1)], [(name, 150)]), ([(1, 3, name, 0)], [(name, 133)]),
                             ([(20, 22, name, 0), (23, 33, "a", 0)], [(name, 297), ("a", 380)]),
                             ([(1, 5, name, 0), (9, 19, "a", 0)], [(name, 113), ("a", 240)]), ([(1, 5, name, 0), (8, 18, "a", 0)], [("a", 230)])):
            out = Writer()
            draw_mutex(out, Owned("m", bars), wide, 50)
            self.assertEqual(texts(read(out))[1:], places)

    def test_wakes(self) -> None:
        """From the lower edge of the bar above to the upper one of the bar below, or the other way round."""
        out, bars = Writer(), {"a": (10.0, 30.0), "b": (50.0, 70.0)}
        draw_wakes(out, [Wake(2, "a", "b", "unlock"), Wake(4, "b", "a", "create")], Axis([0, 10], 100, 100, 34, 6), bars)
        root = read(out)
        self.assertEqual(titles(root, "wakes"), ["2: a wakes b by unlock", "4: b starts a"])
        self.assertEqual([path.get("d") for path in root.iter(f"{SVG}path") if path.get("class") == "wakes"],
                         ["M120,30C113,40 113,40 120,50", "M140,50C133,40 133,40 140,30"])


class Stretches(unittest.TestCase):
    def test_each_state_has_its_place(self) -> None:
        spans = [Span(0, 10, State.RUNNING, 7, frame="h"), Span(10, 15, State.RUNNING, 3, high=False), Span(15, 25, State.READY, 3),
                 Span(25, 40, State.WAITING, call="lock", kind="mutex", what="m")]
        out = Writer()
        draw_spans(out, ThreadLine("t", spans), Axis([0, 40], 100, 400, 34, 6), {7: ("#aa0000", "#ffffff"), 3: ("#0000aa", "#ffffff")}, 50, 20, 12)
        root = read(out)
        self.assertEqual(rects(root, "run"), [(100, 50, 100, 20), (200, 50, 50, 20)])
        self.assertEqual([rect.get("fill") for rect in root.iter(f"{SVG}rect") if rect.get("class") == "run"], ["#aa0000", "#0000aa"])
        self.assertEqual((rects(root, "low"), rects(root, "ready"), rects(root, "wait")), ([(200, 50, 50, 20)], [(250, 54, 100, 12)], [(350, 54, 150, 12)]))
        self.assertEqual(rects(root, "handler"), [(100, 50, 100, 3.6)])
        self.assertEqual(sorted(texts(root)), [("3", 225), ("7 h", 150), ("mutex m", 425), ("ready at 3", 300)])
        # The number on the stripes of the low priority is set off from them in the colour of the bar.
        self.assertEqual({text.text: (text.get("stroke"), text.get("paint-order")) for text in root.iter(f"{SVG}text")},
                         {"3": ("#0000aa", "stroke"), "7 h": (None, None), "mutex m": (None, None), "ready at 3": (None, None)})

    def test_shares_of_columns(self) -> None:
        """Four columns of 10 ticks, each 3 wide."""
        line = ThreadLine("t", [Span(5, 12, State.RUNNING, 7), Span(12, 15, State.RUNNING, 3), Span(15, 20, State.READY), Span(20, 35, State.WAITING)])
        self.assertEqual([(column.start, column.end, column.runs, column.ready, column.waits) for column in bins_of(line, Axis([0, 40], 100, 12, 34, 6))],
                         [(0, 10, {7: 5}, 0, 0), (10, 20, {7: 2, 3: 3}, 5, 0), (20, 30, {}, 0, 10), (30, 40, {}, 0, 5)])


class Placed(unittest.TestCase):
    """Marks with a radius of 4 in a picture that ends at 234."""

    def placed(self, marks: list[Mark]):
        return place_marks(ThreadLine("t", marks=marks), Axis([0, 20], 100, 200, 34, 6), 4, 234)

    def test_levels(self) -> None:
        """A mark that would touch another one, or its label, stands higher. A return takes no room, and a plan stands in the lane."""
        kinds = ((0, MarkKind.START, ""), (0, MarkKind.ACTIVATE, ""), (0, MarkKind.RETURN, "lock"), (0, MarkKind.PLAN, "+1"), (1, MarkKind.ERROR, "EAGAIN"),
                 (4, MarkKind.EXIT, ""), (9, MarkKind.CANCEL, ""))
        placed = self.placed([Mark(time, kind, label, at) for at, (time, kind, label) in enumerate(kinds)])
        self.assertEqual([(group.kind.value, group.x, group.level, group.label) for group in placed.groups], [
            ("start", 100, 0, ""), ("activate", 100, 1, ""), ("return", 100, 0, ""), ("error", 110, 0, "EAGAIN"), ("exit", 140, 1, ""), ("cancel", 190, 0, "")])
        self.assertEqual(placed.levels, 2)

    def test_titles_and_labels(self) -> None:
        """Eight marks of one instant are one, that tells six and how many more; a label is only that of a mark that stands alone."""
        lines = [f"5 return t lock EAGAIN {number}" for number in range(8)]
        for count, label, title in ((1, [("EAGAIN", 156)], lines[0]), (2, [], "\n".join(lines[:2])), (6, [], "\n".join(lines[:6])),
                                    (8, [], "\n".join([*lines[:6], "and 2 more, up to tick 5"]))):
            out = Writer()
            draw_marks(out, self.placed([Mark(5, MarkKind.ERROR, "EAGAIN", at) for at in range(count)]), lines, 50, 4, 234)
            self.assertEqual((titles(read(out), "mark error"), texts(read(out))), ([title], label))

    def test_a_label_at_the_right_edge_stands_before_its_mark(self) -> None:
        out = Writer()
        draw_marks(out, self.placed([Mark(13, MarkKind.ERROR, "EAGAIN", 0)]), ["13 return t lock EAGAIN 0"], 50, 4, 234)
        self.assertEqual(texts(read(out)), [("EAGAIN", 224)])
        self.assertEqual(next(read(out).iter(f"{SVG}text")).get("text-anchor"), "end")


if __name__ == "__main__":
    unittest.main()
