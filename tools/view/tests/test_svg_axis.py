"""The axis and the legend of a picture: each number stands at its tick, and each part that is cut out says what it leaves out."""
from __future__ import annotations

import unittest
import xml.etree.ElementTree as ElementTree

from view.axis import Axis
from view.svg_axis import draw_axis
from view.svg_legend import WHAT
from view.svg_writer import Writer
from view.timeline import MarkKind

SVG = "{http://www.w3.org/2000/svg}"


def drawn(axis: Axis) -> tuple[list[tuple[str, float]], ElementTree.Element]:
    out = Writer()
    draw_axis(out, axis, 50, 150)
    root = ElementTree.fromstring(out.document(900, 200, ""))
    return [(text.text or "", float(text.get("x"))) for text in root.iter(f"{SVG}text") if text.get("y") in ("41", "29")], root


class Numbers(unittest.TestCase):
    def test_each_stands_at_its_tick(self) -> None:
        """Two digits need 24.4: with 10 for a tick 5 is the least step, with 3 it is 10, with 30 it is 1. Three need 30.6: with 3 it is 20."""
        for end, width, step in ((40, 400, 5), (90, 270, 10), (20, 600, 1), (100, 300, 20)):
            numbers, root = drawn(Axis([0, end], 100, width, 34, 6))
            self.assertEqual(numbers, [(str(tick), 100 + tick * width / end) for tick in range(0, end + 1, step)])
            strokes = {float(line.get("x1")) for line in root.iter(f"{SVG}line") if line.get("x1") == line.get("x2")}
            self.assertEqual(strokes, {place for _, place in numbers})

    def test_a_part_that_begins_later(self) -> None:
        self.assertEqual(drawn(Axis([7, 47], 100, 400, 34, 6))[0], [(str(tick), 100 + 10 * (tick - 7)) for tick in range(10, 46, 5)])

    def test_long_numbers_and_cuts(self) -> None:
        """Ten ticks at 0 and ten at 2,000,000, where the first is written out, and the others count from it."""
        instants = [*range(11), *range(2_000_000, 2_000_011)]
        axis = Axis(instants, 100, 634, 34, 6)
        numbers, root = drawn(axis)
        (cut,) = axis.cuts
        told = [rect.find(f"{SVG}title").text for rect in root.iter(f"{SVG}rect") if rect.get("class") == "cut"]
        self.assertEqual(told, [f"the axis is cut: nothing happens from {cut.start} to {cut.end}, {cut.end - cut.start} ticks"])
        self.assertTrue(10 <= cut.start < cut.end <= 2_000_000)
        long = {text: place for text, place in numbers if len(text) > 5}
        (first,) = long
        base = int(first.replace("\u2009", ""))
        self.assertEqual((base, long[first]), (cut.end, float(f"{axis.at(cut.end):.2f}")))
        ticks = [(base + int(text[1:]) if text.startswith("+") else int(text), place) for text, place in numbers if text not in long]
        self.assertGreater(len(ticks), 8)
        for tick, place in ticks:
            self.assertAlmostEqual(place, axis.at(tick), delta=0.01)

    def test_what_a_cut_says_in_short(self) -> None:
        """1,999,990 less its margins is 2 million, rounded."""
        root = drawn(Axis([*range(11), *range(2_000_000, 2_000_011)], 100, 634, 34, 6))[1]
        self.assertEqual([text.find(f"{SVG}title").tail for text in root.iter(f"{SVG}text") if text.find(f"{SVG}title") is not None], ["2·10⁶ ticks"])


class Legend(unittest.TestCase):
    def test_each_mark_has_its_words(self) -> None:
        self.assertEqual({kind.value: told for kind, told in WHAT.items()}, {
            "start": "start", "exit": "exit", "return": "a call returns 0", "error": "a call returns an error", "clock": "the clock is set",
            "cancel": "cancel", "deliver": "a signal is delivered", "activate": "activate", "exhaust": "exhaust", "plan": "plan",
            "refill": "refill", "release": "a job is released", "late": "its deadline, missed"})
        self.assertEqual(set(WHAT), set(MarkKind))


if __name__ == "__main__":
    unittest.main()
