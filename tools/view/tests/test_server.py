"""The lane of a server, with places that are worked out by hand. An axis from 0 to 10 begins at 100 and has 10 for a tick."""
from __future__ import annotations

import re
import unittest
import xml.etree.ElementTree as ElementTree

from view.axis import Axis
from view.svg_server import draw_server
from view.svg_writer import Writer
from view.timeline import Capacity, Planned, ThreadLine

SVG = "{http://www.w3.org/2000/svg}"
# 4 falls to 2 in two ticks, and is 4 again at 6.
STEPS = [Capacity(0, 2, 4, True), Capacity(2, 6, 2, False), Capacity(6, 10, 4, False)]


def axis_of(end: int, width: float = 100) -> Axis:
    return Axis([0, end], 100, width, 34, 6)


def drawn(thread: ThreadLine, axis: Axis, high: float = 40, start: int = 0, end: int = 10) -> ElementTree.Element:
    """The lane from 10 down to 10 + `high`."""
    out = Writer()
    draw_server(out, thread, axis, 10, high, start, end)
    return ElementTree.fromstring(out.document(300, 100, ""))


def paths(root: ElementTree.Element, kind: str) -> list[str]:
    return [path.get("d") for path in root.iter(f"{SVG}path") if path.get("class") == kind]


def titles(root: ElementTree.Element, kind: str) -> list[str]:
    return [path.find(f"{SVG}title").text for path in root.iter(f"{SVG}path") if path.get("class") == kind]


def texts(root: ElementTree.Element) -> list[tuple[str, float, float]]:
    return [(text.text, float(text.get("x")), float(text.get("y"))) for text in root.iter(f"{SVG}text")]


def capacity(pieces: list[Capacity], axis: Axis, **how) -> list[tuple[float, float]]:
    """The points of the line."""
    root = drawn(ThreadLine("s", capacity=pieces), axis, **how)
    return [(float(x), float(y)) for x, y in re.findall(r"(-?[\d.]+),(-?[\d.]+)", paths(root, "capacity")[0])]


def mark_places(root: ElementTree.Element, kind: str) -> list[float]:
    """Where rings of a radius of 2.88 have their middle."""
    return [round(float(re.match(r"M(-?[\d.]+),50a", data)[1]) + 2.88, 2) for data in paths(root, kind)]


class Line(unittest.TestCase):
    def test_a_step_for_each_tick(self) -> None:
        """The greatest capacity, 4, is at the top, and a tick of it 10 high."""
        self.assertEqual(capacity(STEPS, axis_of(10)), [
            (100, 10), (110, 10), (110, 20), (120, 20), (120, 30), (120, 30), (160, 30), (160, 10), (200, 10)])

    def test_its_scale_its_ground_and_its_title(self) -> None:
        root = drawn(ThreadLine("s", capacity=STEPS), axis_of(10))
        self.assertEqual(texts(root), [("4", 95, 16), ("0", 95, 52)])
        self.assertEqual(texts(drawn(ThreadLine("s", capacity=STEPS), axis_of(10), 14)), [("4", 95, 16), ("0", 95, 26)])
        self.assertEqual(texts(drawn(ThreadLine("s", capacity=STEPS), axis_of(10), 13)), [("4", 95, 16)])
        ground = next(root.iter(f"{SVG}line"))
        self.assertEqual([float(ground.get(name)) for name in ("x1", "y1", "x2", "y2")], [100, 50, 200, 50])
        self.assertEqual(titles(root, "capacity"), ["the capacity of s, from 4 to 4 ticks"])
        self.assertTrue(paths(root, "capacity-area")[0].endswith("L160,10L200,10V50H100Z"))
        begins_late = drawn(ThreadLine("s", capacity=[Capacity(3, 5, 2, True)]), axis_of(10))
        self.assertEqual(titles(begins_late, "capacity"), ["the capacity of s, from 2 to 0 ticks"])
        self.assertTrue(paths(begins_late, "capacity-area")[0].endswith("L150,50V50H130Z"))

    def test_a_server_that_has_none(self) -> None:
        """What has no capacity stands on the ground of a scale up to 1; of what is not known yet nothing is drawn."""
        self.assertEqual(capacity([Capacity(0, 10, 0, False)], axis_of(10)), [(100, 50), (200, 50)])
        root = drawn(ThreadLine("s", plans=[Planned(2, 3, 7)]), axis_of(10))
        self.assertEqual((paths(root, "capacity"), paths(root, "capacity-area"), texts(root)[0]), ([], [], ("1", 95, 16)))

    def test_a_slope_where_ticks_are_narrow(self) -> None:
        """Steps are drawn from 2.5 a tick on, and of at most 400 ticks."""
        self.assertEqual(capacity([Capacity(0, 40, 40, True)], axis_of(40)), [
            point for tick in range(40) for point in ((100 + 2.5 * tick, 10 + tick), (102.5 + 2.5 * tick, 10 + tick))] + [(200, 50)])
        self.assertEqual(capacity([Capacity(0, 50, 40, True)], axis_of(50)), [(100, 10), (200, 50)])
        self.assertEqual(len(capacity([Capacity(0, 400, 400, True)], axis_of(400, 4000))), 801)
        self.assertEqual(capacity([Capacity(0, 401, 401, True)], axis_of(401, 4010)), [(100, 10), (4110, 50)])

    def test_what_is_closer_than_a_pixel(self) -> None:
        """Ten ticks a pixel. In the first the capacity goes over 3, 2, 4, 0 and 1; of the next one four points are all drawn."""
        values = [(0, 2, 3), (2, 4, 2), (4, 6, 4), (6, 8, 0), (8, 9, 1), (10, 12, 4), (12, 14, 2)]
        points = capacity([Capacity(start, end, value, False) for start, end, value in values], axis_of(1000))
        self.assertEqual(points, [(100, 20), (100.4, 10), (100.6, 50), (100.9, 40), (101, 10), (101.2, 10), (101.2, 30), (101.4, 30)])


class Plans(unittest.TestCase):
    def lane(self, plans: list[Planned], start: int = 0, end: int = 10) -> ElementTree.Element:
        return drawn(ThreadLine("s", capacity=STEPS, plans=plans), axis_of(10), start=start, end=end)

    def test_a_plan_and_its_refill(self) -> None:
        """From 2 to 7: the arrow rises by 10 and 0.12 of its 50, and the amount, half of 2 letters of 4.8 before it, stands at its end."""
        root = self.lane([Planned(2, 3, 7, 7)])
        self.assertEqual(paths(root, "arrow"), ["M120,48C120,34 170,34 170,46"])
        told = "s: at 2 a replenishment of 3 ticks is planned, due at 7; carried out at 7"
        self.assertEqual([titles(root, kind) for kind in ("arrow", "mark plan", "mark refill")], [[told]] * 3)
        self.assertEqual((mark_places(root, "mark plan"), mark_places(root, "mark refill")), ([120], [170]))
        self.assertEqual(texts(root)[2:], [("+3", 165.2, 60)])

    def test_a_plan_that_is_due_behind_the_picture(self) -> None:
        root = self.lane([Planned(2, 3, 11)])
        self.assertEqual(paths(root, "arrow"), ["M120,48C120,30.4 200,30.4 200,46"])
        self.assertEqual(titles(root, "arrow"), ["s: at 2 a replenishment of 3 ticks is planned, due at 11; not carried out in this trace"])
        self.assertEqual((texts(root)[2:], mark_places(root, "mark refill")), ([("+3 due 11", 125, 60)], []))
        self.assertEqual(texts(self.lane([Planned(2, 3, 10)]))[2:], [("+3", 195.2, 60)])

    def test_a_plan_that_is_due_by_then(self) -> None:
        root = self.lane([Planned(4, 1, 3, 4)])
        self.assertEqual((paths(root, "arrow"), mark_places(root, "mark plan"), mark_places(root, "mark refill")), ([], [140], [140]))
        self.assertEqual(texts(root)[2:], [("+1", 135.2, 60)])

    def test_plans_that_stand_close(self) -> None:
        """Of two that are due where there is room for one amount the first has it; each has its arrow and its rings."""
        root = self.lane([Planned(1, 1, 6, 6), Planned(2, 2, 7, 7), Planned(3, 3, 9, 9)])
        self.assertEqual([text for text, *_ in texts(root)[2:]], ["+1", "+3"])
        self.assertEqual((len(paths(root, "arrow")), mark_places(root, "mark plan")), (3, [110, 120, 130]))
        self.assertEqual(mark_places(root, "mark refill"), [160, 170, 190])

    def test_what_happened_before_the_picture_and_behind_it(self) -> None:
        """The plan of 2 comes in at the edge without a ring, and refills outside of the picture have none."""
        root = drawn(ThreadLine("s", plans=[Planned(2, 3, 7, 7), Planned(5, 1, 8, 8)]), Axis([5, 10], 100, 100, 34, 6), start=5, end=7)
        self.assertEqual((mark_places(root, "mark plan"), mark_places(root, "mark refill")), ([100], [140]))
        self.assertEqual([data.split(",")[0] for data in paths(root, "arrow")], ["M100", "M100"])
        joined = drawn(ThreadLine("s", plans=[Planned(2, 3, 4, 5)]), Axis([5, 10], 100, 100, 34, 6), start=5, end=10)
        self.assertEqual((paths(joined, "arrow"), mark_places(joined, "mark refill"), len(texts(joined))), ([], [100], 2))

    def test_many_plans_are_drawn_apart(self) -> None:
        """100 wide has room for 12 of them with amounts. Of 13 that follow one another at 2 each that is 24 behind the last is drawn."""
        plans = [Planned(time, 1, time + 30, time + 30) for time in range(13)]
        for count, apart in ((12, [100 + 2 * time for time in range(0, 12, 2)]), (13, [100, 124])):
            root = drawn(ThreadLine("s", plans=plans[:count]), axis_of(50), end=50)
            self.assertEqual(mark_places(root, "mark plan"), apart, count)
            self.assertEqual(mark_places(root, "mark refill"), [place + 60 for place in apart], count)
            self.assertEqual(bool(texts(root)[2:]), count == 12, count)


if __name__ == "__main__":
    unittest.main()
