"""The legend of a picture says what the picture has, all of it and no more, in the colours that the picture has."""
from __future__ import annotations

import unittest
import xml.etree.ElementTree as ElementTree

from view.axis import Axis
from view.colours import colours_of
from view.kinds import CLEANUP, COLOURS, HANDLER
from view.lines import Killed, Trace
from view.svg_legend import WHAT, draw_legend
from view.svg_objects import CONTENDED, OWNER
from view.svg_writer import Writer
from view.timeline import Capacity, Mark, MarkKind, Owned, Span, State, ThreadLine, Timeline
from view.wakes import Wake

SVG = "{http://www.w3.org/2000/svg}"
WHOLE = Axis([0, 40], 100, 400, 34, 6)


def seen(spans: list[Span], marks: list[Mark] = [], killed: Killed | None = None, **more) -> Timeline:
    return Timeline([ThreadLine("a", spans, marks=marks)], 40, [], killed, True, Trace([], []), **more)


def drawn(timeline: Timeline, axis: Axis = WHOLE, width: float = 900) -> tuple[ElementTree.Element, float]:
    out = Writer()
    bottom = draw_legend(out, timeline, axis, colours_of(timeline.scale or timeline.priorities), width, 100)
    return ElementTree.fromstring(out.document(width, 300, "")), bottom


def texts(timeline: Timeline, axis: Axis = WHOLE) -> list[str]:
    return [text.text for text in drawn(timeline, axis)[0].iter(f"{SVG}text")]


def icon(root: ElementTree.Element, words: str) -> list[dict[str, str]]:
    """The shapes on the line of these words, from the item before them on."""
    items = list(root)
    at = next(number for number, item in enumerate(items) if item.text == words)
    before = next((number for number in range(at - 1, -1, -1) if items[number].tag == f"{SVG}text"), -1)
    return [item.attrib for item in items[before + 1:at] if "fill" in item.attrib and item.get("width") != "100%" or "stroke" in item.attrib]


class Legend(unittest.TestCase):
    def test_of_nothing_it_says_nothing(self) -> None:
        root, bottom = drawn(seen([]))
        self.assertEqual((list(root.iter(f"{SVG}text")), bottom), ([], 132))

    def test_priorities_the_highest_first(self) -> None:
        timeline = seen([Span(0, 5, State.RUNNING, 3), Span(5, 9, State.RUNNING, 8)])
        self.assertEqual(texts(timeline), ["runs at priority", "8", "3"])
        root, bottom = drawn(timeline)
        colours = colours_of([8, 3])
        self.assertEqual([[rect["fill"] for rect in icon(root, words)] for words in ("8", "3")], [[colours[8][0]], [colours[3][0]]])
        self.assertEqual(bottom, 150)  # what follows has a line of its own

    def test_colours_are_those_of_the_whole_run(self) -> None:
        timeline = seen([Span(0, 5, State.RUNNING, 3)], scale=[8, 3, 1])
        self.assertEqual(texts(timeline), ["runs at priority", "3"])
        self.assertEqual([rect["fill"] for rect in icon(drawn(timeline)[0], "3")], [colours_of([8, 3, 1])[3][0]])

    def test_of_more_than_24_priorities_every_other_one(self) -> None:
        for count, told in ((24, [str(priority) for priority in range(24, 0, -1)]),
                            (25, [*(str(priority) for priority in range(25, 0, -2)), "and between"]),
                            (49, [*(str(priority) for priority in range(49, 0, -3)), "and between"])):
            self.assertEqual(texts(seen([Span(at, at + 1, State.RUNNING, at + 1) for at in range(count)])), ["runs at priority", *told])

    def test_states(self) -> None:
        ready, off, low = Span(0, 5, State.READY, 3), Span(5, 9, State.OFF), Span(9, 12, State.RUNNING, 2, high=False)
        self.assertEqual(texts(seen([ready])), ["ready"])
        self.assertEqual(texts(seen([off])), ["not running, no more is told"])
        self.assertEqual(texts(seen([low, off, ready])), ["runs at priority", "2", "the server's low priority", "ready", "not running, no more is told"])
        self.assertEqual(texts(seen([Span(9, 12, State.RUNNING, 2, high=True)])), ["runs at priority", "2"])
        root = drawn(seen([low, off, ready]))[0]
        self.assertEqual([shape["fill"] for shape in icon(root, "the server's low priority")], ["#7a8aa8", "url(#low)"])
        self.assertEqual([shape["fill"] for shape in icon(root, "ready")], ["#ffffff"])
        self.assertEqual([shape["stroke-dasharray"] for shape in icon(root, "not running, no more is told")], ["2 4"])

    def test_each_kind_of_wait_has_its_words_and_its_colour(self) -> None:
        words = {"mutex": "waits for a mutex", "condition": "waits for a condition", "semaphore": "waits for a semaphore", "queue": "waits for a queue",
                 "signal": "waits for a signal", "sleep": "sleeps", "join": "joins", "": "waits"}
        self.assertEqual(set(words), set(COLOURS))
        timeline = seen([Span(at, at + 1, State.WAITING, kind=kind) for at, kind in enumerate([*words, "mutex"])])
        self.assertEqual(texts(timeline), list(words.values()))
        root = drawn(timeline, width=200)[0]
        for kind, told in words.items():
            box, line = icon(root, told)
            self.assertEqual((box["fill"], line["stroke"], line["stroke-dasharray"]), (COLOURS[kind], COLOURS[kind], "2 2"))

    def test_handlers(self) -> None:
        signal, cleanup = Span(0, 5, State.RUNNING, 3, frame="h"), Span(5, 9, State.READY, 3, frame="u", cleanup=True)
        for spans, told in (([signal], ["in a signal handler"]), ([cleanup], ["in a cleanup handler"]), ([cleanup, signal], ["in a signal handler", "in a cleanup handler"])):
            self.assertEqual([text for text in texts(seen(spans)) if text.startswith("in a")], told)
        root = drawn(seen([cleanup, signal]))[0]
        self.assertEqual([icon(root, f"in a {what} handler")[-1]["fill"] for what in ("signal", "cleanup")], [HANDLER, CLEANUP])

    def test_owners(self) -> None:
        for waiting, told in (([0], ["owner of a mutex"]), ([2], ["others wait for it"]), ([1, 0], ["owner of a mutex", "others wait for it"]), ([], [])):
            self.assertEqual(texts(seen([], mutexes=[Owned("m", [(at, at + 1, "a", others) for at, others in enumerate(waiting)])])), told)
        root = drawn(seen([], mutexes=[Owned("m", [(0, 1, "a", 0)]), Owned("n", [(1, 2, "a", 1)])]))[0]
        self.assertEqual([icon(root, words)[0]["fill"] for words in ("owner of a mutex", "others wait for it")], [OWNER, CONTENDED])

    def test_marks_in_the_order_in_which_they_are_told(self) -> None:
        marks = [Mark(1, kind, "", 0) for kind in (MarkKind.LATE, MarkKind.EXIT, MarkKind.START, MarkKind.EXIT)]
        root = drawn(seen([], marks))[0]
        self.assertEqual([text.text for text in root.iter(f"{SVG}text")], [WHAT[kind] for kind in (MarkKind.START, MarkKind.EXIT, MarkKind.LATE)])
        self.assertEqual([path.get("class") for path in root.iter(f"{SVG}path") if path.get("class")], ["mark start", "mark exit", "mark late"])

    def test_what_killed_it(self) -> None:
        """An upright red line, as the one in the picture, in the middle of a mark's room, behind the marks."""
        timeline = seen([], [Mark(1, MarkKind.EXIT, "", 0)], Killed(40, "rt1"))
        self.assertEqual(texts(timeline), ["exit", "rt1 kills the process"])
        root = drawn(timeline)[0]
        text = next(text for text in root.iter(f"{SVG}text") if text.text == "rt1 kills the process")
        (line,) = icon(root, text.text)
        self.assertEqual((line["stroke"], line["stroke-width"]), ("#c21f1f", "2"))
        self.assertEqual([float(line[name]) for name in ("x1", "x2", "y1", "y2")], [float(text.get("x")) - 9] * 2 + [float(text.get("y")) + y for y in (-10, 1)])

    def test_servers_and_cuts_and_wakes(self) -> None:
        server = seen([])
        server.threads[0].capacity = [Capacity(0, 5, 3, False)]
        self.assertEqual(texts(server), ["blue line: the server's capacity; dashed arrow: from a plan to its due tick"])
        cut = Axis([*range(11), *range(1000, 1011)], 50, 200, 20, 6)
        self.assertEqual(texts(seen([]), cut), ["torn band: nothing happens there, and the axis is cut"])
        for count, told in ((33, "grey arrow: who wakes whom"), (34, "who wakes whom is not drawn, since it is too much")):
            self.assertEqual(texts(seen([], wakes=[Wake(1, "a", "a", "unlock")] * count)), [told])  # each takes 12 of 400

    def test_columns_of_what_stands_close(self) -> None:
        """201 stretches of a tick, which is 1.9 wide: too narrow to be told apart."""
        axis = Axis([0, 201], 100, 400, 34, 6)
        spans = [Span(at, at + 1, State.RUNNING, 3) for at in range(201)]
        told = "heights: how much of each small column a thread runs (in its colour), is ready (pale), waits (grey)"
        self.assertEqual(texts(seen(spans), axis)[2:], [told])
        self.assertEqual(texts(seen(spans, mutexes=[Owned("m", [])]), axis)[2:], [f"{told}, or a mutex is owned"])
        self.assertEqual(texts(seen(spans[:200]), axis)[2:], [])
        bars = [(at, at + 1, "a", 0) for at in range(201)]
        self.assertEqual(texts(seen([], mutexes=[Owned("m", bars)]), axis), ["owner of a mutex", "heights: how much of each small column a mutex is owned"])
        self.assertEqual(texts(seen([], mutexes=[Owned("m", bars[:200])]), axis), ["owner of a mutex"])


    def test_one_of_several_threads_is_enough(self) -> None:
        timeline = seen([Span(at, at + 1, State.RUNNING, 3) for at in range(201)])
        timeline.threads += [ThreadLine("b"), ThreadLine("s", capacity=[Capacity(0, 5, 3, False)])]
        self.assertEqual([text.split(":")[0] for text in texts(timeline, Axis([0, 201], 100, 400, 34, 6))[2:]], ["heights", "blue line"])

    def test_each_icon_stands_before_its_words(self) -> None:
        """Boxes of 20 begin 24 before them, those of a priority 14, and marks round 9 before them; all within 11 above the line and a little below it."""
        spans = [Span(0, 1, State.READY), Span(1, 2, State.OFF), Span(2, 3, State.RUNNING, 3, high=False, frame="h"), Span(3, 4, State.WAITING)]
        root = drawn(seen(spans, [Mark(1, MarkKind.EXIT, "", 0)], mutexes=[Owned("m", [(0, 1, "a", 0)])]))[0]
        for words in ("3", "ready", "not running, no more is told", "the server's low priority", "in a signal handler", "waits", "owner of a mutex"):
            text = next(text for text in root.iter(f"{SVG}text") if text.text == words)
            for shape in icon(root, words):
                self.assertEqual(float(shape.get("x", shape.get("x1"))), float(text.get("x")) - (14 if words == "3" else 24), words)
                self.assertEqual(float(shape.get("width", 0)) or float(shape.get("x2")) - float(shape.get("x1")), 11 if words == "3" else 20, words)
                top = float(shape.get("y", shape.get("y1"))) - float(text.get("y"))
                self.assertTrue(-10 <= top <= 0 and top + float(shape.get("height", 0)) <= 1, (words, shape))
        text = next(text for text in root.iter(f"{SVG}text") if text.text == "exit")
        x, y = float(text.get("x")), float(text.get("y"))
        self.assertEqual(next(path.get("d") for path in root.iter(f"{SVG}path") if path.get("class") == "mark exit"),
                         f"M{x - 13:g},{y - 8:g}H{x - 5:g}V{y:g}H{x - 13:g}Z")


class Lines(unittest.TestCase):
    def test_an_item_without_room_stands_on_the_next_line(self) -> None:
        """`waits for a mutex` takes 24 + 17 * 6 + 14 from 8 on, up to 148, and `ready` before it 24 + 5 * 6 + 14."""
        spans = [Span(0, 5, State.READY), Span(5, 9, State.WAITING, kind="mutex")]
        for width, places in ((216, [(32, 120), (100, 120)]), (215, [(32, 120), (32, 138)])):
            root, bottom = drawn(seen(spans), width=width)
            self.assertEqual([(float(text.get("x")), float(text.get("y"))) for text in root.iter(f"{SVG}text")], places)
            self.assertEqual(bottom, places[-1][1] + 12)

    def test_no_item_reaches_beyond_the_picture(self) -> None:
        spans = [Span(at, at + 1, State.WAITING, kind=kind) for at, kind in enumerate(COLOURS)]
        marks = [Mark(1, kind, "", 0) for kind in MarkKind]
        for width in (200, 300, 560):
            for text in drawn(seen(spans, marks), width=width)[0].iter(f"{SVG}text"):
                self.assertLessEqual(float(text.get("x")) + 6 * len(text.text), width, text.text)


if __name__ == "__main__":
    unittest.main()
