"""Each format against the same worked figures: how many stretches, who ran at which tick, capacities at each tick."""
from __future__ import annotations

import json
import re
import tempfile
import unittest
import xml.etree.ElementTree as ElementTree
from decimal import Decimal
from pathlib import Path

from view.main import FORMATS, WIDE, command_of, drawer

from .readers import needs, run, through_fst
from .worked import (
    CONTROLLER, CONTROLLER_CAPACITY, CONTROLLER_RUNS, CONTROLLER_WAITS, SLEEPS, SLEEPS_RUNS, TWO_BUDGETS,
    TWO_BUDGETS_CAPACITY, TWO_BUDGETS_RUNS, all_worked, joined, text_of, timeline, view)

SVG = "{http://www.w3.org/2000/svg}"

# Drawn by hand from the trace: A is 9, B is 8; s starts at 2 and has its events at 2, 12 and 15.
TWO_BUDGETS_TEXT = """\
ticks 0 to 17, a column is one tick; idle for 0
tick 0         10
     |.........|.......
s      -------BBBBBBBB
       >         !  !
       ^         p  p
                 +
                 ^
h    AAAAAAAAA
     >        x

priority: A 9, B 8
- ready
marks: > start, x exit, ^ activate, ! exhaust, p plan, + refill
"""


def shown(name: str, form: str, *words: str) -> str:
    """What the command writes of a worked trace, without a process for each of them."""
    said = command_of([form, *words])
    seen = timeline(name)
    return drawer(form)(seen, said.width) if form in WIDE else drawer(form)(seen)


class Text(unittest.TestCase):
    def test_a_picture_drawn_by_hand(self) -> None:
        self.assertEqual(view(["text"], text_of(TWO_BUDGETS)).stdout.decode(), TWO_BUDGETS_TEXT)

    def test_an_owner_that_is_not_shown(self) -> None:
        script = str(Path(__file__).resolve().parents[3] / "examples" / "05_inherit.task")
        told = view(["text", script, "--threads", "high"], b"").stdout.decode()
        self.assertIn("\nowners: 1 high, + a thread that is not shown\n", told)
        self.assertRegex(told, r"\ndata +\+{8}1+\n")

    def test_who_ran_at_which_tick(self) -> None:
        rows = {line[:5].strip(): line[5:] for line in shown(CONTROLLER, "text").splitlines() if line[:1].isalpha()}
        letters = {30: "A", 20: "B", 10: "C"}
        for start, end, name, priority in CONTROLLER_RUNS:
            self.assertEqual(rows[name][start:end], letters[priority] * (end - start))
        drawn = sum(rows[name].count(letter) for name in ("ctl", "srv", "mon") for letter in "ABC")
        self.assertEqual(drawn, 44 - 13)
        self.assertEqual(rows["idle"][7:20], "i" * 13)
        for name, start, end, _ in CONTROLLER_WAITS:
            self.assertEqual(rows[name][start:end], "." * (end - start))

    def test_no_line_is_wider_than_asked(self) -> None:
        for name in all_worked():
            for width in (60, 100, 200):
                for line in shown(name, "text", "--width", str(width)).splitlines():
                    if line.startswith(("//", "- ready", "ticks", "priority", "marks")):
                        continue
                    self.assertLessEqual(len(line), width, (name, line))

    def test_the_greatest_horizon_is_cut_and_says_so(self) -> None:
        text = shown(SLEEPS, "text")
        self.assertEqual(text.count("// the axis is cut: nothing happens from"), 3)
        self.assertIn("from 3 to 500000000000000000, 499999999999999997 ticks", text)


def read_svg(name: str) -> ElementTree.Element:
    return ElementTree.fromstring(shown(name, "svg"))


def run_rects(root: ElementTree.Element) -> list[tuple[int, int, str, int, float, float]]:
    """The coloured stretches: from, to, who and the priority by their titles, and their left and right."""
    rects = []
    for rect in root.iter(f"{SVG}rect"):
        if rect.get("class") == "run":
            said = re.match(r"(\w+) runs at priority (\d+) for \d+ ticks \[(\d+), (\d+)\)", rect.find(f"{SVG}title").text)
            left = float(rect.get("x"))
            rects.append((int(said[3]), int(said[4]), said[1], int(said[2]), left, left + float(rect.get("width"))))
    return rects


class Svg(unittest.TestCase):
    def test_how_many_stretches_and_who_ran(self) -> None:
        for name, wanted in ((CONTROLLER, CONTROLLER_RUNS), (TWO_BUDGETS, TWO_BUDGETS_RUNS), (SLEEPS, SLEEPS_RUNS)):
            self.assertEqual(joined([rect[:4] for rect in run_rects(read_svg(name))]), wanted)

    def test_stretches_stand_at_their_ticks(self) -> None:
        rects = run_rects(read_svg(CONTROLLER))
        first, last = min(rects), max(rects)
        scale = (last[5] - first[4]) / (last[1] - first[0])
        for start, end, _, _, left, right in rects:
            self.assertAlmostEqual(left, first[4] + start * scale, delta=0.1)
            self.assertAlmostEqual(right, first[4] + end * scale, delta=0.1)

    def test_waits(self) -> None:
        titles = [rect.find(f"{SVG}title").text for rect in read_svg(CONTROLLER).iter(f"{SVG}rect") if rect.get("class") == "wait"]
        self.assertEqual(titles, [f"{name} waits in {call} for {end - start} ticks [{start}, {end})"
                                  for name, start, end, call in CONTROLLER_WAITS])

    def test_capacity_at_each_tick(self) -> None:
        for name, wanted in ((CONTROLLER, CONTROLLER_CAPACITY), (TWO_BUDGETS, TWO_BUDGETS_CAPACITY)):
            root = read_svg(name)
            rects = run_rects(root)
            scale = (max(rects)[5] - min(rects)[4]) / (max(rects)[1] - min(rects)[0])
            path = next(path for path in root.iter(f"{SVG}path") if path.get("class") == "capacity")
            points = [tuple(map(float, point.split(","))) for point in re.split("[ML]", path.get("d"))[1:]]
            base, top = max(y for _, y in points), min(y for _, y in points)
            unit = (base - top) / max(wanted.values())
            for tick, capacity in wanted.items():
                place = min(rects)[4] + (tick + 0.5) * scale
                before = [y for x, y in points if x <= place][-1]
                self.assertAlmostEqual(before, base - capacity * unit, delta=0.6, msg=f"{name} at {tick}")

    def test_arrows_and_marks(self) -> None:
        kinds = [path.get("class") for path in read_svg(TWO_BUDGETS).iter(f"{SVG}path")]
        self.assertEqual(kinds.count("arrow"), 1)  # The plan at 12 is due at 12: it has no arrow.
        self.assertEqual(kinds.count("mark exhaust"), 2 + 1)  # One more stands in the legend.
        self.assertEqual(kinds.count("mark activate"), 2 + 1)
        self.assertEqual(kinds.count("mark plan"), 2 + 1)
        self.assertEqual(kinds.count("mark refill"), 1 + 1)

    def test_the_axis_is_cut_where_nothing_happens(self) -> None:
        root = read_svg(SLEEPS)
        self.assertEqual(sum(rect.get("class") == "cut" for rect in root.iter(f"{SVG}rect")), 3)
        self.assertGreaterEqual(min(right - left for *_, left, right in run_rects(root)), 20)
        self.assertEqual(sum(rect.get("class") == "cut" for rect in read_svg(CONTROLLER).iter(f"{SVG}rect")), 0)

    def test_every_worked_trace_is_well_formed_and_rendered(self) -> None:
        renderer = needs("the SVG in a renderer", "rsvg-convert", "cairosvg")
        with tempfile.TemporaryDirectory() as folder:
            for name in all_worked():
                picture = shown(name, "svg")
                root = ElementTree.fromstring(picture)
                self.assertLessEqual(float(root.get("width")), 1600, name)
                file = Path(folder) / "t.svg"
                file.write_text(picture)
                ended = run([renderer, str(file), "-o", f"{folder}/t.png"])
                self.assertEqual((ended.returncode, ended.stderr), (0, b""), name)
                self.assertEqual(Path(f"{folder}/t.png").read_bytes()[:4], b"\x89PNG", name)


class Dump:
    """A value change dump, read: the value of each variable from each time on."""

    def __init__(self, text: str) -> None:
        self.codes: dict[str, str] = {}
        self.changes: dict[str, list[tuple[int, str]]] = {}
        scopes: list[str] = []
        head, _, body = text.partition("$enddefinitions $end")
        for words in (line.split() for line in head.splitlines()):
            if words[:1] == ["$scope"]:
                scopes.append(words[2])
            elif words[:1] == ["$upscope"]:
                scopes.pop()
            elif words[:1] == ["$var"]:
                self.codes[words[3]] = ".".join(scopes[1:] + [words[4]])
        time = 0
        for line in body.splitlines():
            if line.startswith("#"):
                time = int(line[1:])
            elif line[:1] in ("b", "s"):
                value, code = line[1:].split()
                self.changes.setdefault(self.codes[code], []).append((time, value))

    def at(self, name: str, time: int) -> str:
        return [value for since, value in self.changes[name] if since <= time][-1]

    def number(self, name: str, time: int) -> int | None:
        value = self.at(name, time)
        return None if set(value) == {"x"} else int(value, 2)


class Vcd(unittest.TestCase):
    def check(self, dump: Dump, runs: list[tuple[int, int, str, int]]) -> None:
        for start, end, name, priority in runs:
            for tick in {start, (start + end) // 2, end - 1}:
                self.assertEqual(dump.at("processor", tick), name)
                self.assertEqual(dump.at(f"{name}.state", tick), "running")
                self.assertEqual(dump.number(f"{name}.priority", tick), priority)

    def check_controller(self, text: str) -> None:
        dump = Dump(text)
        self.check(dump, CONTROLLER_RUNS)
        self.assertEqual(dump.at("processor", 7), "idle")
        for tick, capacity in CONTROLLER_CAPACITY.items():
            self.assertEqual(dump.number("srv.capacity", tick), capacity, tick)
        for name, start, end, _ in CONTROLLER_WAITS:
            self.assertEqual({dump.at(f"{name}.state", tick) for tick in (start, end - 1)}, {"waiting"})
        self.assertEqual(dump.at("mon.state", 2), "dormant")
        self.assertEqual(dump.number("mon.priority", 2), 0)

    def test_the_dump_as_it_is_written(self) -> None:
        self.check_controller(shown(CONTROLLER, "vcd"))
        self.check(Dump(shown(SLEEPS, "vcd")), SLEEPS_RUNS)
        self.assertEqual(shown(SLEEPS, "vcd").splitlines()[-1], f"#{10**18}")

    def test_no_value_is_unknown(self) -> None:
        for name in all_worked():
            self.assertNotRegex(shown(name, "vcd"), r"(?m)^bx", name)

    def test_the_dump_as_gtkwave_reads_it(self) -> None:
        with tempfile.TemporaryDirectory() as folder:
            self.check_controller(through_fst(shown(CONTROLLER, "vcd").encode(), Path(folder)))
            self.check(Dump(through_fst(shown(SLEEPS, "vcd").encode(), Path(folder))), SLEEPS_RUNS)

    def test_gtkwave_reads_every_worked_trace(self) -> None:
        with tempfile.TemporaryDirectory() as folder:
            for name in all_worked():
                through_fst(shown(name, "vcd").encode(), Path(folder))

    def test_the_length_of_a_tick(self) -> None:
        for tick, scale, last in (("1us", "1 us", 44), ("250ns", "10 ns", 44 * 25), ("20ms", "10 ms", 88)):
            seen = timeline(CONTROLLER)
            seen.tick = tick
            text = drawer("vcd")(seen)
            self.assertIn(f"$timescale {scale} $end", text)
            self.assertEqual(text.splitlines()[-1], f"#{last}")


class Perfetto(unittest.TestCase):
    FIELDS = {"X": {"ph", "pid", "tid", "ts", "dur", "name", "cat"}, "i": {"ph", "s", "pid", "tid", "ts", "name"},
              "s": {"ph", "pid", "tid", "ts", "id", "cat", "name"}, "f": {"ph", "pid", "tid", "ts", "id", "cat", "name", "bp"},
              "C": {"ph", "pid", "ts", "name", "args"}, "M": {"ph", "pid", "tid", "name", "args"}}

    @staticmethod
    def events(name: str) -> list[dict]:
        return json.loads(shown(name, "perfetto"), parse_float=Decimal)["traceEvents"]

    @staticmethod
    def runs(events: list[dict]) -> list[tuple[int, int, str, int]]:
        names = {event["tid"]: event["args"]["name"] for event in events if event["name"] == "thread_name"}
        return joined([(int(e["ts"] * 1000), int((e["ts"] + e["dur"]) * 1000), names[e["tid"]], e["args"]["priority"])
                       for e in events if e["ph"] == "X" and e["cat"] == "running"])

    def test_who_ran(self) -> None:
        for name, wanted in ((CONTROLLER, CONTROLLER_RUNS), (TWO_BUDGETS, TWO_BUDGETS_RUNS), (SLEEPS, SLEEPS_RUNS)):
            self.assertEqual(self.runs(self.events(name)), wanted)

    def test_counters_are_capacities(self) -> None:
        for name, wanted in ((CONTROLLER, CONTROLLER_CAPACITY), (TWO_BUDGETS, TWO_BUDGETS_CAPACITY)):
            told = [(int(e["ts"] * 1000), e["args"]["ticks"]) for e in self.events(name) if e["ph"] == "C"]
            for tick, capacity in wanted.items():
                self.assertEqual([value for time, value in told if time <= tick][-1], capacity, (name, tick))

    def test_the_processor_has_a_track(self) -> None:
        runs = [(int(e["ts"] * 1000), int((e["ts"] + e["dur"]) * 1000), e["name"]) for e in self.events(CONTROLLER)
                if e["ph"] == "X" and e["tid"] == 0]
        self.assertEqual(sorted(runs), [(start, end, name) for start, end, name, _ in CONTROLLER_RUNS])

    def test_events_are_instants_and_fields_are_the_formats(self) -> None:
        for name in all_worked():
            events = self.events(name)
            for event in events:
                self.assertLessEqual(self.FIELDS[event["ph"]], set(event), event)
            lines = [line for line in text_of(name).decode().splitlines()
                     if line.split()[1] not in ("dispatch", "idle", "end", "killed") and not line.startswith("thread")]
            told = [event["args"]["line"] for event in events if event["ph"] == "i" and event["s"] == "t"]
            self.assertEqual(sorted(told), sorted(lines), name)


class Html(unittest.TestCase):
    def test_the_page_needs_no_network(self) -> None:
        page = shown(CONTROLLER, "html")
        self.assertNotRegex(page, r"(?i)(src|href)\s*=\s*[\"']?(https?:)?//")
        self.assertNotIn("@import", page)

    def test_the_data_of_the_page(self) -> None:
        for name in all_worked():
            page = shown(name, "html")
            data = json.loads(re.search(r'id="data">(.*?)</script>', page, re.S)[1])
            runs = joined([(int(data["ticks"][span[0]]), int(data["ticks"][span[1]]), thread["name"], span[3])
                           for thread in data["threads"] for span in thread["spans"] if span[2] == 0])
            self.assertEqual(runs, Perfetto.runs(Perfetto.events(name)), name)


class Large(unittest.TestCase):
    def test_many_threads_and_lines(self) -> None:
        """Sixty-four threads over two hundred thousand lines: each format has an end and the picture is not larger than a viewer takes."""
        lines, time = [f"0 start t{n}" for n in range(64)], 0
        for turn in range(100_000):
            lines.append(f"{time} dispatch t{turn % 64} {1 + turn % 255}")
            time += 1 + turn % 5
            lines.append(f"{time} return t{turn % 64} yield 0 0")
        trace = ("\n".join(lines) + f"\n{time} end\n").encode()
        for form in FORMATS:
            ended = view([form], trace)
            self.assertEqual(ended.returncode, 0, ended.stderr)
            if form == "svg":
                self.assertLess(len(ended.stdout), 12_000_000)
                texts = ["".join(e.itertext()) for e in ElementTree.fromstring(ended.stdout).iter(f"{SVG}text")]
                self.assertEqual(len([text for text in texts if re.match(r"t\d+: ran for", text)]), 64)


if __name__ == "__main__":
    unittest.main()
