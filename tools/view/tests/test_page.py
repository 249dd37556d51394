"""The page in a real browser: the cursors, the facts, the search, zooming, fingers, narrow windows and the dark mode.

With PSE52_SHOTS in the environment, the name of a folder, it keeps what the browser shows there as pictures to be looked at.
"""
from __future__ import annotations

import os
import tempfile
import unittest
from pathlib import Path

from view.lines import read_trace
from view.main import drawer
from view.seen import timeline_of

from .details import detail_of
from .readers import browser
from .worked import CONTROLLER, SLEEPS, TOP, WORKED, timeline

# Moves a mouse over ticks, holds the cursor, steps by keys, zooms by the wheel and pans by a drag.
HELPERS = """
const show = () => document.getElementById("tick").textContent + " " + document.getElementById("who").textContent;
const pointer = (kind, x, more = {}) => { const box = canvas.getBoundingClientRect();
  canvas.dispatchEvent(new PointerEvent(kind, { pointerId: 1, pointerType: "mouse", clientX: box.left + x, clientY: box.top + 60, bubbles: true, ...more })); };
const over = (tick) => { pointer("pointermove", xOf(placeOfTick(BigInt(tick))) + 2); return show(); };
const click = (tick, more) => { const x = xOf(placeOfTick(BigInt(tick))) + 2; pointer("pointerdown", x, more); pointer("pointerup", x, more); return show(); };
const key = (name) => { window.dispatchEvent(new KeyboardEvent("keydown", { key: name, bubbles: true })); return show(); };
const lines = (id) => [...document.querySelectorAll(id + " li")].map((li) => li.textContent);
"""
OVER = {
    0: "0 · ctl runs at priority 30, from 0 to 5", 5: "5 · srv runs at priority 20, from 5 to 6", 7: "7 · idle", 19: "19 · idle",
    24: "24 · ctl runs at priority 30, from 24 to 25", 27: "27 · mon runs at priority 30, from 25 to 29",
    36: "36 · srv runs at priority 20, from 35 to 40", 43: "43 · mon runs at priority 10, from 43 to 44"}


def contrast(one: str, other: str) -> float:
    """How much a colour stands out from another one, by the measure of the WCAG."""
    def light(colour: str) -> float:
        digits = colour[1:] if len(colour) == 7 else "".join(2 * digit for digit in colour[1:])
        parts = [int(digits[at:at + 2], 16) / 255 for at in (0, 2, 4)]
        red, green, blue = (part / 12.92 if part <= 0.03928 else ((part + 0.055) / 1.055) ** 2.4 for part in parts)
        return 0.2126 * red + 0.7152 * green + 0.0722 * blue
    least, most = sorted((light(one), light(other)))
    return (most + 0.05) / (least + 0.05)


class Page(unittest.TestCase):
    def setUp(self) -> None:
        holder = tempfile.TemporaryDirectory(ignore_cleanup_errors=True)
        self.addCleanup(holder.cleanup)
        self.folder = Path(holder.name)
        self.driver = browser(1300, 800)
        self.addCleanup(self.driver.quit)
        self.addCleanup(self.no_complaint)

    def no_complaint(self) -> None:
        self.assertEqual(self.driver.get_log("browser"), [])

    def open(self, page: str) -> None:
        file = self.folder / "page.html"
        file.write_text(page.replace("</body>", f"<script>{HELPERS}</script></body>"))
        self.driver.get(file.as_uri())

    def detail(self, name: str) -> None:
        script = (WORKED / f"{name}.task").read_bytes()
        horizon = int((WORKED / f"{name}.horizon").read_text())
        self.open(drawer("html")(timeline_of(read_trace(detail_of(script, horizon).splitlines(keepends=True)))))

    def does(self, script: str, *words: object) -> object:
        return self.driver.execute_script(f"return {script}", *words)

    def shot(self, name: str) -> None:
        if "PSE52_SHOTS" in os.environ:
            self.driver.save_screenshot(str(Path(os.environ["PSE52_SHOTS"]) / f"{name}.png"))

    def test_rows_that_have_no_room_are_counted(self) -> None:
        """At the lower edge, up to the last of them."""
        script = "".join(f"thread t{number} fifo {number} at 0\nrun 2\nend\n" for number in range(1, 61))
        self.open(drawer("html")(timeline_of(read_trace(detail_of(script.encode(), 20).splitlines(keepends=True)))))
        told = """(() => { const said = []; pen.fillText = (text) => said.push(text); draw(); delete pen.fillText; return said.filter((text) => text.endsWith("more")); })()"""
        seen = int(self.does("Math.floor((height - 18 - AXIS - 6) / ROW(0))"))
        self.assertEqual(self.does(told), [f"▼ {60 - seen} more"])
        self.does("goUp(1e6)")
        self.assertRegex(" ".join(self.does(told)), r"^▲ \d+ more$")

    def test_the_cursor(self) -> None:
        self.open(drawer("html")(timeline(CONTROLLER)))
        for tick, wanted in OVER.items():
            self.assertEqual(self.does(f"over({tick})"), wanted)
        self.does("over(24)")
        self.assertEqual(self.does('[...document.querySelectorAll("#list li.now")].map((li) => li.textContent)'),
                         ["24 deliver ctl rt5 TIMER 0", "24 return ctl sigwaitinfo 0 5", "24 dispatch ctl 30"])
        self.assertEqual(self.does('(over(1), lines("#states"))[2]'), "mon has not started")
        self.assertEqual(self.does('(over(38), lines("#states"))[1]'), "srv runs at priority 20, capacity 2")
        self.assertEqual(self.does('key("ArrowRight")')[:2], "39")
        self.assertEqual([self.does(f'key("{name}")')[:2] for name in ("ArrowLeft", "ArrowLeft", "n", "p")], ["38", "37", "40", "36"])

    def test_of_too_many_marks_each_kind_has_some(self) -> None:
        """A server that runs once in ten ticks is activated and exhausted 400 times, and starts and ends once."""
        script = "thread s sporadic 9 2 10 2 4 at 0\nloop 400\nrun 3\nnanosleep 6\nend\nend\n"
        self.open(drawer("html")(timeline_of(read_trace(detail_of(script.encode(), 5000).splitlines(keepends=True)))))
        kinds = "[...new Set(%s)].filter((kind) => kind in SHAPES).sort().join()"
        shown = self.does(kinds % "marksInSight(data.threads[0]).map((mark) => mark.kind)")
        self.assertEqual(shown, self.does(kinds % "data.threads[0].marks.map((mark) => mark[1])"))
        self.assertIn("exhaust", str(shown))
        self.assertLess(self.does("marksInSight(data.threads[0]).length * 8"), self.does("width - gutter"))
        self.shot("dense_marks")

    def test_labels_can_be_read(self) -> None:
        """The colours of labels stand out by 4.5 from the paper and from the band of the cursor, by the measure of the WCAG, light and dark."""
        self.detail(CONTROLLER)
        for dark in ("false", "true"):
            self.does(f"setDark({dark})")
            colours = dict(self.does("Object.entries(look).filter(([name]) => name !== 'dark')"))
            for name in ("violet", "red", "teal", "ink"):
                for ground in ("paper", "now"):
                    self.assertGreaterEqual(contrast(colours[name], colours[ground]), 4.5, (dark, name, ground))

    def test_the_events_of_the_cursor_stand_near_the_top(self) -> None:
        self.open(drawer("html")(timeline(CONTROLLER)))
        self.does("over(24)")
        lines = self.does('lines("#list")')
        self.assertTrue(lines[3].startswith("24 "), lines[:6])
        self.assertFalse(lines[2].startswith("24 "), lines[:6])

    def test_a_long_name_keeps_to_its_column(self) -> None:
        name = "thread_with_the_longest_name_abc"
        self.open(drawer("html")(timeline_of(read_trace(detail_of(f"thread {name} fifo 5 at 0\nrun 3\nend\n".encode(), 9).splitlines(keepends=True)))))
        shown, wide = self.does(f'(() => {{ const said = fitted("{name}", 12, "bold"); return [said, 8 + pen.measureText(said).width - gutter]; }})()')
        self.assertRegex(shown, "^thread_.*….*_abc$")
        self.assertLess(wide, 0)
        self.assertEqual(self.does('fitted("short", 12, "bold")'), "short")
        self.assertTrue(self.does("document.querySelector('aside').scrollWidth <= document.querySelector('aside').clientWidth"))

    def test_a_short_name_stands_whole(self) -> None:
        self.open(drawer("html")(timeline_of(read_trace(detail_of(b"thread medium fifo 5 at 0\nrun 3\nend\n", 9).splitlines(keepends=True)))))
        self.assertEqual(self.does('fitted("medium", 12, "bold")'), "medium")

    def test_a_label_keeps_clear_of_the_next_mark(self) -> None:
        """The exit stands a tick behind the error, so that the label of the error stands in front of it."""
        script = "sem go 0\nthread a fifo 5 at 0\nrun 6\nsem_trywait go\nend\n"
        self.open(drawer("html")(timeline_of(read_trace(detail_of(script.encode(), 60).splitlines(keepends=True)))))
        sides = self.does("""(() => { const said = [], plain = write; write = (...words) => { said.push(words); plain(...words); };
            draw(); write = plain; return said.filter(([text]) => text === "EAGAIN").map((words) => words[5]); })()""")
        self.assertEqual(sides, ["right"])

    def test_a_label_stands_beside_a_cut(self) -> None:
        """The cut is in the middle of the sleep, and would cover its label."""
        script = "thread a fifo 5 at 0\nrun 3\nnanosleep 3000\nrun 2\nend\n"
        self.open(drawer("html")(timeline_of(read_trace(detail_of(script.encode(), 3010).splitlines(keepends=True)))))
        places = self.does("""(() => { const said = [], plain = write; write = (...words) => { said.push(words); plain(...words); };
            draw(); write = plain; return said.filter(([text]) => text === "sleep").map((words) => words[1]); })()""")
        self.assertEqual(len(places), 1)
        self.assertEqual(self.does(f"data.cuts.filter((point) => xOf(places[point]) <= {places[0]} && {places[0]} <= xOf(places[point + 1]))"), [])

    def test_a_title_that_is_a_place_of_the_page(self) -> None:
        run = timeline(CONTROLLER)
        run.title = "@DATA@ @SCRIPT@"
        self.open(drawer("html")(run))
        self.assertIn("@DATA@ @SCRIPT@", self.does("document.getElementById('title').textContent"))

    def test_who_is_joined(self) -> None:
        script = "thread a fifo 5 at 0\njoin b\nend\nthread b fifo 4 at 0\nrun 3\nend\n"
        self.open(drawer("html")(timeline_of(read_trace(detail_of(script.encode(), 9).splitlines(keepends=True)))))
        self.does("over(2)")
        self.assertEqual(self.does('lines("#states")')[0], "a waits in join for the thread b")

    def test_holding_and_the_second_cursor(self) -> None:
        self.open(drawer("html")(timeline(CONTROLLER)))
        self.assertEqual(self.does("click(24)")[:2], "24")
        self.assertEqual(self.does("over(36)")[:2], "24")  # A held cursor stays,
        self.does('key("+")'), self.does('key("0")')
        self.does('click(33, { shiftKey: true })')
        self.assertIn("second cursor 33, 9 ticks from here", self.does('document.getElementById("distance").textContent'))
        self.does('click(25, { shiftKey: true })')
        self.assertIn("second cursor 25, 1 tick from here", self.does('document.getElementById("distance").textContent'))
        self.does('key("Escape")')
        self.assertEqual(self.does("over(36)")[:2], "36")  # and Escape lets it go.
        self.assertEqual(self.does('document.getElementById("distance").textContent'), "")
        self.does('key("+")'), self.does('key("0")')
        self.assertEqual(self.does("over(5)")[:2], "5 ")  # Zooming does not hold it.

    def test_a_click_where_the_cursor_is_not_held(self) -> None:
        """It is held there then, whatever held it before, and a second click there lets it go."""
        self.open(drawer("html")(timeline(CONTROLLER)))
        self.does('key("n")')
        for tick in ("24", "30"):
            self.assertEqual(self.does(f"click({tick})")[:2], tick)
            self.assertEqual(self.does("over(36)")[:2], tick)
        self.does("click(30)")
        self.assertEqual(self.does("over(36)")[:2], "36")

    def test_facts_of_an_instant(self) -> None:
        self.detail(CONTROLLER)
        said = self.does('(over(26), lines("#states"))')
        self.assertEqual(said[0], "ctl waits in lock for the mutex bus")
        self.assertEqual(said[2], "mon runs at priority 30")
        self.assertIn("30: mon", said)
        self.assertIn("mutex bus: mon 1", said)
        self.assertIn("waiting for bus: ctl", said)
        self.assertIn("ready at priority", self.does('(over(41), lines("#states"))')[1])
        self.does('key("l")')
        self.shot("lists")

    def test_search(self) -> None:
        self.open(drawer("html")(timeline(CONTROLLER)))
        self.driver.find_element("id", "search").send_keys("exhaust")
        self.assertIn("2 of ", self.does('document.getElementById("found").textContent'))
        self.assertEqual(self.does('lines("#list")'), ["40 exhaust srv", "43 exhaust srv"])
        self.driver.find_element("id", "search").send_keys("\n")
        self.assertEqual(self.does("show()")[:2], "40")
        self.driver.find_element("id", "search").send_keys("\n")
        self.assertEqual(self.does("show()")[:2], "43")

    def test_zooming_and_panning(self) -> None:
        self.open(drawer("html")(timeline(CONTROLLER)))
        moved = self.does("""(() => { const before = scale, x = Math.round(xOf(30)), fixed = placeOf(x), box = canvas.getBoundingClientRect();
            for (let i = 0; i < 4; i++) canvas.dispatchEvent(new WheelEvent("wheel", { deltaY: -200, clientX: box.left + x, clientY: box.top + 60, bubbles: true, cancelable: true }));
            return [scale > 2 * before, Math.abs(placeOf(x) - fixed) * scale < 1]; })()""")
        self.assertEqual(moved, [True, True])
        self.assertTrue(self.does('(() => { const before = left; pointer("pointerdown", 400); pointer("pointermove", 500); pointer("pointerup", 500); '
                                  "return Math.abs((before - left) * scale - 100) < 1; })()"))
        self.assertTrue(self.does('(() => { const before = left; canvas.dispatchEvent(new WheelEvent("wheel", { deltaX: 60, bubbles: true, cancelable: true })); '
                                  "return Math.abs((left - before) * scale - 60) < 1; })()"))
        self.does('key("0")')
        self.assertTrue(self.does('(() => { const before = scale; for (const [id, x] of [[1, 300], [2, 500]]) pointer("pointerdown", x, { pointerId: id, pointerType: "touch" }); '
                                  'pointer("pointermove", 600, { pointerId: 2, pointerType: "touch" }); for (const id of [1, 2]) pointer("pointerup", 600, { pointerId: id, pointerType: "touch" }); '
                                  "return Math.abs(scale / before - 1.5) < 0.01; })()"))
        self.does('document.getElementById("all").click()')
        self.assertEqual(self.does("left"), 0)

    def test_a_tap_holds_a_tick(self) -> None:
        self.open(drawer("html")(timeline(CONTROLLER)))
        self.assertEqual(self.does('click(36, { pointerType: "touch" })')[:2], "36")
        self.assertEqual(self.does("over(5)")[:2], "36")

    def test_narrow_windows_and_the_dark_mode(self) -> None:
        self.detail(CONTROLLER)
        self.shot("wide")
        self.assertLess(self.does("canvas.getBoundingClientRect().bottom"), 800)
        self.does('key("d")')
        self.assertEqual(self.does("getComputedStyle(document.body).backgroundColor"), "rgb(21, 25, 34)")
        self.shot("dark")
        self.driver.set_window_size(500, 800)
        box = self.does("[canvas.clientWidth, document.querySelector('aside').getBoundingClientRect().top >= canvas.getBoundingClientRect().bottom, document.body.scrollWidth <= innerWidth]")
        self.assertGreater(box[0], 440)
        self.assertEqual(box[1:], [True, True])
        self.shot("narrow")
        self.driver.execute_cdp_cmd("Emulation.setDeviceMetricsOverride", {"width": 360, "height": 740, "deviceScaleFactor": 1, "mobile": False})
        self.assertGreaterEqual(self.does("document.getElementById('search').clientWidth"), 110)

    def test_the_legend_and_the_keys(self) -> None:
        self.detail(CONTROLLER)
        legend = self.does('[...document.querySelectorAll("#legend span")].map((span) => span.textContent)')
        for what in ("runs at 30", "ready", "waits for a mutex", "waits for a queue", "sleeps", "owner of a mutex", "others wait for it", "who wakes whom",
                     "start", "activate", "exhaust", "a signal is delivered", "capacity", "plan", "refill, with its amount"):
            self.assertIn(what, legend)
        self.assertEqual(self.does('document.getElementById("keys").hidden'), True)
        self.does('key("?")')
        self.assertEqual(self.does('document.getElementById("keys").hidden'), False)
        self.assertIn("n p", self.does('document.getElementById("keys").innerText'))

    def test_the_greatest_horizon(self) -> None:
        self.open(drawer("html")(timeline(SLEEPS)))
        said = [self.does(f'key("{name}")') for name in ("n", "n", "n", "n", "n", "ArrowRight", "End", "ArrowLeft")]
        self.assertEqual(said[0], "1 · a runs at priority 5, from 1 to 2")
        self.assertEqual(said[4], "500000000000000001 · b runs at priority 6, from 500000000000000001 to 500000000000000002")
        self.assertEqual(said[6], "1000000000000000000 · the run is over")
        self.assertEqual(said[7], "999999999999999999 · c runs at priority 1, from 600000000000000003 to 1000000000000000000")
        self.assertEqual(self.does("data.cuts.length"), 3)

    def test_a_long_run_is_drawn_as_density(self) -> None:
        script = b"quantum 3\nthread a rr 5 at 0\nforever\nrun 90\nend\nend\nthread b rr 5 at 0\nforever\nrun 90\nend\nend\n"
        self.open(drawer("html")(timeline_of(read_trace(detail_of(script, 6000).splitlines(keepends=True)))))
        self.assertTrue(self.does("data.threads.every(isDense)"))
        # Each runs half of the time: half of its bar is coloured at any place.
        share = self.does("""(() => { const x = Math.round(gutter + 100), y = AXIS + 6 + room(0), dots = devicePixelRatio, high = sizes.bar;
            const dots_ = pen.getImageData(x * dots, y * dots, 300 * dots, high * dots).data; let coloured = 0, all = 0;
            for (let i = 0; i < dots_.length; i += 4) { all++; coloured += Math.abs(dots_[i] - dots_[i + 2]) > 60; } return coloured / all; })()""")
        self.assertAlmostEqual(share, 0.5, delta=0.12)
        self.shot("dense")
        self.does('(showAll(), zoom(200, gutter + 300))')
        self.assertFalse(self.does("isDense(data.threads[0])"))

    def test_a_name_that_has_no_room_in_its_bar(self) -> None:
        """12 letters of 5.58 and 6 need 73: behind a bar of 40, or from its beginning on, before the next bar at 120, 100 and 72."""
        self.detail(CONTROLLER)
        for following, where in ((120, [43]), (100, [3]), (72, [])):
            names = self.does("""((next) => { const said = [], plain = write; write = (text, x) => said.push([text, x - gutter]);
                scale = 1; left = 0; places = [0, 40, next, next + 100]; nameOwners([[0, 1, "bbbbbbbbbbbb", 0], [2, 3, "a", 0]], 50);
                write = plain; return said; })(arguments[0])""", following)
            self.assertEqual(names, [*(["bbbbbbbbbbbb", x] for x in where), ["a", following + 50]])

    def test_a_mutex_of_a_long_run(self) -> None:
        """It is owned for 3 of 10 ticks, and so high is its row coloured."""
        script = b"mutex m none\nthread a sporadic 5 4 50 8 4 at 0\nforever\nlock m\nrun 2\nunlock m\nnanosleep 5\nend\nend\n"
        self.open(drawer("html")(timeline_of(read_trace(detail_of(script, 6000).splitlines(keepends=True)))))
        self.assertTrue(self.does("isCrowded(data.mutexes[0].bars)"))
        share = self.does("""(() => { const y = AXIS + 12 + ROW(0), high = sizes.object - 6, dots = pen.getImageData(gutter + 20, y, 600, high).data;
            let count = 0; for (let i = 0; i < dots.length; i += 4) count += dots[i] - dots[i + 2] > 20; return count / (600 * high); })()""")
        self.assertAlmostEqual(share, self.does("data.mutexes[0].bars.reduce((sum, [from, to]) => sum + places[to] - places[from], 0) / total"), delta=0.08)
        self.assertIn("where all stands close: for how much of it a thread runs, is ready, waits", self.does("document.getElementById('legend').textContent"))

    def test_a_process_that_is_killed(self) -> None:
        script = b"timer dog rt1 0\nthread a fifo 5 at 0\ntimer_settime dog rel 4 0\nrun 30\nend\n"
        self.open(drawer("html")(timeline_of(read_trace(detail_of(script, 20).splitlines(keepends=True)))))
        self.assertEqual(self.does('key("End")').split(" ", 1)[1], "· the process is killed by rt1")
        self.assertIn("killed by rt1", self.does("document.getElementById('legend').textContent"))

    def test_the_overview_of_a_long_run(self) -> None:
        self.detail(CONTROLLER)
        self.assertTrue(self.does('element("overview").hidden'))
        script = b"thread a fifo 5 at 0\nloop 300\nrun 4\nnanosleep 5\nend\nnanosleep 3000\nrun 300\nend\n"
        windows = ((300, 2700), (3600, 6000), (6400, 6600))
        ran = lambda tick: int(detail_of(script, tick).split()[-1])  # noqa: E731
        self.open(drawer("html")(timeline_of(read_trace(detail_of(script, 7000).splitlines(keepends=True)))))
        self.assertFalse(self.does('element("overview").hidden'))
        # So high is the strip coloured as the thread has run there, by its ticks up to each instant.
        shares = self.does("""((windows) => { const { width: wide, height: high } = strip, dots = strip.getContext("2d").getImageData(0, 0, wide, high).data;
            return windows.map((ticks) => { const [from, to] = ticks.map((tick) => Math.round(placeOfTick(BigInt(tick)) / total * wide)); let count = 0;
              for (let x = from; x < to; x++) for (let y = 2; y < high - 2; y++) count += Math.abs(dots[4 * (y * wide + x)] - dots[4 * (y * wide + x) + 2]) > 60;
              return count / (to - from) / (high - 4); }); })"""
                           f"({[list(window) for window in windows]})")
        for (start, end), share in zip(windows, shares):
            self.assertAlmostEqual(share, (ran(end) - ran(start)) / (end - start), delta=0.12)
        self.does('(zoom(40, gutter + 10), slider.value = placeOfTick(3000n) / total, slider.dispatchEvent(new Event("input")))')
        self.assertEqual(self.does("tickAt(place).tick.toString()"), "3000")
        self.assertTrue(self.does("xOf(place) > gutter && xOf(place) < width"))
        self.does('key("ArrowRight")')
        self.assertEqual(self.does('slider.getAttribute("aria-valuetext")'), "tick 3001")
        self.shot("overview")

    def test_every_example_opens(self) -> None:
        for file in sorted((TOP / "examples").glob("*.task")):
            horizon = int(file.read_text().split()[2].rstrip(","))
            self.open(drawer("html")(timeline_of(read_trace(detail_of(file.read_bytes(), horizon).splitlines(keepends=True)))))
            self.does('key("l")')
            self.shot(file.stem)


if __name__ == "__main__":
    unittest.main()
