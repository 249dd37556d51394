"""The page in a real browser: typing, the picture, the lists, refusals, a phone."""
from __future__ import annotations

from urllib.parse import quote

from .in_browser import INHERIT, InBrowser
from .waiting import waited


class Page(InBrowser):
    def test_typing_a_script(self) -> None:
        from selenium.webdriver.common.keys import Keys

        self.open()
        self.write("thread a fifo 5 at 0\nrun 3\nend\n")
        self.assertEqual(self.in_frame("data.lines", "a"), ["0 start a", "0 dispatch a 5", "4 exit a", "4 idle", "10 end"])
        self.assertEqual(self.in_frame("data.threads.map((thread) => thread.name)", "a"), ["a"])
        self.assertRegex(self.text("#time"), r"Drawn \d+ ms after the last key\.")
        self.assertIn("Facts: ", self.text("#sources"))
        self.assertGreater(self.does("return document.querySelectorAll('.CodeMirror-linenumber, #plain pre').length"), 0)
        self.press(Keys.ESCAPE)
        self.assertEqual(self.in_frame("document.activeElement.id", "a"), "picture")
        self.shot("typed")

    def test_stepping_and_the_lists(self) -> None:
        from selenium.webdriver.common.keys import Keys

        self.open("#example=05_inherit")
        self.press(Keys.ESCAPE, "n", "n", "n", "n")
        self.assertEqual(self.in_frame("pane.tick().toString()", "a"), "6")
        self.assertEqual(self.table("Ready lists"), ["priority 9 | low", "priority 5 | medium"])
        self.assertEqual(self.table("Who waits"), ["high | in lock for low, the owner of data, since 6"])
        self.assertEqual(self.table("Owners"), ["data | low, waited for by high"])
        self.shot("stepped")
        self.press("p")
        self.assertEqual(self.in_frame("pane.tick().toString()", "a"), "5")
        self.press(Keys.ARROW_RIGHT, Keys.ARROW_RIGHT)
        self.assertEqual(self.in_frame("pane.tick().toString()", "a"), "7")
        self.press(Keys.ARROW_LEFT)
        self.assertEqual(self.in_frame("pane.tick().toString()", "a"), "6")
        self.press("e")
        self.assertTrue(self.does("return document.getElementById('editor').contains(document.activeElement)"))

    def test_budgets(self) -> None:
        self.open("#example=14_two_budgets&cursor=17")
        self.assertEqual(self.in_frame("pane.tick().toString()", "a"), "17")
        self.assertEqual(self.table("Budgets"), ["server | capacity 0, comes back: 3 at 22"])

    def test_rows_of_numbers_are_told_in_words(self) -> None:
        self.open("#cursor=9&script=" + quote("queue q 2 8\ntimer t rt1 3\nthread a fifo 5 at 0\nsigmask block rt1\ntimer_settime t rel 20 6\nmq_notify q rt2 4\n"
                                              "mq_send q 8 1 11\nmq_send q 8 5 12\ntkill a rt1\nsigqueue rt1 9\nrun 9\nend\naction rt2 ignore\n"))
        self.assertEqual(self.table("Semaphores"), ["queue q | 12 of priority 5, 11 of priority 1", "timer t | due at 22, then each 6",
                                                    "pending rt1 | USER with the value 0 for a, QUEUE with the value 9 for the process", "mask of a | rt1"])
        self.does("document.getElementById('a').contentWindow.pane.goTo(3n)")
        self.assertEqual(self.table("Semaphores")[0], "to be notified of q | rt2 with the value 4")

    def test_a_refusal_at_its_line_and_word(self) -> None:
        self.open("#example=05_inherit")
        lines = INHERIT.replace("    run 9\n", "    rum 9\n")
        self.write_at_once(lines)
        number = lines.splitlines().index("    rum 9") + 1
        self.until("return document.querySelectorAll('#faults li').length", 1)
        self.assertIn(f"line {number}, column 5: UnknownWord", self.text("#faults li"))
        self.assertIn("did you mean `run`?", self.text("#faults .mend"))
        if not self.is_plain:
            self.assertEqual(self.text(".CodeMirror .faulty"), "rum")
            self.assertIn("did you mean `run`?", self.text(".CodeMirror .fault-note"))
        else:
            self.assertEqual(self.text("#plain pre b"), str(number))
        self.assertTrue(self.does("return document.body.classList.contains('stale')"))
        self.shot("refused" + "".join(self.words))
        self.does("document.querySelector('#faults li').click()")
        # Enter goes there too, and writes nothing.
        self.does("document.querySelector('#faults li').focus()")
        self.press("\ue007")
        self.assertTrue(self.does("return document.getElementById('editor').contains(document.activeElement)"))
        self.assertEqual(self.script(), lines)
        self.write_at_once(INHERIT)
        self.until("return document.querySelectorAll('#faults li').length", 0)
        self.assertFalse(self.does("return document.body.classList.contains('stale')"))

    def test_a_horizon_that_is_none(self) -> None:
        """The picture is pale until it is one, whatever is under way or asked for meanwhile."""
        none = "The horizon is a number of ticks from 0 to 10^18."
        put = "const horizon = document.getElementById('horizon'); for (const text of arguments) { horizon.value = text; horizon.dispatchEvent(new Event('input')); }"
        self.open("#example=20_controller")
        self.does("document.getElementById('beside').click()")
        self.until("return document.getElementById('differs').textContent", "The runs do not differ.")
        self.count_runs()
        self.does(put, "2000", "2000x")
        self.until_answered()
        self.assertEqual(self.text("#state"), none)
        self.assertTrue(self.does("return document.body.classList.contains('stale')"))
        self.does(put, "")
        self.does("const menu = document.getElementById('export'); menu.value = 'trace'; menu.dispatchEvent(new Event('change'))")
        self.assertEqual(self.text("#state"), none)
        self.does(put, "30")
        self.until("return document.getElementById('a').contentWindow.pane.data().ticks.at(-1)", "30")
        self.assertEqual(self.text("#state"), "")
        self.assertFalse(self.does("return document.body.classList.contains('stale')"))

    def test_the_word_of_a_tab(self) -> None:
        """It stays where the page is loaded again, and a copy of the tab has another."""
        def word() -> str:
            self.until("return window.lab && lab.drawn !== '' && document.readyState === 'complete'")
            return str(self.does("return performance.getEntriesByType('resource').map((entry) => /tab=([^&]*)/.exec(entry.name)).find(Boolean)[1]"))

        self.open("#example=05_inherit")
        mine, first = word(), self.driver.current_window_handle
        self.driver.refresh()
        self.assertEqual(word(), mine)
        self.does("window.open(location.href)")
        self.driver.switch_to.window(waited(lambda: next((tab for tab in self.driver.window_handles if tab != first), ""), "a copy of the tab"))
        self.assertNotEqual(word(), mine)

    def test_keys_in_the_fields(self) -> None:
        """Escape leads from each field to the picture, and the keys of the page go on where the slider has the focus."""
        from selenium.webdriver.common.keys import Keys

        self.open("#example=04_inversion")
        self.cursor_at("run 9", 4)
        self.press(Keys.ESCAPE)
        for key, field in (("h", "horizon"), ("g", "gallery"), ("s", "value")):
            self.press(key)
            self.assertEqual(self.does("return document.activeElement.id"), field)
            self.press(Keys.ESCAPE)
            self.assertEqual(self.does("return document.activeElement.id"), "a")
        self.does("document.getElementById('value').focus()")
        self.press("s")
        self.assertTrue(self.does("return document.getElementById('slider').hidden"))

    def test_the_overview_of_a_long_run(self) -> None:
        self.open("#example=20_controller&horizon=120")
        self.assertTrue(self.in_frame("element('overview').hidden", "a"))
        self.does("const horizon = document.getElementById('horizon'); horizon.value = '2000'; horizon.dispatchEvent(new Event('input'))")
        self.until("return document.getElementById('a').contentWindow.pane.data().ticks.at(-1)", "2000")
        self.assertFalse(self.in_frame("element('overview').hidden", "a"))
        self.in_frame("(zoom(20, gutter), slider.value = placeOfTick(1500n) / total, slider.dispatchEvent(new Event('input')))", "a")
        self.assertTrue(self.in_frame("xOf(place) > gutter && xOf(place) < width && left > 0", "a"))
        self.until("return location.hash.includes('cursor=1500')")
        self.shot("overview")

    def test_rows_that_have_no_room_are_counted(self) -> None:
        """At the lower edge those below, and where one has gone down, at the upper one those above."""
        told = """(() => { const said = []; pen.fillText = (text, ...at) => { said.push(text); CanvasRenderingContext2D.prototype.fillText.call(pen, text, ...at); };
            draw(); delete pen.fillText; return said.filter((text) => text.endsWith("more")); })()"""
        self.open("#script=" + quote("".join(f"thread t{number} fifo {number} at 0\nrun 2\nend\n" for number in range(1, 61))))
        seen = int(self.in_frame("Math.floor((height - 18 - AXIS - 6) / ROW(0))", "a"))
        self.assertGreater(seen, 3)
        self.assertEqual(self.in_frame(told, "a"), [f"▼ {60 - seen} more"])
        self.shot("rows_below")
        self.in_frame("goUp(10 * ROW(0))", "a")
        above, below = self.in_frame(told, "a")
        self.assertIn(above, ("▲ 10 more", "▲ 11 more"))
        self.assertIn(below, (f"▼ {50 - seen} more", f"▼ {49 - seen} more"))
        self.in_frame("goUp(1e6)", "a")
        self.assertRegex(" ".join(self.in_frame(told, "a")), r"^▲ \d+ more$")
        self.shot("rows_above")
        self.open("#example=04_inversion")
        self.assertEqual(self.in_frame(told, "a"), [])

    def test_dark_and_light(self) -> None:
        from selenium.webdriver.common.keys import Keys

        self.open("#example=20_controller&cursor=27")
        paper = "return getComputedStyle(document.body).backgroundColor"
        before = self.does(paper)
        self.does("document.getElementById('look').click()")
        self.assertNotEqual(self.does(paper), before)
        self.assertTrue(self.in_frame("document.documentElement.classList.contains('dark')", "a"))
        self.shot("dark")
        # It is chosen, and stays where the page is loaded again and where the browser itself changes.
        for dark in (True, False):
            self.driver.refresh()
            self.until("return window.lab && lab.drawn !== ''")
            self.assertEqual([self.does(paper) == before, self.in_frame("document.documentElement.classList.contains('dark')", "a")], [not dark, dark])
            self.driver.execute_cdp_cmd("Emulation.setEmulatedMedia", {"features": [{"name": "prefers-color-scheme", "value": "light" if dark else "dark"}]})
            self.until("return matchMedia('(prefers-color-scheme: dark)').matches", not dark)
            self.assertEqual(self.does(paper) == before, not dark)
            self.press(Keys.ESCAPE, "d")

    def test_dark_as_the_browser_says(self) -> None:
        """Up to a choice."""
        self.open()
        for said in ("dark", "light", "dark"):
            self.driver.execute_cdp_cmd("Emulation.setEmulatedMedia", {"features": [{"name": "prefers-color-scheme", "value": said}]})
            self.until("return document.documentElement.className", "dark" if said == "dark" else "")
            self.assertEqual(self.in_frame("document.documentElement.classList.contains('dark')", "a"), said == "dark")


class PlainPage(Page):
    words = ("--plain",)

    def test_the_numbers_stand_beside_their_lines(self) -> None:
        """At the end of a long script too, where the text has a scroll bar below it and the numbers have none."""
        self.open("#script=" + quote("# " + "long " * 60 + "\nthread a fifo 5 at 0\n" + "run 1\n" * 80 + "end\n"))
        self.does("const area = document.querySelector('#plain textarea'); area.scrollTop = area.scrollHeight")
        self.until("const area = document.querySelector('#plain textarea'); return area.scrollTop > 0 && area.scrollTop === document.querySelector('#plain pre').scrollTop")


class Phone(InBrowser):
    size = (500, 900)

    def test_a_phones_width(self) -> None:
        self.driver.execute_cdp_cmd("Emulation.setDeviceMetricsOverride", {"width": 390, "height": 844, "deviceScaleFactor": 2, "mobile": True})
        self.open("#example=05_inherit&cursor=7")
        self.assertLessEqual(self.does("return document.documentElement.scrollWidth"), 390)
        self.assertEqual(self.table("Ready lists"), ["priority 9 | low", "priority 5 | medium"])
        self.shot("phone")
        self.does("document.getElementById('frames').scrollIntoView()")
        self.shot("phone_picture")
