"""Two runs beside one another in a real browser, and a link that holds both."""
from __future__ import annotations

from urllib.parse import quote

from .in_browser import InBrowser
from .served import Served


class TwoRuns(InBrowser):
    def test_two_runs(self) -> None:
        self.open("#example=04_inversion")
        self.does("[...document.querySelectorAll('#changes button')].find((button) => button.textContent === 'make it inherit').click()")
        self.until("return document.getElementById('differs').textContent", "The runs differ at 8 instants, first at 6.")
        self.assertIn("mutex data none → mutex data inherit", self.text("#words"))
        self.assertIn("6 dispatch medium 5", self.in_frame("data.lines", "b"))
        self.assertIn("6 dispatch low 9", self.in_frame("data.lines", "a"))
        self.assertEqual(self.in_frame("differing.medium.map(String)", "a"), self.in_frame("differing.medium.map(String)", "b"))
        self.assertEqual(self.in_frame("differing.high.map(String)[0].split(',')[0]", "a"), "10")
        if not self.is_plain:
            self.assertEqual(self.text(".CodeMirror .changed"), "inherit")
        self.does("document.getElementById('next').click()")
        self.assertEqual([self.in_frame("pane.tick().toString()", frame) for frame in "ab"], ["6", "6"])
        self.assertEqual(self.table("Who waits", "a"), ["high | in lock for low, the owner of data, since 6"])
        self.shot("two_runs")
        self.does("document.getElementById('beside').click()")
        self.assertEqual(self.does("return document.getElementById('figure_b').hidden"), True)

    def test_the_keys_after_a_change(self) -> None:
        """They belong to the picture, and not to the script; and the change can be undone like what is typed."""
        self.open("#example=04_inversion")
        before = self.script()
        next(button for button in self.driver.find_elements("css selector", "#changes button") if button.text == "make it inherit").click()
        self.until("return document.getElementById('differs').textContent", "The runs differ at 8 instants, first at 6.")
        self.press("x")
        self.assertEqual(self.in_frame("pane.tick().toString()", "a"), "6")
        self.assertEqual(self.script(), before.replace("mutex data none", "mutex data inherit"))
        for into_the_script in ((), ("e",)):
            self.press(*into_the_script)
            self.undo()
            self.assertEqual(self.script(), before)
            next(button for button in self.driver.find_elements("css selector", "#changes button") if button.text == "make it inherit").click()

    def test_the_run_that_is_kept_is_the_one_that_is_seen(self) -> None:
        """Where the script is refused, that is the run before; where a link's is, the page says so."""
        from selenium.webdriver.common.keys import Keys

        self.open("#example=04_inversion")
        before = self.script()
        self.write_at_once(before.replace("    run 9\n", "    rum 9\n"))
        self.until("return document.querySelectorAll('#faults li').length", 1)
        self.press(Keys.ESCAPE, "c")
        self.write_at_once(before.replace("    run 9\n", "    run 8\n"))
        self.until("return document.getElementById('differs').textContent.startsWith('The runs differ')")
        self.assertIn("6 dispatch medium 5", self.in_frame("data.lines", "b"))
        self.open("#example=04_inversion&beside=rum")
        self.until("return document.getElementById('differs').textContent", "The kept script is refused.")

    def test_the_kept_run_is_let_go_before_it_comes(self) -> None:
        self.open("#example=20_controller&horizon=2000")
        self.count_runs()
        self.does("for (let press = 0; press < 2; press++) document.getElementById('beside').click()")
        self.until_answered()
        self.assertEqual(self.text("#differs"), "")

    def test_a_line_more_and_a_word_changed(self) -> None:
        """The line that is new is told as such, and of the changed one the word alone is marked."""
        self.open("#example=25_budget_in_a_window")
        self.does("[...document.querySelectorAll('#changes button')].find((button) => button.textContent === 'make it strict').click()")
        self.until("return document.getElementById('differs').textContent.startsWith('The runs differ')")
        self.assertEqual(self.does("return [...document.querySelectorAll('#words li')].map((li) => li.textContent)"),
                         ["line 9: → version 2", "line 10: thread server sporadic 8 2 10 3 4 at 2 → thread server strict 8 2 10 3 4 at 2"])
        if not self.is_plain:
            self.assertEqual(self.does("return [...document.querySelectorAll('.CodeMirror .changed')].map((word) => word.textContent)"), ["version", "2", "strict"])
        self.does("document.getElementById('a').contentWindow.pane.goTo(7n)")
        self.assertEqual([self.table("Budgets", frame) for frame in "ab"], [["server | capacity 3"]] * 2)

    def test_lines_that_are_long(self) -> None:
        """Of a long line what differs is told and marked, with the words beside it, and a long word makes no line wider than its place."""
        comment, word = "# " + "a comment that goes on " * 8, "x" * 300
        before = f"thread a sporadic 20 3 100 20 4 at 2 {comment}\n    run 3 # {word}\n" + "    run 1\n" * 50 + "end\n"
        after = before.replace("20 3 100", "20 3 90").replace(word, word + "y").replace("    run 1\n", "    run 2\n")
        self.open("#horizon=90&script=" + quote(after) + "&beside=" + quote(before))
        self.until("return document.getElementById('differs').textContent.startsWith('The runs differ')")
        lines = self.does("return [...document.querySelectorAll('#words li')].map((line) => line.textContent)")
        self.assertEqual(lines[0], "line 1: … sporadic 20 3 100 20 4 at … → … sporadic 20 3 90 20 4 at …")
        self.assertEqual(lines[1], f"line 2: run 3 # {word} → run 3 # {word}y")
        self.assertEqual((len(lines), lines[-1]), (41, "and 12 more lines"))
        marks = self.does("return [...document.querySelectorAll('#words mark')].map((mark) => mark.textContent)")
        self.assertEqual(marks[:3], ["90", word + "y", "2"])
        self.assertLessEqual(self.does("const place = document.getElementById('compared'); return place.scrollWidth - place.clientWidth"), 0)
        self.shot("long_lines")

    def test_each_picture_keeps_to_its_frame(self) -> None:
        """On a wide screen, as on a narrow one: the lists stay in sight below the picture."""
        for wide in (1000, 1400, 1920):
            self.driver.execute_cdp_cmd("Emulation.setDeviceMetricsOverride", {"width": wide, "height": 1080, "deviceScaleFactor": 1, "mobile": False})
            self.open("#example=20_controller&cursor=40")
            self.assertEqual(self.in_frame("document.documentElement.scrollHeight - innerHeight", "a"), 0, wide)
            self.does("document.getElementById('beside').click()")
            self.until("return document.getElementById('differs').textContent", "The runs do not differ.")
            self.assertEqual([self.in_frame("document.documentElement.scrollHeight - innerHeight", frame) for frame in "ab"], [0, 0], wide)

    def test_a_run_that_is_shorter(self) -> None:
        """The kept run is killed at 32: the cursor goes on in the other one."""
        self.open("#example=07_pathfinder")
        self.does("[...document.querySelectorAll('#changes button')].find((button) => button.textContent === 'make it inherit').click()")
        self.until("return document.getElementById('differs').textContent.startsWith('The runs differ')")
        self.does("document.getElementById('a').contentWindow.pane.goTo(50n)")
        self.assertEqual([self.in_frame("pane.tick().toString()", frame) for frame in "ab"], ["50", "32"])
        self.until("return location.hash.includes('cursor=50')")

    def test_a_link_to_no_example(self) -> None:
        self.open("#example=nosuch&cursor=6")
        self.until("return document.getElementById('state').textContent", "The link has no script, and names no example of the course: nosuch.")
        self.open()
        self.assertEqual(self.text("#state"), "")

    def test_a_link_opened_again(self) -> None:
        self.open("#example=04_inversion&horizon=30")
        self.does("[...document.querySelectorAll('#changes button')].find((button) => button.textContent === 'let medium run 14').click()")
        self.until("return lab.drawn.includes('    run 14\\n')")
        self.does("document.getElementById('a').contentWindow.pane.goTo(17n)")
        self.until("return location.hash.includes('cursor=17') && location.hash.includes('beside=')")
        link, script = self.driver.current_url, self.script()
        other = Served(link)
        self.addCleanup(other.end)
        self.driver.get("about:blank")
        self.driver.get(other.link)
        self.until("return window.lab && lab.drawn !== ''")
        self.assertEqual(self.script(), script)
        self.assertEqual(self.does("return document.getElementById('horizon').value"), "30")
        self.until("return document.getElementById('a').contentWindow.pane.tick().toString()", "17")
        self.until("return document.getElementById('differs').textContent.startsWith('The runs differ at')")
        self.assertIn("    run 14\n", script)


class PlainTwoRuns(TwoRuns):
    words = ("--plain",)
