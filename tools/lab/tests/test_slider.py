"""The slider for a number of the script in a real browser, and undoing what it did."""
from __future__ import annotations

from .in_browser import InBrowser

# How far the parts of the slider go beyond the column of the script, and how wide the range and a bound are.
ROOM = """const box = (id) => document.getElementById(id).getBoundingClientRect();
return [Math.max(...["swept", "least", "value", "most"].map((id) => box(id).right)) - box("slider").right, box("value").width, box("most").width]"""
SEEN = """const box = (id) => document.getElementById(id).getBoundingClientRect();
return box("number").width > 0 && box("number").left >= box("slider").left && box("number").right <= box("slider").right"""


class Slider(InBrowser):
    def test_the_slider(self) -> None:
        from selenium.webdriver.common.keys import Keys

        self.open("#example=04_inversion")
        self.cursor_at("run 9", 4)
        self.does("document.getElementById('sweep').click()")
        self.assertRegex(self.text("#swept"), r"^line \d+: run 9$")
        for wanted in (10, 11):
            self.press(Keys.ARROW_RIGHT)
            self.assertEqual(self.text("#number"), str(wanted))
            self.assertIn(f"    run {wanted}\n", self.script())
        self.until("return lab.drawn.includes('    run 11\\n')")
        self.assertIn("18 dispatch low 2", self.in_frame("data.lines", "a"))
        self.shot("slider")

    def test_the_slider_follows_its_number(self) -> None:
        """A line above moves it, a number written by hand is its value, and without its line it ends."""
        from selenium.webdriver.common.keys import Keys

        self.open("#example=04_inversion")
        line = self.script().splitlines().index("    run 9")
        self.cursor_at("run 9", 4)
        self.does("document.getElementById('sweep').click()")
        self.write_at_once("# a line above\n" + self.script())
        self.assertEqual(self.text("#swept"), f"line {line + 2}: run 9")
        self.press(Keys.ARROW_RIGHT)
        self.assertEqual([text for text in self.script().splitlines()[line:line + 2]], ["thread medium fifo 5 at 5", "    run 10"])
        self.write_at_once(self.script().replace("    run 10\n", "    run 40\n"))
        self.assertEqual(self.does("return ['value', 'most'].map((name) => document.getElementById(name).value)"), ["40", "40"])
        self.write_at_once(self.script().replace("    run 40\n", ""))
        self.assertTrue(self.does("return document.getElementById('slider').hidden"))

    def test_the_bounds_of_the_slider(self) -> None:
        """Digit by digit a bound is less than the number, which stays; a number below 0 is no bound."""
        from selenium.webdriver.common.keys import Keys

        self.open("#example=04_inversion")
        self.cursor_at("run 9", 4)
        self.does("document.getElementById('sweep').click(); document.getElementById('most').select()")
        self.driver.find_element("id", "most").send_keys("100")
        self.does("document.getElementById('least').select()")
        self.driver.find_element("id", "least").send_keys("-3")
        self.does("document.getElementById('value').focus()")
        self.press(Keys.ARROW_RIGHT)
        self.assertIn("    run 10\n", self.script())
        self.assertEqual(self.does("return ['min', 'max'].map((name) => document.getElementById('value')[name])"), ["0", "100"])

    def test_no_slider_where_there_is_no_number(self) -> None:
        self.open("#example=04_inversion")
        self.cursor_at("# horizon 26", 11)
        self.does("document.getElementById('sweep').click()")
        self.assertEqual(self.text("#state"), "Line 1 has no number for a slider: set the cursor on one in the script.")
        self.assertTrue(self.does("return document.getElementById('slider').hidden"))
        self.cursor_at("run 9", 0)
        self.does("document.getElementById('sweep').click()")
        self.assertEqual((self.text("#state"), self.text("#number")), ("", "9"))
        self.write_at_once("thread a fifo 5 at 0\nrun 99999999999999999\nend\n")
        self.assertTrue(self.does("return document.getElementById('slider').hidden"))
        self.cursor_at("99999999999999999", 3)
        self.does("document.getElementById('sweep').click()")
        self.assertEqual(self.text("#state"), "The number 99999999999999999 is too great for a slider.")

    def test_there_is_room_for_the_slider(self) -> None:
        """At each width its parts are in their column, and the number is seen in a long line too."""
        self.open()
        self.write_at_once("thread a_rather_long_name_of_a_thread sporadic 20 3 100 20 4 at 20\n    run 3\nend\n")
        self.cursor_at("100", 1)
        self.does("document.getElementById('sweep').click()")
        for wide in (320, 600, 760, 800, 1000, 1200):
            self.driver.execute_cdp_cmd("Emulation.setDeviceMetricsOverride", {"width": wide, "height": 800, "deviceScaleFactor": 1, "mobile": False})
            over, value, bound = self.does(ROOM)
            self.assertLessEqual(over, 0, wide)
            self.assertGreaterEqual(min(value, bound), 80, wide)
            self.assertTrue(self.does(SEEN), wide)
            self.shot(f"slider_{wide}")
        self.assertEqual(self.text("#swept"), "line 1: …ead sporadic 20 3 100 20 4 at 20")

    def test_what_the_slider_did_is_undone(self) -> None:
        """All of it at once, with the keys still in the slider; and what was typed before it stays."""
        from selenium.webdriver.common.keys import Keys

        self.open("#example=04_inversion")
        before = self.script()
        self.cursor_at("run 9", 5)
        self.press("9")
        typed = self.script()
        self.assertEqual(typed, before.replace("run 9\n", "run 99\n"))
        self.does("document.getElementById('sweep').click()")
        for _ in range(2):  # once more behind an undo
            self.press(Keys.ARROW_RIGHT, Keys.ARROW_RIGHT, Keys.ARROW_RIGHT)
            self.assertEqual(self.script(), before.replace("run 9\n", "run 102\n"))
            self.undo()
            self.assertEqual(self.script(), typed)
            self.assertEqual(self.text("#number"), "99")
        self.until("return lab.drawn", typed)


class PlainSlider(Slider):
    words = ("--plain",)
