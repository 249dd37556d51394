"""The menu of the course in a real browser, and scripts that are of no lesson."""
from __future__ import annotations

from .in_browser import INHERIT, InBrowser


class Course(InBrowser):
    def test_the_course(self) -> None:
        self.open()
        names = self.does("return [...document.getElementById('gallery').options].map((option) => option.value)")
        self.assertEqual(names[:5], ["", "one_thread", "loops_and_tests", "preemption", "yield"])
        self.does("const menu = document.getElementById('gallery'); menu.value = '20_controller'; menu.dispatchEvent(new Event('change'))")
        self.until("return lab.drawn.includes('A whole controller')")
        self.assertTrue(self.text("#sentence").startswith("Look at 25 to 29"))
        self.assertEqual(len(self.driver.find_elements("css selector", "#changes button")), 3)
        self.assertEqual(self.does("return document.getElementById('horizon').value"), "120")
        self.shot("controller")

    def test_a_script_of_ones_own(self) -> None:
        """No lesson stands above it, and what takes its place can be taken back by the browser's way back."""
        from selenium.webdriver.support.ui import Select

        self.open("#example=04_inversion")
        mine = "thread mine fifo 5 at 0\nrun 3\nend\n"
        self.write_at_once(mine)
        self.until("return lab.drawn", mine)
        self.assertEqual(self.does("return [document.getElementById('gallery').value, document.getElementById('lesson').className]"), ["", "none"])
        # A browser skips what no hand has left, so the menu is clicked.
        Select(self.driver.find_element("id", "gallery")).select_by_value("05_inherit")
        self.until("return lab.drawn", INHERIT)
        self.driver.back()
        self.until("return lab.drawn", mine)
        self.assertEqual(self.script(), mine)

    def test_what_was_just_typed_is_there_behind_a_reload(self) -> None:
        """Also what the address does not say yet. A link that is opened then is what it says."""
        leave = "window.goes = true; history.replaceState = () => {};"  # as where the page goes before it writes its address
        mine = "thread mine fifo 5 at 0\nrun 3\nend\n"
        for leaves in ("location.reload()", "location.href = 'about:blank'"):
            self.open("#example=05_inherit")
            self.write_at_once(mine)
            self.does(leave + leaves)
            if "blank" in leaves:
                self.until("return location.href", "about:blank")
                self.open("#example=05_inherit")
                self.assertEqual(self.script(), INHERIT)
            else:
                self.until("return !window.goes && window.lab && lab.drawn", mine)
                self.until("return location.hash.includes('script=thread%20mine')")

    def test_an_example_that_was_changed_is_chosen_again(self) -> None:
        from selenium.webdriver.support.ui import Select

        shown = "const menu = document.getElementById('gallery'); return menu.selectedOptions[0].text"
        self.open("#example=05_inherit")
        self.assertEqual(self.does(shown), "05 inherit")
        self.write_at_once(INHERIT.replace("run 9", "run 8"))
        self.until(shown, "05 inherit, changed")
        Select(self.driver.find_element("id", "gallery")).select_by_value("05_inherit")
        self.until("return lab.drawn", INHERIT)
        self.assertEqual(self.does(shown), "05 inherit")
        self.does("const horizon = document.getElementById('horizon'); horizon.value = '12'; horizon.dispatchEvent(new Event('input'))")
        self.assertEqual(self.does(shown), "05 inherit, changed")
        Select(self.driver.find_element("id", "gallery")).select_by_value("05_inherit")
        self.assertEqual(self.does("return document.getElementById('horizon').value"), "26")


class PlainCourse(Course):
    words = ("--plain",)
