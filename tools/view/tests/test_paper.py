"""A picture as a browser lays it out for paper."""
from __future__ import annotations

import tempfile
import unittest
from pathlib import Path

from view.svg import draw

from .readers import browser
from .worked import CONTROLLER, timeline

WIDE, PAPER = 1600, 700
SIZE = "const box = document.querySelector('svg').getBoundingClientRect(); return [box.width, box.height, innerWidth];"


class Paper(unittest.TestCase):
    def sizes(self, name: str, text: str) -> tuple[list[float], list[float]]:
        """How wide and high the picture is, and how wide the window, on a screen and on paper."""
        driver = browser(PAPER, 900)
        self.addCleanup(driver.quit)
        with tempfile.TemporaryDirectory(ignore_cleanup_errors=True) as folder:
            file = Path(folder) / name
            file.write_text(text, encoding="utf-8")
            driver.get(file.as_uri())
            screen = driver.execute_script(SIZE)
            driver.execute_cdp_cmd("Emulation.setEmulatedMedia", {"media": "print"})
            return screen, driver.execute_script(SIZE)

    def test_one_that_is_wider_than_the_paper_fits(self) -> None:
        (wide, high, _), (fits, height, paper) = self.sizes("picture.svg", draw(timeline(CONTROLLER), WIDE))
        self.assertGreater(wide, paper)
        self.assertEqual(fits, paper)
        self.assertAlmostEqual(height / fits, high / wide, 2)

    def test_within_a_page_it_is_as_wide_as_it_was(self) -> None:
        (wide, *_), (still, *_) = self.sizes("page.html", f"<!DOCTYPE html><body>{draw(timeline(CONTROLLER), WIDE)}</body>")
        self.assertEqual(still, wide)
        self.assertGreater(wide, PAPER)


if __name__ == "__main__":
    unittest.main()
