"""What is known, what the watchers note, and the page agree."""
from __future__ import annotations

import re
import unittest
from pathlib import Path

from live import page
from live.known import by_name, limits_of_the_rig, told

LIVE = Path(page.__file__).resolve().parent


class Known(unittest.TestCase):
    def test_watchers_note_what_is_known_and_nothing_else(self) -> None:
        texts = "".join(path.read_text() for path in LIVE.glob("watch_*.py"))
        noted = set(re.findall(r'note\("([a-z-]+)"', texts)) | set(re.findall(r'"([a-z]+(?:-[a-z]+)+)"', texts))
        self.assertEqual(noted, set(by_name()))

    def test_each_has_a_probe_but_the_limits_of_the_rig(self) -> None:
        without = {name for name, each in by_name().items() if not each.probes}
        self.assertEqual(without, limits_of_the_rig())

    def test_a_report_says_whose_side_the_standard_is_on(self) -> None:
        lines = told("boost-after-timeout")
        self.assertEqual(lines[0], "boost-after-timeout: the standard is on the side of the rules (XSH pthread_mutex_timedlock)")
        self.assertTrue(lines[1].startswith("  kernel: A timed lock"))

    def test_the_page_is_what_its_parts_make(self) -> None:
        self.assertEqual(page.faults(), [])

    def test_lines_of_an_instant_stand_side_by_side(self) -> None:
        rows = page.rows_of(["0 a", "1 b", "3 d"], ["0 a", "2 c", "3 d", "3 e"])
        self.assertEqual(rows, [("0 a", "0 a"), ("1 b", ""), ("", "2 c"), ("3 d", "3 d"), ("", "3 e")])


if __name__ == "__main__":
    unittest.main()
