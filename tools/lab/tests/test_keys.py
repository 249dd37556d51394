"""The keys of the page: each is told by the page, and by docs/LAB.md."""
from __future__ import annotations

import re
import unittest

from lab.parts import PAGE, TOP, VIEW

# How the page and docs/LAB.md write a key, where that is not the key itself and the key between backquotes.
WRITTEN = {
    "ArrowLeft": ("&larr;", "left and right arrow"), "ArrowRight": ("&rarr;", "left and right arrow"), "ArrowUp": ("&uarr;", "up and down arrow"),
    "ArrowDown": ("&darr;", "up and down arrow"), "Home": ("Home", "Home"), "End": ("End", "End"), "Escape": ("Escape", "Escape"), "-": ("&minus;", "`-`")}
UNTOLD = "="  # the key of + without shift


def keys_of(script: str) -> set[str]:
    """The keys of the table in a part of the page."""
    table = re.search(r"const KEYS = \{(.*?)\};", script, re.DOTALL)
    return set(re.findall(r'[{,]\s*"?([^\s",:]+)"?: ', "{" + table[1])) if table else set()


class Keys(unittest.TestCase):
    def test_each_key_is_told(self) -> None:
        keys = keys_of((VIEW / "input.js").read_text()) | keys_of((PAGE / "lab.js").read_text())
        self.assertLessEqual({"ArrowUp", "0", "+", "/", "n", "x", "?"}, keys)
        table = re.search(r'<table id="keys".*?</table>', (PAGE / "index.html").read_text(), re.DOTALL)[0]
        page = " ".join(re.findall(r"<td>(.*?)</td><td>.*?</td>", table)).split()
        docs = " ".join(re.findall(r"^\| (.*?) \|", (TOP / "docs" / "LAB.md").read_text().partition("## Keys")[2], re.MULTILINE))
        for key in keys - {UNTOLD}:
            with self.subTest(key):
                of_page, of_docs = WRITTEN.get(key, (key, f"`{key}`"))
                self.assertIn(of_page, page)
                self.assertIn(of_docs, docs)
