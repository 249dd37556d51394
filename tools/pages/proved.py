"""What is proved of each crate: docs/PROVED.md has an item for each, in the order of crates.txt.

Where the head of a crate's root file (src/lib.rt, or src/main.rt of a program) has a paragraph that begins with `Proved: `, the item
says the same; `tools/documents.py --write` makes it so. The items of other crates are written by hand.
"""
from __future__ import annotations

import re
import textwrap
from pathlib import Path

TOP = Path(__file__).resolve().parents[2]
PAGE = TOP / "docs" / "PROVED.md"
BEGIN, END = "<!-- in the order of crates.txt; tools/documents.py --write takes what the heads of the crates say -->\n", "<!-- end -->\n"
WIDTH = 128


def crates() -> list[str]:
    """The crates of crates.txt, in its order, but those of tests."""
    names = re.findall(r"(?m)^(\w+)[^:#\n]*:", (TOP / "crates.txt").read_text())
    return [name for name in names if not name.startswith("test_")]


def proved_of(crate: str) -> str | None:
    """What a crate's head says is proved of it, in one line."""
    root = next((path for path in (TOP / "crates" / crate / "src" / name for name in ("lib.rt", "main.rt")) if path.exists()), None)
    if root is None:
        return None
    head = re.match(r"(?:///?!.*\n)*", root.read_text())[0]
    paragraphs = re.split(r"(?m)^//!\n", head)
    for paragraph in paragraphs:
        text = " ".join(line.removeprefix("//!").strip() for line in paragraph.splitlines())
        if text.startswith("Proved: "):
            return text.removeprefix("Proved: ")
    return None


def items_of(page: str) -> dict[str, str]:
    """What the page says of each crate, in one line."""
    part = page.partition(BEGIN)[2].partition(END)[0]
    return {crate: " ".join(said.split()) for crate, said in re.findall(r"(?ms)^- `(\w+)`: (.*?)(?=^- |\Z)", part)}


def wrong_items() -> list[str]:
    """Where the page's items are not those of the crates."""
    items = items_of(PAGE.read_text())
    wrong = [] if list(items) == crates() else ["docs/PROVED.md: its crates are not those of crates.txt, in that order"]
    for crate in crates():
        proved = proved_of(crate)
        if crate not in items:
            wrong.append(f"docs/PROVED.md: there is no item for {crate}")
        elif proved not in (None, items[crate]):
            wrong.append(f"docs/PROVED.md: {crate} is not as its head has it; tools/documents.py --write mends it")
    return wrong


def with_part(page: str) -> str:
    """The page with the items as the heads of the crates have them, in the order of crates.txt."""
    before, _, rest = page.partition(BEGIN)
    said = items_of(page)
    items = [(crate, proved_of(crate) or said.get(crate)) for crate in crates()]
    lines = [textwrap.fill(f"- `{crate}`: {proved}", WIDTH, subsequent_indent="  ", break_long_words=False, break_on_hyphens=False)
             for crate, proved in items if proved is not None]
    return before + BEGIN + "\n" + "\n".join(lines) + "\n\n" + END + rest.partition(END)[2]
