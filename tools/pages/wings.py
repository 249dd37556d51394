"""The wings of the house, from crates.txt: what each may stand on, the picture of docs/layers.svg, and the list of docs/ARCHITECTURE.md.

A comment line of crates.txt of the form `# NAME: what it holds` begins a wing. A crate stands on crates above it alone, and only on those
whose first words its wing may use.
"""
from __future__ import annotations

import re
import textwrap
from dataclasses import dataclass, field
from html import escape
from pathlib import Path

TOP = Path(__file__).resolve().parents[2]
LIST = TOP / "crates.txt"
PAGE = TOP / "docs" / "ARCHITECTURE.md"
PICTURE = TOP / "docs" / "layers.svg"
BEGIN, END = "<!-- the wings: tools/documents.py --write makes this list of crates.txt and of the heads of the crates -->\n", "<!-- end -->\n"
WIDTH = 128

# The first words of the crates that a wing may stand on, beside its own. No rule cites code, but for the rules of texts, since the
# canonical text is defined beside its writer; no code cites a law, but for the kernel that runs from tick to tick and for the tool,
# whose contracts name them.
MAY_CITE = {
    "words": "",
    "rules": "words",
    "laws": "words rules",
    "parts": "words rules",
    "script": "words rules parts",
    "rules of texts": "words rules script",
    "laws of scripts": "words rules laws script",
    "kernel": "words rules parts script",
    "calls": "words rules parts script kernel",
    "run": "words rules laws parts script kernel calls",
    "tool": "words rules laws parts script kernel calls",
    "test": "words rules laws parts script kernel calls tool",
}
OWN_WORDS = {"rules of texts": {"rules"}, "laws of scripts": {"laws"}, "run": {"laws", "kernel"}, "tool": {"laws", "tool", "pse52"}}


@dataclass
class Wing:
    """A wing: its name, what it holds, and its crates, each with those that it stands on."""

    name: str
    holds: str
    crates: dict[str, list[str]] = field(default_factory=dict)

    @property
    def own_words(self) -> set[str]:
        """The first words that the names of its crates may have."""
        return OWN_WORDS.get(self.name, {self.name})


def wings() -> list[Wing]:
    """The wings of crates.txt, in its order."""
    found: list[Wing] = []
    for line in LIST.read_text().splitlines():
        if (head := re.fullmatch(r"# ([a-z ]+): (.*)", line)) and head[1] in MAY_CITE:
            found.append(Wing(head[1], head[2]))
        elif (crate := re.fullmatch(r"(\w+):(.*)", line)) and found:
            found[-1].crates[crate[1]] = crate[2].split()
    return found


def first_word(crate: str) -> str:
    return crate.partition("_")[0]


def wrong_wings() -> list[str]:
    """Where a crate has not the name of its wing, or stands on what its wing may not stand on, or on a crate below it in the list."""
    wrong, above = [], set()
    every = {crate for wing in wings() for crate in wing.crates}
    for wing in wings():
        allowed = wing.own_words | set(MAY_CITE[wing.name].split())
        for crate, below in wing.crates.items():
            if first_word(crate) not in wing.own_words:
                wrong.append(f"crates.txt: {crate} has not the name of its wing, {wing.name}")
            for other in (name for name in below if name in every):
                if other not in above:
                    wrong.append(f"crates.txt: {crate} stands on {other}, which does not stand above it")
                elif first_word(other) not in allowed:
                    wrong.append(f"crates.txt: {crate} stands on {other}, and nothing in the wing {wing.name} may")
            above.add(crate)
    if any(TOP.joinpath("crates").iterdir()) and every != {path.name for path in (TOP / "crates").iterdir() if (path / "src").is_dir()}:
        wrong.append("crates.txt: its crates are not those of crates/")
    return wrong


def head_of(crate: str) -> str:
    """The first sentence of a crate's root file."""
    root = next(path for path in (TOP / "crates" / crate / "src" / name for name in ("lib.rt", "main.rt")) if path.exists())
    paragraph = re.match(r"(?://!.+\n)*", root.read_text())[0]
    text = " ".join(line.removeprefix("//!").strip() for line in paragraph.splitlines())
    return re.split(r"(?<=[.:]) (?=[A-Z])", text)[0].rstrip(".:")


def list_of_wings() -> str:
    """The wings as a list: each crate with the first sentence of its root file."""
    lines = []
    for wing in wings():
        lines += ["", textwrap.fill(f"**{wing.name}**: {wing.holds}", WIDTH), ""]
        for crate in wing.crates:
            lines.append(textwrap.fill(f"- `{crate}`: {head_of(crate)}.", WIDTH, subsequent_indent="  ", break_long_words=False, break_on_hyphens=False))
    return "\n".join(lines[1:]) + "\n\n"


def with_list(page: str) -> str:
    """The page with the list as crates.txt and the crates have it."""
    before, _, rest = page.partition(BEGIN)
    return before + BEGIN + "\n" + list_of_wings() + END + rest.partition(END)[2]


# ---- the picture

LEFT, RIGHT, ROW, LINE, LETTER = 150, 1040, 14, 24, 6.6
FILL = {"words": "#d5e2f3", "rules": "#cfe6cf", "laws": "#f4e3b5", "test": "#e6e6e6"}  # code: CODE
CODE, BAND = "#f0d9d9", "#f7f7f7"


def rows_of(names: list[str]) -> list[list[str]]:
    """The names, in as many rows as they need."""
    rows, wide = [[]], 0.0
    for name in names:
        width = len(name) * LETTER + 26
        if wide + width > RIGHT - LEFT:
            rows, wide = [*rows, []], 0.0
        rows[-1].append(name)
        wide += width
    return rows


def band(wing: Wing, top: int) -> tuple[list[str], int]:
    """A wing's band, and where it ends."""
    rows = rows_of(list(wing.crates))
    height = len(rows) * LINE + 12
    lines = [f'<rect x="8" y="{top}" width="{RIGHT}" height="{height}" fill="{BAND}" rx="5"/>',
             f'<text x="20" y="{top + height / 2 + 5:g}" font-weight="bold">{escape(wing.name)}</text>']
    for number, row in enumerate(rows):
        x = float(LEFT)
        for name in row:
            width = len(name) * LETTER + 16
            y = top + 6 + number * LINE
            lines.append(f'<rect x="{x:g}" y="{y + 2}" width="{width:g}" height="{LINE - 5}" fill="{FILL.get(first_word(name), CODE)}" stroke="#999999" rx="3"/>'
                         f'<text x="{x + 8:g}" y="{y + 16}">{escape(name)}</text>')
            x += width + 10
    return lines, top + height + 6


def picture() -> str:
    """The layers, the lowest at the bottom."""
    top, lines = 8, []
    for wing in reversed(wings()):
        drawn, top = band(wing, top)
        lines += drawn
    return "\n".join([f'<svg xmlns="http://www.w3.org/2000/svg" viewBox="0 0 {RIGHT + 16} {top + 2}" width="{RIGHT + 16}" height="{top + 2}" '
                      'font-family="DejaVu Sans Mono, monospace" font-size="11">',
                      f'<rect width="{RIGHT + 16}" height="{top + 2}" fill="#ffffff"/>', *lines, "</svg>"]) + "\n"


def wrong_pages() -> list[str]:
    """Where the list or the picture are not what crates.txt and the crates say."""
    wrong = [] if with_list(PAGE.read_text()) == PAGE.read_text() else ["docs/ARCHITECTURE.md: its wings are not those of crates.txt"]
    if not PICTURE.exists() or PICTURE.read_text() != picture():
        wrong.append("docs/layers.svg is not the picture of crates.txt")
    return [f"{line}; tools/documents.py --write mends it" for line in wrong]


def write() -> None:
    """Puts the list and the picture where they belong."""
    PAGE.write_text(with_list(PAGE.read_text()))
    PICTURE.write_text(picture())
