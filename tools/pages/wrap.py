"""Lines of the pages: none is longer than 200 characters, and text is wrapped at 128.

    python3 tools/pages/wrap.py PAGE..     wraps each paragraph and list item that has a line above 130 characters

Tables, headings and what stands between fences stay as they are: a row of a table is one line, and has at most 200.
"""
from __future__ import annotations

import re
import sys
import textwrap
from pathlib import Path

WIDTH, LONG, LONGEST = 128, 130, 200
_ITEM = re.compile(r"( *)([-*] |\d+\. )")


def wrapped(page: str) -> str:
    """The page with its long paragraphs and items wrapped."""
    found: list[str] = []
    item: list[str] = []
    fenced = False

    def close() -> None:
        found.extend(_filled(item) if any(len(line) > LONG for line in item) else item)
        item.clear()

    for line in page.split("\n"):
        if line.lstrip().startswith("```"):
            close()
            fenced = not fenced
            found.append(line)
        elif fenced or not line.strip() or line.lstrip().startswith(("|", "#", "<")):
            close()
            found.append(line)
        elif _ITEM.match(line):
            close()
            item.append(line)
        else:
            item.append(line)
    close()
    return "\n".join(found)


def _filled(item: list[str]) -> list[str]:
    mark = _ITEM.match(item[0])
    first = mark[0] if mark else re.match(" *", item[0])[0]
    text = " ".join([item[0][len(first):].strip(), *(line.strip() for line in item[1:])])
    text = re.sub(r"`[^`]{,60}`", lambda code: code[0].replace(" ", "\u00a0"), text)  # what is typed stays in one line
    text = re.sub(r" ([-+*]) ", "\u00a0\\1 ", text)  # a line that began with one of these would be an item
    lines = textwrap.wrap(text, WIDTH, initial_indent=first, subsequent_indent=" " * len(first), break_long_words=False,
                          break_on_hyphens=False)
    return [line.replace("\u00a0", " ") for line in lines]


def too_long(pages: list[Path]) -> list[str]:
    """The lines of the pages that are longer than any may be."""
    return [f"{page.name}:{number}: a line of {len(line)} characters: python3 tools/pages/wrap.py wraps it"
            for page in pages for number, line in enumerate(page.read_text().splitlines(), 1) if len(line) > LONGEST]


def main(words: list[str]) -> int:
    if not words:
        print(__doc__, file=sys.stderr)
        return 1
    for word in words:
        page = Path(word)
        page.write_text(wrapped(page.read_text()))
    return 0


if __name__ == "__main__":
    sys.exit(main(sys.argv[1:]))
