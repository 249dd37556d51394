"""Writes the elements of an SVG document."""
from __future__ import annotations

from xml.sax.saxutils import escape, quoteattr

FONT = "DejaVu Sans, Verdana, Helvetica, Arial, sans-serif"
INK, FAINT, PALE = "#1d2433", "#69707d", "#e3e6eb"

_PATTERNS = """<defs>
<pattern id="low" width="6" height="6" patternUnits="userSpaceOnUse" patternTransform="rotate(45)"><rect width="2.4" height="6" fill="#ffffff" fill-opacity="0.6"/></pattern>
<marker id="head" viewBox="0 0 8 8" refX="7" refY="4" markerWidth="6" markerHeight="6" orient="auto"><path d="M0,0 L8,4 L0,8 z" fill="#3b6fb5"/></marker>
<marker id="wake" viewBox="0 0 8 8" refX="7" refY="4" markerWidth="6" markerHeight="6" orient="auto"><path d="M0,0 L8,4 L0,8 z" fill="#5c6675"/></marker>
</defs>
"""

# A picture by itself that is wider than the paper is made to fit; one within a page is as that page says.
_STYLE = "<style>@media print{svg:root{max-width:100%;height:auto}}</style>\n"

# How wide letters of the font are, at most, in parts of its size; every other one is narrower than OTHER.
OTHER = 0.64
_WIDE = {letter: wide for letters, wide in (("ijlIJ'", 0.3), ("ft,. ", 0.4), ("r-/:;()!", 0.42), ("w#+<=>", 0.84), ("mMW@%", 1.0), ("ACDGHKNOQRUVX", 0.79))
         for letter in letters}


def wide_of(text: str, size: float) -> float:
    """How much room a text needs along its line."""
    return size * sum(_WIDE.get(letter, OTHER) for letter in text)


def short(number: float) -> str:
    """A place with at most two digits behind the point."""
    return f"{number:.2f}".rstrip("0").rstrip(".")


class Writer:
    """Elements in the order in which they are drawn."""

    def __init__(self) -> None:
        self._parts: list[str] = []

    def raw(self, element: str) -> None:
        self._parts.append(element)

    def rect(self, x: float, y: float, width: float, height: float, title: str = "", **style: str) -> None:
        place = f'x="{short(x)}" y="{short(y)}" width="{short(max(width, 0.3))}" height="{short(height)}"'
        self._element("rect", place, title, style)

    def line(self, x1: float, y1: float, x2: float, y2: float, title: str = "", **style: str) -> None:
        self._element("line", f'x1="{short(x1)}" y1="{short(y1)}" x2="{short(x2)}" y2="{short(y2)}"', title, style)

    def path(self, data: str, title: str = "", **style: str) -> None:
        self._element("path", f'd="{data}"', title, style)

    def text(self, x: float, y: float, text: str, size: float = 11, anchor: str = "start", fill: str = INK,
             weight: str = "normal", title: str = "", halo: str = "") -> None:
        """Letters, with a halo of a colour about them where they stand on a pattern."""
        bold = "" if weight == "normal" else f' font-weight="{weight}"'
        where = "" if anchor == "start" else f' text-anchor="{anchor}"'
        about = f' stroke="{halo}" stroke-width="3.5" stroke-linejoin="round" paint-order="stroke"' if halo else ""
        inside = f"<title>{escape(title)}</title>" if title else ""
        self._parts.append(f'<text x="{short(x)}" y="{short(y)}" font-size="{short(size)}"{where}{bold}{about} '
                           f'fill="{fill}">{inside}{escape(text)}</text>\n')

    def _element(self, tag: str, place: str, title: str, style: dict[str, str]) -> None:
        words = "".join(f" {name.rstrip('_').replace('_', '-')}={quoteattr(value)}" for name, value in style.items())
        if title:
            self._parts.append(f"<{tag} {place}{words}><title>{escape(title)}</title></{tag}>\n")
        else:
            self._parts.append(f"<{tag} {place}{words}/>\n")

    def document(self, width: float, height: float, title: str) -> str:
        size = f'width="{width:.0f}" height="{height:.0f}" viewBox="0 0 {width:.0f} {height:.0f}"'
        return (f'<svg xmlns="http://www.w3.org/2000/svg" {size} font-family="{FONT}" role="img">\n'
                f"<title>{escape(title)}</title>\n{_STYLE}{_PATTERNS}"
                f'<rect width="100%" height="100%" fill="#ffffff"/>\n{"".join(self._parts)}</svg>\n')
