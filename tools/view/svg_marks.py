"""The marks of a thread: what happened to it, above its bar at its tick. Those of one tick stand on one another."""
from __future__ import annotations

from dataclasses import dataclass, field

from .axis import Axis
from .svg_writer import Writer, short
from .timeline import Mark, MarkKind, ThreadLine

GREEN, RED, VIOLET, BLUE, INK, TEAL = "#1f8a4c", "#c21f1f", "#7a3fb0", "#2b62a8", "#3c4454", "#0b6e69"
MOST_TITLE_LINES = 6
MOST_LEVELS = 4
# How far apart marks of one kind stand at least: further where they are many, each then for all that follow it up to there.
CLOSE, APART = 3.0, 24.0
LETTER = 5.4


def shape(kind: MarkKind, x: float, y: float, r: float) -> tuple[str, dict[str, str]]:
    """The path of a mark round the place (x, y), and its style."""
    a, b, c, d = short(x - r), short(x + r), short(y - r), short(y + r)
    mx, my = short(x), short(y)
    match kind:
        case MarkKind.START:
            return f"M{a},{c}L{b},{my}L{a},{d}Z", {"fill": GREEN}
        case MarkKind.EXIT:
            return f"M{a},{c}H{b}V{d}H{a}Z", {"fill": INK}
        case MarkKind.CANCEL:
            return f"M{a},{c}L{b},{d}M{a},{d}L{b},{c}", {"stroke": RED, "stroke-width": "1.8", "fill": "none"}
        case MarkKind.DELIVER:
            return f"M{mx},{c}L{b},{my}L{mx},{d}L{a},{my}Z", {"fill": VIOLET}
        case MarkKind.ACTIVATE:
            return f"M{mx},{c}L{b},{d}H{a}Z", {"fill": BLUE}
        case MarkKind.EXHAUST:
            return f"M{a},{c}H{b}L{mx},{d}Z", {"fill": RED}
        case MarkKind.PLAN:
            return _ring(x, y, r), {"fill": "#ffffff", "stroke": BLUE, "stroke-width": "1.2"}
        case MarkKind.REFILL:
            return _ring(x, y, r), {"fill": BLUE}
        case MarkKind.RELEASE:
            return f"M{mx},{d}V{c}M{short(x - r * 0.7)},{short(y - r * 0.3)}L{mx},{c}L{short(x + r * 0.7)},{short(y - r * 0.3)}", {
                "stroke": INK, "stroke-width": "1.1", "fill": "none"}
        case MarkKind.LATE:
            return f"M{mx},{d}V{c}L{short(x + 1.6 * r)},{short(y - r / 2)}L{mx},{my}", {"stroke": RED, "stroke-width": "1", "fill": RED}
        case MarkKind.CLOCK:
            return f"M{a},{c}H{b}L{a},{d}H{b}Z", {"fill": TEAL}
        case MarkKind.ERROR:
            return f"M{mx},{c}V{d}", {"stroke": RED, "stroke-width": "2", "fill": "none"}
        case _:
            return f"M{mx},{my}V{d}", {"stroke": INK, "stroke-width": "1", "fill": "none"}


def _ring(x: float, y: float, r: float) -> str:
    r *= 0.9
    return f"M{short(x - r)},{short(y)}a{short(r)},{short(r)} 0 1 0 {short(2 * r)},0a{short(r)},{short(r)} 0 1 0 {short(-2 * r)},0Z"


IN_THE_LANE = frozenset((MarkKind.PLAN, MarkKind.REFILL))
# The kinds that have a label, and its colour.
LABELLED = {MarkKind.DELIVER: VIOLET, MarkKind.ERROR: RED, MarkKind.LATE: RED, MarkKind.CLOCK: TEAL}


@dataclass
class Group:
    """Marks of one kind that stand in one place: where, how high above the bar, from 0, and where its label stands, if it has one."""

    kind: MarkKind
    x: float
    marks: list[Mark]
    level: int = 0
    label: str = ""


@dataclass
class Marks:
    """The marks of a thread as they are placed, and how many levels they need."""

    groups: list[Group] = field(default_factory=list)
    levels: int = 1


def reach(kind: MarkKind, r: float) -> float:
    """How far a mark goes to the right of its place: a flag goes further than the others."""
    return 1.6 * r if kind is MarkKind.LATE else r


def draw_mark(out: Writer, kind: MarkKind, x: float, y: float, r: float, title: str = "") -> None:
    data, style = shape(kind, x, y, r)
    out.path(data, title=title, class_=f"mark {kind.value}", **style)


def place_marks(thread: ThreadLine, axis: Axis, r: float, right: float) -> Marks:
    """Where the marks of a thread stand: each at its tick, on the lowest level on which it and its label meet no other one."""
    placed = Marks()
    apart = CLOSE if len(thread.marks) * CLOSE * 2 < axis.right - axis.left else APART
    latest: dict[MarkKind, Group] = {}
    taken: list[list[tuple[float, float]]] = [[] for _ in range(MOST_LEVELS)]
    for mark in thread.marks:
        if mark.kind in IN_THE_LANE:
            continue
        x = axis.at(mark.time)
        before = latest.get(mark.kind)
        if before is not None and x - before.x < apart:
            before.marks.append(mark)
            continue
        group = latest[mark.kind] = Group(mark.kind, x, [mark])
        placed.groups.append(group)
        if mark.kind is not MarkKind.RETURN:
            _stack(group, r, taken, right)
            placed.levels = max(placed.levels, group.level + 1)
    return placed


def _stack(group: Group, r: float, taken: list[list[tuple[float, float]]], right: float) -> None:
    text = group.marks[0].label if group.kind in LABELLED else ""
    wide = reach(group.kind, r) + 3 + len(text) * LETTER if text else r
    left, end = group.x - r, group.x + wide
    if text and end > right:
        left, end = group.x - wide, group.x + r
    for level, stretches in enumerate(taken):
        if all(end < a or left > b for a, b in stretches[-8:]):
            group.level, group.label = level, text
            stretches.append((left, end))
            return
    group.level = MOST_LEVELS - 1


def draw_marks(out: Writer, placed: Marks, lines: list[str], bar: float, r: float, right: float) -> None:
    for group in placed.groups:
        title = _title(group.marks, lines)
        if group.kind is MarkKind.RETURN:
            out.path(f"M{short(group.x)},{short(bar - 3)}V{short(bar + 2)}", title=title, class_="mark return", stroke=INK,
                     stroke_width="1", fill="none")
            continue
        y = bar - r - 2 - group.level * (2 * r + 2)
        draw_mark(out, group.kind, group.x, y, r, title)
        if group.label and len(group.marks) == 1:
            side = reach(group.kind, r) + 2
            wide = side + 1 + len(group.label) * LETTER
            left = group.x + wide > right
            out.text(group.x + (-r - 2 if left else side), y + 3, group.label, size=8.5, anchor="end" if left else "start",
                     fill=LABELLED[group.kind])


def _title(marks: list[Mark], lines: list[str]) -> str:
    shown = [mark.told(lines) for mark in marks[:MOST_TITLE_LINES]]
    if len(marks) > MOST_TITLE_LINES:
        shown.append(f"and {len(marks) - MOST_TITLE_LINES} more, up to tick {marks[-1].time}")
    return "\n".join(shown)
