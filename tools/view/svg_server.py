"""The lane of a sporadic thread: its capacity as a step line, and an arrow from each plan to its due tick."""
from __future__ import annotations

from .axis import Axis
from .colours import short_number
from .svg_marks import BLUE, draw_mark
from .svg_writer import FAINT, Writer, short
from .timeline import Capacity, MarkKind, Planned, ThreadLine

LEAST_STEP = 2.5
# A lane that is lower has no room for both ends of its scale.
LEAST_SCALE = 14
# How far apart plans stand at least for each to be drawn with its amount, and else those that are drawn.
LEAST_APART, FAR_APART = 8, 24


def draw_server(out: Writer, thread: ThreadLine, axis: Axis, top: float, high: float, start: int, end: int) -> None:
    greatest = max((piece.value for piece in thread.capacity), default=1) or 1
    base = top + high
    out.text(axis.left - 5, top + 6, short_number(greatest), size=8, anchor="end", fill=FAINT)
    if high >= LEAST_SCALE:
        out.text(axis.left - 5, base + 2, "0", size=8, anchor="end", fill=FAINT)
    out.line(axis.left, base, axis.right, base, stroke="#d5d9e0", stroke_width="0.8")
    data = _step_line(thread.capacity, axis, base, high / greatest)
    if data:
        first, last = thread.capacity[0], thread.capacity[-1]
        area = f"{data}V{short(base)}H{short(axis.at(first.start))}Z"
        out.path(area, fill="#5b93d6", fill_opacity="0.22", class_="capacity-area")
        out.path(data, title=f"the capacity of {thread.name}, from {first.value} to {last.last} ticks", fill="none",
                 stroke=BLUE, stroke_width="1.4" if len(thread.capacity) * 2 < axis.right - axis.left else "0.5", class_="capacity")
    _draw_plans(out, thread, axis, top, base, start, end)


def _step_line(pieces: list[Capacity], axis: Axis, base: float, unit: float) -> str:
    """The capacity: a step for each tick where ticks are wide enough, else a slope.

    Of the points within one pixel only the first, the lowest, the highest and the last are drawn.
    """
    data: list[str] = []
    pixel: list[tuple[float, float]] = []
    for piece in pieces:
        for x, value in _points(piece, axis):
            if pixel and x - pixel[0][0] >= 1:
                data += _drawn(pixel)
                pixel = []
            pixel.append((x, base - value * unit))
    data += _drawn(pixel)
    return "M" + "L".join(data) if data else ""


def _drawn(pixel: list[tuple[float, float]]) -> list[str]:
    if len(pixel) > 4:
        pixel = [pixel[0], min(pixel, key=lambda point: point[1]), max(pixel, key=lambda point: point[1]), pixel[-1]]
    return [f"{short(x)},{short(y)}" for x, y in pixel]


def _points(piece: Capacity, axis: Axis) -> list[tuple[float, int]]:
    left, right = axis.at(piece.start), axis.at(piece.end)
    ticks = piece.end - piece.start
    if not piece.falls:
        return [(left, piece.value), (right, piece.value)]
    if ticks > 400 or (right - left) / ticks < LEAST_STEP:
        return [(left, piece.value), (right, piece.last)]
    points: list[tuple[float, int]] = []
    for tick in range(piece.start, piece.end):
        points += [(axis.at(tick), piece.at(tick)), (axis.at(tick + 1), piece.at(tick))]
    return points + [(right, piece.last)]


def _draw_plans(out: Writer, thread: ThreadLine, axis: Axis, top: float, base: float, start: int, end: int) -> None:
    """Each plan and refill as a ring, with an arrow between; plans that stand in one place have one arrow.

    The amount stands at the refill. Of one that is due behind the picture it stands at the plan, with the due tick. Those
    from before the picture come in at its edge, each with an arrow of its own.
    """
    few = len(thread.plans) * LEAST_APART <= axis.right - axis.left
    free, label_free = -99.0, -99.0
    labels: list[tuple[float, str]] = []
    for planned in thread.plans:
        x = axis.at(max(planned.time, start))
        if planned.time >= start:
            if x < free:
                continue
            free = x + (3 if few else FAR_APART)
        title = _title(thread.name, planned)
        beyond, reached = planned.due > end, max(planned.due, planned.time)
        target = axis.right if beyond else axis.at(max(reached, start))
        _arrow(out, x, target, top, base, title)
        if planned.time >= start:
            draw_mark(out, MarkKind.PLAN, x, base, 3.2, title)
        amount = f"+{short_number(planned.amount)}"
        if beyond or reached >= start:
            labels.append((x + 5, f"{amount} due {short_number(planned.due)}") if beyond else (target - len(amount) * 2.4, amount))
    for place, text in sorted(labels):
        width = len(text) * 4.9
        place = min(place, axis.right + 30 - width)
        if few and place > label_free:
            out.text(place, base + 10, text, size=8, fill=BLUE)
            label_free = place + width + 2
    last = -99.0
    for planned in thread.plans:
        if planned.refilled is not None and start <= planned.refilled <= end and axis.at(planned.refilled) - last >= (3 if few else FAR_APART):
            last = axis.at(planned.refilled)
            draw_mark(out, MarkKind.REFILL, last, base, 3.2, _title(thread.name, planned))


def _arrow(out: Writer, x: float, target: float, top: float, base: float, title: str) -> None:
    if target - x < 4:
        return
    lift = min(base - top, 10 + (target - x) * 0.12)
    data = f"M{short(x)},{short(base - 2)}C{short(x)},{short(base - lift)} {short(target)},{short(base - lift)} {short(target)},{short(base - 4)}"
    out.path(data, title=title, fill="none", stroke="#3b6fb5", stroke_width="1", stroke_dasharray="3 2",
             marker_end="url(#head)", class_="arrow")


def _title(name: str, planned: Planned) -> str:
    done = "not carried out in this trace" if planned.refilled is None else f"carried out at {planned.refilled}"
    return f"{name}: at {planned.time} a replenishment of {planned.amount} ticks is planned, due at {planned.due}; {done}"
