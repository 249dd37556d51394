"""The time axis of the picture: numbers, strokes, and the places where it is cut."""
from __future__ import annotations

from .axis import Axis, Segment, nice_step
from .colours import digits_apart, raised, short_number
from .svg_writer import FAINT, INK, PALE, Writer

HEIGHT = 36
LONG_NUMBER = 10**6
LETTER = 6.2


def draw_axis(out: Writer, axis: Axis, top: float, bottom: float) -> float:
    """Draws the axis above `top` and its strokes down to `bottom`; gives how far down it reaches."""
    free = axis.left - 30.0
    free_above = free
    for segment in axis.segments:
        if segment.cut:
            _draw_cut(out, segment, top, bottom)
        elif segment.ticks:
            free, free_above = _draw_part(out, axis, segment, top, bottom, free, free_above)
    out.line(axis.left, top, axis.right, top, stroke=FAINT, stroke_width="1")
    return bottom + (16 if axis.cuts else 4)


def _draw_part(out: Writer, axis: Axis, segment: Segment, top: float, bottom: float, free: float,
               free_above: float) -> tuple[float, float]:
    """Numbers of one part. Where they are long, the first is written out and the others count from it."""
    first = segment.start
    widest = short_number(segment.end)
    counts = bool(axis.cuts) and first >= LONG_NUMBER
    if counts:
        widest = f"+{digits_apart(segment.ticks)}"
    step = nice_step(-(-int((len(widest) * LETTER + 12) * 1000) // max(1, int(axis.scale * 1000)))) if axis.scale >= 0.001 \
        else nice_step(int((len(widest) * LETTER + 12) / axis.scale))
    minor = _minor_step(step, axis.scale)
    if minor:
        _strokes(out, axis, segment, minor, top, bottom)
    tick = first if counts else -(-first // step) * step
    while tick <= segment.end:
        place = axis.at(tick)
        out.line(place, top - 5, place, bottom, stroke="#cfd4dc", stroke_width="0.9")
        if counts and tick == first:
            text = digits_apart(tick)
            if place > free_above:
                out.text(place, top - 21, text, size=9.5, fill=INK)
                out.line(place, top - 18, place, top, stroke=FAINT, stroke_width="0.8")
                free_above = place + len(text) * 5.6 + 8
        else:
            text = f"+{digits_apart(tick - first)}" if counts else short_number(tick)
            half = len(text) * LETTER / 2
            if place - half > free:
                out.text(place, top - 9, text, size=10, anchor="middle", fill=FAINT)
                free = place + half + 4
        tick += step
    return free, free_above


def _minor_step(step: int, scale: float) -> int:
    """Strokes between the numbers: the least nice step that leaves them 7 apart, 0 where that is the numbers' own."""
    minor = nice_step(max(1, int(7 / scale) + (1 if 7 / scale > int(7 / scale) else 0)))
    return minor if minor < step and step % minor == 0 else 0


def _strokes(out: Writer, axis: Axis, segment: Segment, minor: int, top: float, bottom: float) -> None:
    tick = -(-segment.start // minor) * minor
    data = []
    while tick <= segment.end:
        data.append(f"M{axis.at(tick):.1f},{top:.1f}V{bottom:.1f}")
        tick += minor
    if data:
        out.path("".join(data), stroke=PALE, stroke_width="0.6", fill="none")


def _draw_cut(out: Writer, segment: Segment, top: float, bottom: float) -> None:
    """A band over the whole height, with the ticks that are left out."""
    left, wide = segment.left, segment.right - segment.left
    what = f"the axis is cut: nothing happens from {segment.start} to {segment.end}, {segment.ticks} ticks"
    out.rect(left, top, wide, bottom - top, title=what, fill="#f4f1ea", class_="cut")
    out.text(left + wide / 2, bottom + 11, f"{_rough(segment.ticks)} ticks", size=8, anchor="middle", fill=FAINT, title=what)


def _rough(number: int) -> str:
    """A number in few letters; a long one is rounded."""
    if number < LONG_NUMBER:
        return digits_apart(number)
    power = len(str(number)) - 1
    first = f"{number / 10**power:.1f}".removesuffix(".0")
    if first == "10":
        first, power = "1", power + 1
    return f"{first}·10{raised(power)}"


def draw_cut_edges(out: Writer, axis: Axis, top: float, bottom: float) -> None:
    """The torn edges of each cut, drawn over the rows."""
    for cut in axis.cuts:
        for x in (cut.left + 6, cut.right - 6):
            data, y, side = f"M{x:.1f},{top:.1f}", top, 3
            while y < bottom:
                y = min(bottom, y + 6)
                data += f"L{x + side:.1f},{y:.1f}"
                side = -side
            out.path(data, stroke="#b4a88c", stroke_width="1", fill="none")
