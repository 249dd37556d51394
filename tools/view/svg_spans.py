"""The bar of a thread: its stretches with their priorities, waits and frames; where these are too many, how dense they are."""
from __future__ import annotations

from dataclasses import dataclass

from .axis import Axis
from .kinds import CLEANUP, COLOURS, HANDLER, labels, sentence
from .svg_writer import FAINT, Writer, short, wide_of
from .timeline import Span, State, ThreadLine

Colours = dict[int, tuple[str, str]]
NARROW = 2.0
BIN = 3.0
LEAST_RUN, LEAST_WAIT = 8.5, 8.4
# A wait reaches from here to there of its bar; how far the letters that go lowest go below the line they stand on, in parts of their size.
UPPER, LOWER, BELOW = 0.2, 0.8, 0.24


def draw_spans(out: Writer, thread: ThreadLine, axis: Axis, colours: Colours, bar: float, high: float, text: float) -> None:
    """Each stretch by itself, or where a third of them and more would be too narrow the share of each state in small columns."""
    if is_dense(thread, axis):
        _draw_density(out, thread, axis, colours, bar, high)
        return
    order = {State.OFF: 0, State.WAITING: 1, State.READY: 2, State.RUNNING: 3}
    for span in sorted(thread.spans, key=lambda span: order[span.state]):
        _draw_span(out, thread.name, span, axis, colours, bar, high, text)


def is_dense(thread: ThreadLine, axis: Axis) -> bool:
    """Whether too many stretches would be too narrow to be told apart."""
    narrow = sum((span.end - span.start) * axis.scale < NARROW for span in thread.spans)
    return len(thread.spans) > 200 and 3 * narrow > len(thread.spans)


def _draw_span(out: Writer, name: str, span: Span, axis: Axis, colours: Colours, bar: float, high: float, text: float) -> None:
    left, wide, title = axis.at(span.start), axis.at(span.end) - axis.at(span.start), sentence(name, span)
    match span.state:
        case State.RUNNING:
            colour, ink = colours[span.priority]
            out.rect(left, bar, wide, high, title=title, fill=colour, class_="run")
            if span.high is False:
                out.rect(left, bar, wide, high, fill="url(#low)", pointer_events="none", class_="low")
            label = f"{span.priority} {span.frame}".strip()
            halo = colour if span.high is False else ""
            _label(out, [label, str(span.priority)], left, wide, bar + high * 0.74, max(LEAST_RUN, text * 0.85), ink, halo)
            _draw_frame(out, span, left, bar, wide)
        case State.READY:
            out.rect(left, bar + high * 0.2, wide, high * 0.6, title=title, fill="#ffffff", stroke=FAINT, stroke_width="0.8", class_="ready")
            at = [f"ready at {span.priority}", "ready"] if span.priority else ["ready"]
            _label(out, at, left, wide, bar + high * 0.68, max(LEAST_WAIT, text * 0.72), FAINT)
            _draw_frame(out, span, left, bar + high * 0.2, wide)
        case State.WAITING:
            colour = COLOURS[span.kind]
            size, floor = max(LEAST_WAIT, text * 0.75), bar + high * LOWER
            out.rect(left, bar + high * UPPER, wide, floor - bar - high * UPPER, title=title, fill=colour, fill_opacity="0.16", class_="wait")
            out.line(left, floor, left + wide, floor, stroke=colour, stroke_width="1.6", stroke_dasharray="2 2")
            _label(out, labels(span), left, wide, floor - 1 - size * BELOW, size, colour if span.kind != "sleep" else FAINT)
        case _:
            middle = bar + high / 2
            out.line(left, middle, left + wide, middle, title=title, stroke="#b9bfca", stroke_width="1", stroke_dasharray="2 4", class_="off")


def _draw_frame(out: Writer, span: Span, left: float, top: float, wide: float) -> None:
    """A stripe over what runs in a handler."""
    if span.frame:
        out.rect(left, top, wide, 3.6, fill=CLEANUP if span.cleanup else HANDLER, class_="cleanup" if span.cleanup else "handler")


def _label(out: Writer, texts: list[str], left: float, wide: float, y: float, size: float, fill: str, halo: str = "") -> None:
    """The longest text that has room; a number needs less beside it than a name."""
    for text in texts:
        if text and wide >= wide_of(text, size) + (1 if text.isdecimal() else 3):
            out.text(left + wide / 2, y, text, size=size, anchor="middle", fill=fill, halo=halo)
            return


@dataclass(slots=True)
class _Bin:
    """A small column: its ticks, and how many of them the thread runs, by priority, is ready, or waits."""

    left: float
    right: float
    start: int
    end: int
    runs: dict[int, int]
    ready: int = 0
    waits: int = 0


def _draw_density(out: Writer, thread: ThreadLine, axis: Axis, colours: Colours, bar: float, high: float) -> None:
    """How much of each column the thread ran, from below, in the colour at which it mostly did; above that where it was ready, and waited."""
    ready, waits = [], []
    for column in bins_of(thread, axis):
        ticks, ran = column.end - column.start, sum(column.runs.values())
        wide, base = column.right - column.left, bar + high * (1 - ran / ticks)
        if ran:
            mostly = max(column.runs, key=lambda priority: (column.runs[priority], priority))
            title = f"{thread.name}, ticks {column.start} to {column.end}: runs for {ran}, is ready for {column.ready}, waits for {column.waits}"
            out.rect(column.left, base, wide, high * ran / ticks, title=title, fill=colours[mostly][0], class_="dense")
        for count, boxes in ((column.ready, ready), (column.waits, waits)):
            if count:
                share = high * count / ticks
                base -= share
                boxes.append(f"M{short(column.left)},{short(base)}h{short(wide)}v{short(share)}h-{short(wide)}z")
    for boxes, fill, name in ((ready, "#e6e9ef", "dense-ready"), (waits, "#c3c9d4", "dense-wait")):
        if boxes:
            out.path("".join(boxes), fill=fill, class_=name)


def bins_of(thread: ThreadLine, axis: Axis) -> list[_Bin]:
    bins: list[_Bin] = []
    for segment in axis.segments:
        count = max(1, min(segment.ticks, int((segment.right - segment.left) / BIN)))
        for at in range(count):
            start, end = (segment.start + segment.ticks * k // count for k in (at, at + 1))
            bins.append(_Bin(axis.at(start), axis.at(end), start, end, {}))
    place = 0
    for span in thread.spans:
        while place > 0 and bins[place].start > span.start:
            place -= 1
        while bins[place].end <= span.start and place + 1 < len(bins):
            place += 1
        at = place
        while at < len(bins) and bins[at].start < span.end:
            _count(bins[at], span, min(span.end, bins[at].end) - max(span.start, bins[at].start))
            at += 1
    return [column for column in bins if column.end > column.start]


def _count(column: _Bin, span: Span, ticks: int) -> None:
    match span.state:
        case State.RUNNING:
            column.runs[span.priority] = column.runs.get(span.priority, 0) + ticks
        case State.READY:
            column.ready += ticks
        case _:
            column.waits += ticks


def draw_wait_sample(out: Writer, kind: str, x: float, y: float) -> None:
    """How a wait looks, for the legend."""
    out.rect(x, y - 9, 20, 9, fill=COLOURS[kind], fill_opacity="0.16")
    out.line(x, y, x + 20, y, stroke=COLOURS[kind], stroke_width="1.6", stroke_dasharray="2 2")


def draw_frame_sample(out: Writer, cleanup: bool, x: float, y: float) -> None:
    out.rect(x, y - 10, 20, 11, fill="#d5d9e0")
    out.rect(x, y - 10, 20, 3.6, fill=CLEANUP if cleanup else HANDLER)


def draw_low_sample(out: Writer, x: float, y: float) -> None:
    out.rect(x, y - 10, 20, 11, fill="#7a8aa8")
    out.rect(x, y - 10, 20, 11, fill="url(#low)")
