"""One picture of a trace: a row for each thread, in the order of declaration, over a time axis."""
from __future__ import annotations

from .axis import Axis
from .colours import colours_of, digits_apart
from .svg_axis import draw_axis
from .svg_legend import draw_legend
from .svg_rows import LEGIBLE_TICK, Rows, Sizes
from .svg_writer import Writer
from .timeline import Timeline

LEAST_WIDTH, MOST_WIDTH, TICK_WIDTH = 560.0, 1500.0, 22.0
CUT_WIDTH = 34


def plot_width(timeline: Timeline, gutter: float, width: int | None) -> float:
    """How wide the axis is: as wide as ticks of a good size need, or what is left of the width that is asked for."""
    if width is not None:
        return max(200.0, width - gutter - Rows.MARGIN)
    return min(MOST_WIDTH - gutter - Rows.MARGIN, max(LEAST_WIDTH, (timeline.end - timeline.start) * TICK_WIDTH))


def draw(timeline: Timeline, width: int | None = None, lists: bool = False) -> str:
    sizes = Sizes.for_threads(len(timeline.threads))
    gutter = sizes.gutter(timeline)
    axis = Axis(timeline.instants, gutter, plot_width(timeline, gutter, width), CUT_WIDTH, LEGIBLE_TICK)
    colours = colours_of(timeline.scale or timeline.priorities)
    rows = Rows(timeline, axis, colours, sizes, lists)
    out = Writer()
    head = heading(timeline)
    out.text(8, 19, head, size=13, weight="bold")
    bottom = draw_axis(out, axis, rows.top, rows.bottom)
    rows.draw(out)
    wide = axis.right + Rows.MARGIN
    high = draw_legend(out, timeline, axis, colours, wide, bottom)
    return out.document(max(wide, 9 + 7.4 * len(head)), high, head)


def heading(timeline: Timeline) -> str:
    """The title, where there is one, and what the picture is of."""
    threads = len(timeline.threads)
    idle = sum(end - start for start, end in timeline.idle)
    text = f"{threads} thread{'s' if threads != 1 else ''}, ticks {digits_apart(timeline.start)} to {digits_apart(timeline.end)}"
    if idle:
        text += f", idle for {digits_apart(idle)}"
    if timeline.killed is not None:
        text += f", killed by {timeline.killed.signal}"
    if timeline.tick:
        text += f", a tick is {timeline.tick}"
    if timeline.title:
        text = f"{timeline.title}: {text}"
    return text if timeline.finished else f"{text}; the trace has no end"
