"""The rows of the picture: threads with their servers, then mutexes, then lists where they are asked for."""
from __future__ import annotations

from dataclasses import dataclass

from .axis import Axis
from .svg_axis import HEIGHT as AXIS_HEIGHT
from .svg_axis import draw_cut_edges
from .svg_marks import RED, Marks, draw_marks, place_marks
from .svg_objects import HEIGHT as MUTEX_HEIGHT
from .svg_objects import LIST, draw_list, draw_mutex, draw_wakes, list_priorities
from .svg_server import draw_server
from .svg_spans import draw_spans
from .svg_writer import Writer
from .timeline import ThreadLine, Timeline

LEGIBLE_TICK = 6.0
HEAD = 30


@dataclass(frozen=True, slots=True)
class Sizes:
    """Heights in the picture: of a bar, of the marks above it, of a server's lane, and of the text."""

    bar: float
    marks: float
    server: float
    gap: float
    text: float

    @staticmethod
    def for_threads(count: int) -> "Sizes":
        if count <= 12:
            return Sizes(20, 16, 56, 8, 12)
        return Sizes(15, 12, 38, 5, 10.5) if count <= 28 else Sizes(13, 9, 28, 3, 10)

    @property
    def radius(self) -> float:
        """Half the width of a mark."""
        return min(4.2, self.marks * 0.28)

    def gutter(self, timeline: Timeline) -> float:
        names = [thread.name for thread in timeline.threads] + [mutex.name for mutex in timeline.mutexes]
        return 16 + max(44.0, max(map(len, names), default=4) * self.text * 0.66)


class Rows:
    """Where each row stands, and how it is drawn."""

    MARGIN = 34

    def __init__(self, timeline: Timeline, axis: Axis, colours: dict[int, tuple[str, str]], sizes: Sizes, lists: bool) -> None:
        self._timeline, self._axis, self._colours, self._sizes = timeline, axis, colours, sizes
        self.top = HEAD + AXIS_HEIGHT
        self.right = axis.right + self.MARGIN
        self._marks: list[Marks] = [place_marks(thread, axis, sizes.radius, self.right) for thread in timeline.threads]
        self._places: list[float] = []
        at = self.top + 4
        for thread, marks in zip(timeline.threads, self._marks):
            self._places.append(at)
            at += self._height(thread, marks)
        self._mutexes, self._lists = at + 6, at + 6 + MUTEX_HEIGHT * len(timeline.mutexes)
        self._priorities = list_priorities(timeline) if lists else []
        self.bottom = (self._lists + LIST * len(self._priorities) if timeline.mutexes or self._priorities else at) + 2

    def _room(self, marks: Marks) -> float:
        """The height of the marks of a thread."""
        return self._sizes.marks + (marks.levels - 1) * (2 * self._sizes.radius + 2)

    def _height(self, thread: ThreadLine, marks: Marks) -> float:
        sizes = self._sizes
        return self._room(marks) + sizes.bar + sizes.gap + (sizes.server if thread.is_sporadic else 0)

    def draw(self, out: Writer) -> None:
        bars: dict[str, tuple[float, float]] = {}
        for thread, marks, y in zip(self._timeline.threads, self._marks, self._places):
            bar = y + self._room(marks)
            bars[thread.name] = bar, bar + self._sizes.bar
            self._draw_row(out, thread, marks, y, bar)
        for number, mutex in enumerate(self._timeline.mutexes):
            draw_mutex(out, mutex, self._axis, self._mutexes + number * MUTEX_HEIGHT)
        for number, priority in enumerate(self._priorities):
            draw_list(out, self._timeline, priority, self._axis, self._lists + number * LIST)
        draw_wakes(out, self._timeline.wakes, self._axis, bars)
        draw_cut_edges(out, self._axis, self.top, self.bottom)
        if self._timeline.killed is not None:
            place = self._axis.at(self._timeline.killed.time)
            out.line(place, self.top - 6, place, self.bottom, stroke=RED, stroke_width="2",
                     title=f"{self._timeline.killed.time} killed {self._timeline.killed.signal}")

    def _draw_row(self, out: Writer, thread: ThreadLine, marks: Marks, y: float, bar: float) -> None:
        sizes, bottom = self._sizes, y + self._height(thread, marks) - 1
        out.line(8, bottom, self._axis.right, bottom, stroke="#eceef2", stroke_width="1")
        out.text(8, bar + sizes.bar * 0.75, thread.name, size=sizes.text, weight="bold", title=f"{thread.name}: ran for {thread.ticks} ticks")
        draw_spans(out, thread, self._axis, self._colours, bar, sizes.bar, sizes.text)
        draw_marks(out, marks, self._timeline.trace.lines, bar, sizes.radius, self.right)
        if thread.is_sporadic:
            draw_server(out, thread, self._axis, bar + sizes.bar + 6, sizes.server - 16, self._timeline.start, self._timeline.end)
