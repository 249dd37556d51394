"""The legend under the picture: only what the picture has."""
from __future__ import annotations

from .axis import Axis
from .svg_marks import RED, draw_mark
from .svg_objects import CONTENDED, OWNER, has_shares, too_many
from .svg_spans import draw_frame_sample, draw_low_sample, draw_wait_sample, is_dense
from .svg_writer import FAINT, INK, Writer
from .timeline import MarkKind, State, Timeline

WHAT: dict[MarkKind, str] = {
    MarkKind.START: "start", MarkKind.EXIT: "exit", MarkKind.RETURN: "a call returns 0",
    MarkKind.ERROR: "a call returns an error", MarkKind.CLOCK: "the clock is set", MarkKind.CANCEL: "cancel", MarkKind.DELIVER: "a signal is delivered",
    MarkKind.ACTIVATE: "activate", MarkKind.EXHAUST: "exhaust", MarkKind.PLAN: "plan", MarkKind.REFILL: "refill",
    MarkKind.RELEASE: "a job is released", MarkKind.LATE: "its deadline, missed"}
MOST_COLOURS = 24
LINE = 18


class _Flow:
    """Puts items side by side, and goes to the next line where one has no room."""

    def __init__(self, width: float, y: float) -> None:
        self._width, self.x, self.y = width, 8.0, y

    def room(self, letters: int, icon: float) -> float:
        wide = icon + letters * 6.0 + 14
        if self.x + wide > self._width and self.x > 8:
            self.next_line()
        at = self.x
        self.x += wide
        return at

    def next_line(self) -> None:
        self.x, self.y = 8.0, self.y + LINE


def draw_legend(out: Writer, timeline: Timeline, axis: Axis, colours: dict[int, tuple[str, str]], width: float,
                top: float) -> float:
    """Draws the legend from `top` on; gives the height of the whole picture."""
    flow = _Flow(width, top + 20)
    _priorities(out, flow, {priority: colours[priority] for priority in timeline.priorities})
    states = {span.state for thread in timeline.threads for span in thread.spans}
    low = any(span.high is False for thread in timeline.threads for span in thread.spans)
    _states(out, flow, states, low)
    _told(out, flow, timeline, axis)
    kinds = {mark.kind for thread in timeline.threads for mark in thread.marks}
    for kind in (kind for kind in MarkKind if kind in kinds):
        at = flow.room(len(WHAT[kind]), 14)
        draw_mark(out, kind, at + (3 if kind is MarkKind.LATE else 5), flow.y - 4, 4)
        out.text(at + 14, flow.y, WHAT[kind], size=10.5, fill=INK)
    if timeline.killed is not None:
        _killed(out, flow, timeline.killed.signal)
    if any(thread.is_sporadic for thread in timeline.threads):
        _item(out, flow, "blue line: the server's capacity; dashed arrow: from a plan to its due tick", FAINT)
    if axis.cuts:
        _item(out, flow, "torn band: nothing happens there, and the axis is cut", FAINT)
    return flow.y + 12


def _item(out: Writer, flow: _Flow, text: str, fill: str) -> None:
    at = flow.room(len(text), 0)
    out.text(at, flow.y, text, size=10.5, fill=fill)


def _killed(out: Writer, flow: _Flow, signal: str) -> None:
    text = f"{signal} kills the process"
    at = flow.room(len(text), 14)
    out.line(at + 5, flow.y - 10, at + 5, flow.y + 1, stroke=RED, stroke_width="2")
    out.text(at + 14, flow.y, text, size=10.5, fill=INK)


def _priorities(out: Writer, flow: _Flow, colours: dict[int, tuple[str, str]]) -> None:
    if not colours:
        return
    _item(out, flow, "runs at priority", FAINT)
    shown = sorted(colours, reverse=True)
    every = -(-len(shown) // MOST_COLOURS)
    for priority in shown[::every]:
        at = flow.room(len(str(priority)), 14)
        out.rect(at, flow.y - 10, 11, 11, fill=colours[priority][0])
        out.text(at + 14, flow.y, str(priority), size=10.5, fill=INK)
    if every > 1:
        _item(out, flow, "and between", FAINT)
    flow.next_line()


def _states(out: Writer, flow: _Flow, states: set[State], low: bool) -> None:
    if low:
        at = flow.room(26, 24)
        draw_low_sample(out, at, flow.y)
        out.text(at + 24, flow.y, "the server's low priority", size=10.5, fill=INK)
    for state, text in ((State.READY, "ready"), (State.OFF, "not running, no more is told")):
        if state not in states:
            continue
        at = flow.room(len(text), 24)
        if state is State.READY:
            out.rect(at, flow.y - 8, 20, 7, fill="#ffffff", stroke=FAINT, stroke_width="0.8")
        else:
            out.line(at, flow.y - 4, at + 20, flow.y - 4, stroke="#b9bfca", stroke_width="1", stroke_dasharray="2 4")
        out.text(at + 24, flow.y, text, size=10.5, fill=INK)


def _told(out: Writer, flow: _Flow, timeline: Timeline, axis: Axis) -> None:
    """Waits by their kinds, frames, owners and wakes, as many as there are."""
    spans = [span for thread in timeline.threads for span in thread.spans]
    for kind in dict.fromkeys(span.kind for span in spans if span.state is State.WAITING):
        text = f"waits for a {kind}" if kind not in ("sleep", "join", "") else {"sleep": "sleeps", "join": "joins", "": "waits"}[kind]
        at = flow.room(len(text), 24)
        draw_wait_sample(out, kind, at, flow.y)
        out.text(at + 24, flow.y, text, size=10.5, fill=INK)
    for cleanup in sorted({span.cleanup for span in spans if span.frame}):
        text = "in a cleanup handler" if cleanup else "in a signal handler"
        at = flow.room(len(text), 24)
        draw_frame_sample(out, cleanup, at, flow.y)
        out.text(at + 24, flow.y, text, size=10.5, fill=INK)
    bars = [waiting > 0 for mutex in timeline.mutexes for *_, waiting in mutex.bars]
    for fill, text in ((OWNER, "owner of a mutex"), (CONTENDED, "others wait for it")):
        if (fill == CONTENDED) in bars:
            at = flow.room(len(text), 24)
            out.rect(at, flow.y - 9, 20, 10, fill=fill, stroke="#b08d4c", stroke_width="0.6")
            out.text(at + 24, flow.y, text, size=10.5, fill=INK)
    if any(is_dense(thread, axis) for thread in timeline.threads):
        _item(out, flow, "heights: how much of each small column a thread runs (in its colour), is ready (pale), waits (grey)"
              + (", or a mutex is owned" if timeline.mutexes else ""), FAINT)
    elif any(has_shares(mutex, axis) for mutex in timeline.mutexes):
        _item(out, flow, "heights: how much of each small column a mutex is owned", FAINT)
    if timeline.wakes:
        _item(out, flow, "who wakes whom is not drawn, since it is too much" if too_many(timeline.wakes, axis) else "grey arrow: who wakes whom", FAINT)
