"""One page without a network: the picture of a run to zoom and pan in, with two cursors, the facts of each tick and the events.

The page gets its data as JSON. Times may be greater than what a number of a browser holds exactly, so all that happens
is told by points: `ticks[i]` is the instant of point i as text, and `places[i]` is where it stands on the axis.
"""
from __future__ import annotations

import json
import re
from pathlib import Path
from xml.sax.saxutils import escape

from .axis import parts_of
from .colours import colours_of
from .kinds import CLEANUP, COLOURS, HANDLER, WORDS
from .lines import Closing
from .svg import heading
from .timeline import MarkKind, Span, State, ThreadLine, Timeline

PAGE = Path(__file__).parent / "page"
SCRIPTS = ("model.js", "draw.js", "servers.js", "objects.js", "tell.js", "overview.js", "more.js", "input.js", "start.js")
CUT_PLACES, AXIS_WIDTH, LEGIBLE = 34, 1400, 6.0
STATES = {State.RUNNING: 0, State.READY: 1, State.WAITING: 2, State.OFF: 3}
# What else than states of threads the page tells of an instant.
TOLD = frozenset(("list", "mask", "cancelability", "cleanups", "pending", "mutex", "waiters", "sem", "messages", "senders", "receivers",
                  "notify", "timer", "signal"))


class Points:
    """The instants of the run, those at which only a fact changes among them, and the edges of cuts, each with its number and its place."""

    def __init__(self, timeline: Timeline) -> None:
        told = {fact.time for fact in timeline.trace.facts if timeline.start < fact.time < timeline.end}
        instants = sorted(told.union(timeline.instants))
        parts = parts_of(instants, AXIS_WIDTH, CUT_PLACES, LEGIBLE)
        kept = sum(end - start for start, end, cut in parts if not cut)
        cut_wide = kept * CUT_PLACES / AXIS_WIDTH
        starts = {start for start, _, cut in parts if cut}
        edges = {edge for start, end, cut in parts if cut for edge in (start, end)}
        self.ticks = sorted(edges.union(instants))
        self.number = {tick: number for number, tick in enumerate(self.ticks)}
        self.places = [0.0]
        for before, after in zip(self.ticks, self.ticks[1:]):
            self.places.append(self.places[-1] + (cut_wide if before in starts else after - before))
        self.cuts = sorted(self.number[start] for start in starts)


def draw(timeline: Timeline) -> str:
    data = json.dumps(data_of(timeline), separators=(",", ":")).replace("<", "\\u003c")
    script = "".join(_file(name) for name in SCRIPTS)
    parts = {"@STYLE@": _file("page.css"), "@SCRIPT@": script, "@TITLE@": escape(heading(timeline)), "@DATA@": data}
    return re.sub("|".join(parts), lambda place: parts[place[0]], _file("page.html"))


def _file(name: str) -> str:
    return (PAGE / name).read_text(encoding="utf-8")


def data_of(timeline: Timeline) -> dict[str, object]:
    """What the page is told of a run."""
    points = Points(timeline)
    number = points.number
    events = [(event[0], line) for event, line in zip(timeline.trace.events, timeline.trace.lines)
              if not isinstance(event, Closing) and timeline.start <= event[0] <= timeline.end]
    colours = colours_of(timeline.scale or timeline.priorities)
    order = {thread.name: at for at, thread in enumerate(timeline.threads)}
    return {
        "ticks": [str(tick) for tick in points.ticks], "places": points.places, "cuts": points.cuts, "detail": timeline.is_detail,
        "threads": [_thread(thread, points) for thread in timeline.threads],
        "colours": {str(priority): pair for priority, pair in colours.items()},
        "shown": {str(priority): colours[priority][0] for priority in timeline.priorities},
        "kinds": COLOURS, "words": WORDS, "frames": [HANDLER, CLEANUP],
        "mutexes": [{"name": mutex.name, "bars": [[number[start], number[end], owner, waiting] for start, end, owner, waiting in mutex.bars]}
                    for mutex in timeline.mutexes],
        "wakes": [[number[wake.time], order[wake.waker], order[wake.woken], wake.by] for wake in timeline.wakes],
        "facts": _facts(timeline, points),
        "killed": timeline.killed.signal if timeline.killed is not None and timeline.killed.time <= timeline.end else "",
        "lines": [line for _, line in events], "at": [number[time] for time, _ in events]}


def _facts(timeline: Timeline, points: Points) -> dict[str, list[list[object]]]:
    """Each fact that is told: the points at which it changes, and its words from there on."""
    facts: dict[str, list[list[object]]] = {}
    for fact in timeline.trace.facts:
        if fact.word not in TOLD or fact.time >= timeline.end:
            continue
        changes = facts.setdefault(f"{fact.word} {fact.subject}", [])
        point = points.number[max(fact.time, timeline.start)]
        if changes and changes[-1][0] == point:
            changes.pop()
        changes.append([point, " ".join(fact.values)])
    return facts


def _thread(thread: ThreadLine, points: Points) -> dict[str, object]:
    number = points.number
    return {
        "name": thread.name, "spans": [_span(span, number) for span in thread.spans],
        "marks": [[number[mark.time], mark.kind.value, mark.label] for mark in thread.marks if mark.kind is not MarkKind.RETURN],
        "server": thread.is_sporadic, "ended": 0 if thread.over else None if thread.ended is None else number[thread.ended],
        "capacity": [[number[piece.start], number[piece.end], str(piece.value), piece.falls] for piece in thread.capacity],
        "plans": [[number[plan.time], str(plan.amount), str(plan.due), number.get(plan.due, -1), -1 if plan.refilled is None else number.get(plan.refilled, -1)]
                  for plan in thread.plans if plan.time in number]}


def _span(span: Span, number: dict[int, int]) -> list[object]:
    """A stretch: from, to, state, priority, high, call, kind of wait, what for, until when, handler, whether that is a cleanup handler."""
    return [number[span.start], number[span.end], STATES[span.state], span.priority, -1 if span.high is None else int(span.high), span.call,
            span.kind, span.what, "" if span.until is None else str(span.until), span.frame, int(span.cleanup)]
