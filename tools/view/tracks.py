"""What the events of a trace alone tell of each thread.

A trace has no line where a thread blocks. What it tells is this. A `return` or `cancel` of a thread that did not run in
the tick before ends a wait that began where the thread last ran. A thread that is dispatched without such a line was
ready since it last ran. Where the processor is idle, no live thread is ready. A `plan` without `exhaust` tells that its
thread blocks, but that of a strict server does not. A `deliver` without a `return` at its instant tells that its thread was
ready. Where nothing of this tells, the stretch is `OFF`: the thread did not run, and no more is known.
"""
from __future__ import annotations

from collections.abc import Callable

from .lines import (
    Activate, Cancel, Closing, Deliver, Dispatch, End, Event, Exhaust, Exit, Idle, Killed, Plan, Refill, Return, Start,
    Trace)
from .timeline import Capacity, Mark, MarkKind, Planned, Span, State, ThreadLine


class Track:
    """A thread while the trace is read."""

    def __init__(self, name: str) -> None:
        self.line = ThreadLine(name)
        self.state: State | None = None
        self.since = 0
        self.priority = 0
        self.high: bool | None = None
        self.blocks = False
        self.catches = False
        self.capacity: int | None = None
        self.capacity_since = 0
        self.next_refill = 0

    def close(self, time: int, state: State, call: str = "") -> None:
        """The stretch that began at `since` is one of `state`, and is over at `time`."""
        if time > self.since:
            running = state is State.RUNNING
            self.line.spans.append(Span(
                self.since, time, state, self.priority if running else 0, self.high if running else None, call))
            if running and self.high and self.capacity is not None:
                self.hold(self.since)
                piece = Capacity(self.since, time, self.capacity, True)
                self.line.capacity.append(piece)
                self.capacity, self.capacity_since = piece.last, time
        self.since = time

    def hold(self, time: int) -> None:
        """The capacity has stood up to `time`."""
        if self.capacity is not None and time > self.capacity_since:
            self.line.capacity.append(Capacity(self.capacity_since, time, self.capacity, False))
            self.capacity_since = time

    def set_capacity(self, time: int, value: int) -> None:
        self.split(time)
        self.hold(time)
        self.capacity, self.capacity_since = value, time

    def split(self, time: int) -> None:
        """Where the thread runs, a new stretch begins, since something of the server changes."""
        if self.state is State.RUNNING:
            self.close(time, State.RUNNING)

    def wakes(self, time: int, call: str) -> None:
        """A line that ends a wait, where the thread does not run."""
        if self.state is State.OFF:
            self.close(time, State.WAITING, call)
            self.state, self.blocks, self.catches = State.READY, False, False
            if self.high is not None:
                self.high = False


def carry_out(plans: list[Planned], at: int, refill: Refill) -> int:
    """Notes when the plans from `at` on were carried out, and gives the first one that was not.

    A strict server may join several plans in one refill: as many as its amount is the sum of.
    """
    left = refill.amount
    while left > 0 and at < len(plans):
        plans[at].refilled, left = refill.time, left - plans[at].amount
        at += 1
    return at


class Builder:
    """Reads the events in order. Each kind has its own function."""

    def __init__(self, trace: Trace) -> None:
        self.trace = trace
        self.tracks: dict[str, Track] = {}
        self.runs: Track | None = None
        self.idle: list[tuple[int, int]] = []
        self.idle_since: int | None = None
        self.last_idle = -1
        self.killed: Killed | None = None
        self.end: int | None = None
        self.line = 0
        self.strict: set[str] = set()
        self.changed = 0

    def track(self, name: str) -> Track:
        track = self.tracks.get(name)
        if track is None:
            track = self.tracks[name] = Track(name)
        return track

    def mark(self, event: Event, kind: MarkKind, label: str = "") -> Track:
        track = self.track(event.name)
        track.line.marks.append(Mark(event.time, kind, label, self.line))
        return track

    def stop_running(self, time: int) -> None:
        if self.runs is not None:
            self.runs.close(time, State.RUNNING)
            self.runs.state, self.runs = State.OFF, None
        if self.idle_since is not None:
            if time > self.idle_since:
                self.idle.append((self.idle_since, time))
            self.idle_since = None

    def dispatch(self, event: Dispatch) -> None:
        self.stop_running(event.time)
        track = self.track(event.name)
        if track.state is None:
            track.since = event.time
        track.close(event.time, State.READY)
        track.state, track.priority, track.blocks, track.catches = State.RUNNING, event.priority, False, False
        self.runs = track

    def idles(self, event: Idle) -> None:
        self.stop_running(event.time)
        self.idle_since = self.last_idle = event.time

    def start(self, event: Start) -> None:
        track = self.mark(event, MarkKind.START)
        track.since, track.state = event.time, State.READY

    def exit(self, event: Exit) -> None:
        track = self.mark(event, MarkKind.EXIT)
        if self.runs is track:
            self.runs = None
            track.close(event.time, State.RUNNING)
        elif track.state is not None:
            track.close(event.time, track.state)
        track.hold(event.time)
        track.state, track.capacity, track.line.ended = None, None, event.time

    def returns(self, event: Return) -> None:
        if (event.call, event.result) == ("clock_settime", "0"):
            track = self.mark(event, MarkKind.CLOCK, "clock")
        elif event.result == "0":
            track = self.mark(event, MarkKind.RETURN, event.call)
        else:
            track = self.mark(event, MarkKind.ERROR, event.result)
        track.wakes(event.time, event.call)
        if event.call == "setsched" and event.result == "0":
            self.changed = event.time

    def cancel(self, event: Cancel) -> None:
        self.mark(event, MarkKind.CANCEL).wakes(event.time, "cancelled")

    def deliver(self, event: Deliver) -> None:
        track = self.mark(event, MarkKind.DELIVER, event.signal)
        track.catches = track.state is State.OFF

    def is_killed(self, event: Killed) -> None:
        self.killed = event

    def activate(self, event: Activate) -> None:
        track = self.mark(event, MarkKind.ACTIVATE)
        if isinstance(self.trace.events[self.line - 1], Dispatch):
            self.strict.add(event.name)
            self.was_full(track, event.capacity)
        track.set_capacity(event.time, event.capacity)
        track.high = True

    def was_full(self, track: Track, budget: int) -> None:
        """A strict server is new, and full, from its thread's start on or a change of parameters; that is told where it first runs, or at the end."""
        starts = [mark.time for mark in track.line.marks if mark.kind is MarkKind.START]
        if starts and track.capacity is None:
            track.capacity, track.capacity_since = budget, max(starts[-1], self.changed)

    def exhaust(self, event: Exhaust) -> None:
        track = self.mark(event, MarkKind.EXHAUST)
        track.set_capacity(event.time, 0)
        track.high = False

    def plan(self, event: Plan) -> None:
        track = self.track(event.name)
        marks = track.line.marks
        exhausted = bool(marks) and marks[-1].kind is MarkKind.EXHAUST and marks[-1].time == event.time
        self.mark(event, MarkKind.PLAN, f"+{event.amount}")
        track.blocks = not exhausted and not self.is_strict(track)
        track.split(event.time)
        track.high = False
        track.line.plans.append(Planned(event.time, event.amount, event.due))

    def is_strict(self, track: Track) -> bool:
        """Whether the thread has a strict server, as far as is known: one that plans when it is preempted, and not only when it blocks.

        Its `activate` stands behind a `dispatch` of the same instant, where that of another server stands before it.
        """
        return track.line.name in self.strict

    def refill(self, event: Refill) -> None:
        track = self.mark(event, MarkKind.REFILL, f"+{event.amount}")
        track.set_capacity(event.time, event.capacity)
        track.next_refill = carry_out(track.line.plans, track.next_refill, event)

    def ends(self, event: End) -> None:
        self.finish(event.time)
        self.end = event.time

    def closing(self, event: Closing) -> None:
        track = self.track(event.name)
        track.line.closing = event
        if event.budget is not None and event.budget.high == 0 and self.end is not None:
            self.was_full(track, event.budget.init)
            track.hold(self.end)

    def finish(self, time: int) -> None:
        """The run is over: each stretch that is open ends here."""
        self.stop_running(time)
        for track in self.tracks.values():
            if track.state is State.OFF:
                waits = track.blocks or self.last_idle >= track.since
                track.close(time, State.READY if track.catches else State.WAITING if waits else State.OFF)
            elif track.state is State.READY:
                track.close(time, State.READY)
            track.hold(time)

    def order(self) -> list[ThreadLine]:
        """The threads in the order of their closing lines, which is that of their declaration."""
        closed = [event.name for event in self.trace.events[-len(self.tracks):] if isinstance(event, Closing)]
        names = closed + [name for name in self.tracks if name not in set(closed)]
        return [self.tracks[name].line for name in names]


HANDLERS: dict[type, Callable[[Builder, Event], None]] = {
    Dispatch: Builder.dispatch, Idle: Builder.idles, Start: Builder.start, Exit: Builder.exit,
    Return: Builder.returns, Cancel: Builder.cancel, Deliver: Builder.deliver, Killed: Builder.is_killed,
    Activate: Builder.activate, Exhaust: Builder.exhaust, Plan: Builder.plan, Refill: Builder.refill,
    End: Builder.ends, Closing: Builder.closing}
