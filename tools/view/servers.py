"""Servers that a setsched ended or replaced. No line names the thread that it was for; what comes behind it tells.

It was for a thread whose assigned priority is another one from that instant on. Where no fact tells that, it was for one that
then runs lower than it did, or longer than its server had capacity, without a line of that server, or that is activated with
another capacity. A new server is full until it is activated; a thread that has none any more has no capacity. What the old
one had planned is dropped.
"""
from __future__ import annotations

from bisect import bisect_left, bisect_right
from itertools import accumulate

from .lines import Activate, Refill, Return, Trace
from .timeline import Capacity, MarkKind, State, ThreadLine, Timeline
from .tracks import carry_out

OF_SERVERS = frozenset((MarkKind.ACTIVATE, MarkKind.EXHAUST, MarkKind.PLAN, MarkKind.REFILL))


def returns_of(trace: Trace, call: str) -> list[int]:
    """When a call succeeded."""
    return [event.time for event in trace.events if isinstance(event, Return) and (event.call, event.result) == (call, "0")]


def end_servers(seen: Timeline) -> None:
    """Takes what was told of a server from the stretches behind each setsched that ended or replaced it."""
    times = returns_of(seen.trace, "setsched")
    if not times:
        return
    lowers = bool(returns_of(seen.trace, "setprio"))
    refills: dict[str, list[Refill]] = {}
    for event in seen.trace.events:
        if isinstance(event, Refill):
            refills.setdefault(event.name, []).append(event)
    for thread in seen.threads:
        ends = _ends(seen, thread, times, lowers)
        if ends:
            _end(thread, ends)
            _plan_anew(thread, [time for time, _, _ in ends], refills.get(thread.name, []))


def _ends(seen: Timeline, thread: ThreadLine, times: list[int], lowers: bool) -> list[tuple[int, int, int]]:
    """Each setsched that was for a thread with a server: when, up to where nothing more is told of it, and the capacity up to there."""
    told = [mark for mark in thread.marks if mark.kind in OF_SERVERS]
    lowest = list(accumulate((span.priority if span.state is State.RUNNING and span.high else 256 for span in thread.spans), min, initial=256))
    found: list[tuple[int, Activate | None]] = []
    for time, behind in zip(times, [*times[1:], seen.end]):
        at = bisect_left(told, time, key=lambda mark: mark.time)
        following = seen.trace.events[told[at].line] if at < len(told) else None
        if at > 0 and (following is None or isinstance(following, Activate)) and _is_ended(seen, thread, time, behind, following, None if lowers else lowest):
            found.append((time, following))
    last = seen.end if thread.ended is None else thread.ended
    ends = []
    for (time, following), then in zip(found, [*(time for time, _ in found[1:]), last]):
        full = following is not None and following.time <= then
        ends.append((time, following.time if full else max(then, time), following.capacity if full else 0))
    return ends


def _is_ended(seen: Timeline, thread: ThreadLine, time: int, behind: int, following: Activate | None, lowest: list[int] | None) -> bool:
    """Whether the setsched of an instant was for this thread, by its facts, or by what it did up to the next setsched."""
    if seen.is_detail:
        return seen.facts.thread_at(thread.name, time - 1).assigned != seen.facts.thread_at(thread.name, time).assigned
    if following is not None and thread.capacity_at(following.time - 1) is not None:
        held = thread.capacity[bisect_left(thread.capacity, following.time, key=lambda piece: piece.start) - 1]
        if held.last != following.capacity:
            return True
    until = behind if following is None else min(behind, following.time)
    first, last = (bisect_left(thread.spans, edge, key=lambda span: span.start) for edge in (time, until))
    runs = [span for span in thread.spans[first:last] if span.state is State.RUNNING and span.high]
    left = thread.capacity_at(time)
    if left is not None and sum(span.end - span.start for span in runs) > left:
        return True
    return lowest is not None and any(span.priority < lowest[first] < 256 for span in runs)


def _end(thread: ThreadLine, ends: list[tuple[int, int, int]]) -> None:
    """No stretch behind an end is at a high priority, and the capacity there is another one."""
    starts = [time for time, _, _ in ends]
    for span in thread.spans:
        at = bisect_right(starts, span.start) - 1
        if at >= 0 and span.start < ends[at][1]:
            span.high = None
    kept: list[Capacity] = [Capacity(time, until, value, False) for time, until, value in ends if until > time]
    for piece in thread.capacity:
        at = bisect_right(starts, piece.start) - 1
        if at >= 0 and piece.start < ends[at][1]:
            continue
        stop = min(piece.end, starts[at + 1]) if at + 1 < len(starts) else piece.end
        if stop > piece.start:
            kept.append(Capacity(piece.start, stop, piece.value, piece.falls))
    thread.capacity = sorted(kept, key=lambda piece: piece.start)


def _plan_anew(thread: ThreadLine, times: list[int], refills: list[Refill]) -> None:
    """The refills behind an end carry out what was planned behind it."""
    for plan in thread.plans:
        if plan.refilled is not None and plan.refilled > times[0]:
            plan.refilled = None
    at = 0
    for event in refills:
        if event.time > times[0]:
            time = times[bisect_left(times, event.time) - 1]
            at = carry_out(thread.plans, max(at, bisect_right(thread.plans, time, key=lambda plan: plan.time)), event)
