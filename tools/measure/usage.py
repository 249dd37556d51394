"""What threads and servers used: ticks, preemptions, waits by object, time at each priority, capacity."""
from __future__ import annotations

from bisect import bisect
from collections import defaultdict
from dataclasses import dataclass

from view.lines import Activate, Exhaust, Exit, Refill
from view.seen import timeline_of

from .seen import Seen


@dataclass(frozen=True, slots=True)
class Stops:
    """How often a thread lost the processor while it could have run: to a more urgent one, or to another one in its turn."""

    preempted: int
    turns: int


@dataclass(frozen=True, slots=True)
class Waits:
    """The waits of a thread in one call for one thing: how many, their ticks, the longest, and whether one is open at the end."""

    call: str
    on: str
    times: int
    ticks: int
    longest: int
    open: bool


@dataclass(frozen=True, slots=True)
class Capacity:
    """What a server used at its high priority of what it had: its budget and what was refilled, since it was new, as far as it is told."""

    used: int | None
    had: int | None
    exhausted: int
    refill_waits: list[int] | None


def ticks_of(seen: Seen, name: str) -> int:
    """How many ticks the thread ran: its closing line says so."""
    if name in seen.closing:
        return seen.closing[name].ticks
    return sum(end - start for start, end in seen.runs.get(name, ()))


def stops_of(seen: Seen, name: str) -> Stops:
    """By the facts where the thread stops running and stays ready. The next one is more urgent, or it has the same priority."""
    preempted = turns = 0
    for _, stop in seen.runs.get(name, ()):
        state = seen.facts.thread_at(name, stop)
        if stop >= seen.end or not state.is_ready:
            continue
        if seen.facts.thread_at(seen.runs_from[stop], stop).execution > state.execution:
            preempted += 1
        else:
            turns += 1
    return Stops(preempted, turns)


def ready_ticks(seen: Seen, name: str) -> int:
    """How many ticks the thread was ready and did not run."""
    ready = sum(end - start for start, end, state in seen.states(name) if state.is_ready)
    return ready - sum(end - start for start, end in seen.runs.get(name, ()))


def waits_of(seen: Seen, name: str) -> list[Waits]:
    """The waits by call and by what is waited for, in the order in which they first come.

    A wait for a condition that ends in a contention counts for the mutex from there on.
    """
    found: dict[tuple[str, str], list[tuple[int, bool]]] = defaultdict(list)
    before = None
    for start, end, state in seen.states(name):
        key = state.call, state.what
        if not state.is_blocked:
            before = None
            continue
        is_open = end == seen.end and not seen.blocked(name)[-1].ended
        if before == key:
            ticks, _ = found[key].pop()
            found[key].append((ticks + end - start, is_open))
        else:
            found[key].append((end - start, is_open))
        before = key
    return [Waits(call, on, len(waits), sum(ticks for ticks, _ in waits), max(ticks for ticks, _ in waits), waits[-1][1])
            for (call, on), waits in found.items()]


def at_priorities(seen: Seen, name: str) -> dict[int, int]:
    """How many ticks the thread ran at each execution priority, the highest first."""
    states = seen.states(name)
    ticks: dict[int, int] = defaultdict(int)
    at = 0
    for start, end in seen.runs.get(name, ()):
        while at < len(states) and states[at][1] <= start:
            at += 1
        place = at
        while place < len(states) and states[place][0] < end:
            since, until, state = states[place]
            ticks[state.execution] += min(until, end) - max(since, start)
            place += 1
    return dict(sorted(ticks.items(), reverse=True))


def is_server(seen: Seen, name: str) -> bool:
    return bool(seen.of(name, Activate, Exhaust, Refill)) or (name in seen.closing and seen.closing[name].budget is not None)


def changes_of_policy(seen: Seen) -> list[int]:
    """The lines of each `setsched` that came true. None says of which thread it is, nor which policy."""
    return [call.line for call in seen.returned if call.event.call == "setsched" and call.event.result == "0"]


def silent_changes(seen: Seen) -> list[int]:
    """Those behind which no new server is activated."""
    return [line for line in changes_of_policy(seen) if not any(isinstance(event, Activate) for event in seen.trace.events[line + 1:line + 2])]


def high_ticks(seen: Seen, name: str) -> int | None:
    """The ticks at high priority over the thread's whole life; None where the trace does not tell them.

    The closing line tells them where its server is the first one, else the stretches in which the thread ran. What a `setsched`
    does is told only where a new server is activated behind it.
    """
    closing = seen.closing.get(name)
    if closing is None or silent_changes(seen):
        return None
    if closing.budget and not changes_of_policy(seen):
        return closing.budget.high
    return next(thread for thread in timeline_of(seen.trace).threads if thread.name == name).high_ticks


def refill_waits(seen: Seen, name: str) -> list[int] | None:
    """From each exhaustion to what ends it: the refill that follows, new parameters, the end of the thread, or that of the run.

    New parameters that activate no server have no line of the thread. A detail tells them, for the pending replenishments are gone;
    of a trace the waits are then None.
    """
    lines = sorted(line for kind in (Refill, Activate, Exit) for line in seen.places.get((kind, name), ()))
    gone = [time for time, pending in seen.facts.changes("pending", name) if not pending]
    silent = [] if seen.is_detail else silent_changes(seen)
    waits = []
    for exhausted in seen.places.get((Exhaust, name), ()):
        since, behind = seen.trace.events[exhausted].time, lines[bisect(lines, exhausted):][:1]
        if any(exhausted < line < min(behind, default=line + 1) for line in silent):
            return None
        ends = [seen.trace.events[line].time for line in behind] + gone[bisect(gone, since):][:1]
        waits.append(min(ends, default=seen.end) - since)
    return waits


def capacity_of(seen: Seen, name: str) -> Capacity:
    """From the closing line of a live server; of one that has ended the budget is not told, and what it used only by its stretches."""
    budget = seen.closing[name].budget
    used = budget.high if budget else high_ticks(seen, name)
    return Capacity(used, budget.init + budget.refilled if budget else None, len(seen.of(name, Exhaust)), refill_waits(seen, name))
