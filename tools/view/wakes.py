"""Who wakes whom: the calls of a running thread that end the wait of another one, or start it.

The lines of an instant begin with the effect of the tick that ends there: the line of the thread that ran, and behind it
those of the threads that it woke. What time wakes, as the end of a sleep, a time limit or a timer, has no waker.
"""
from __future__ import annotations

from collections.abc import Iterator
from dataclasses import dataclass

from .facts import Facts
from .lines import Cancel, Deliver, Dispatch, Event, Exit, Idle, Return, Start, Trace

SLEEPS = frozenset(("nanosleep", "clock_nanosleep"))
CONDITION_WAITS = frozenset(("wait", "timedwait"))


@dataclass(frozen=True, slots=True)
class Wake:
    """At an instant the first thread wakes the second one by a call, or by its end."""

    time: int
    waker: str
    woken: str
    by: str


def wakes_of(trace: Trace, facts: Facts) -> list[Wake]:
    """The wakes of a trace in their order."""
    return list(_wakes(trace, facts))


def _wakes(trace: Trace, facts: Facts) -> Iterator[Wake]:
    runs: str | None = None
    instant: list[Event] = []
    for event in trace.events:
        if len(event) > 1 or isinstance(event, Idle):
            if instant and event[0] != instant[0][0]:
                yield from _of_an_instant(instant, runs, facts)
                runs, instant = _runs_behind(instant, runs), []
            if isinstance(event[0], int):
                instant.append(event)
    yield from _of_an_instant(instant, runs, facts)


def _runs_behind(instant: list[Event], runs: str | None) -> str | None:
    """Who runs in the tick that begins at the instant."""
    for event in reversed(instant):
        if isinstance(event, Dispatch):
            return event.name
        if isinstance(event, Idle):
            return None
    return runs


def _of_an_instant(instant: list[Event], runs: str | None, facts: Facts) -> Iterator[Wake]:
    by = next((event.call if isinstance(event, Return) else "exit" for event in instant
               if isinstance(event, (Return, Exit)) and event.name == runs), None)
    if runs is None or by is None:
        return
    signals = {event.name: event.code for event in instant if isinstance(event, Deliver)}
    for event in instant:
        if isinstance(event, (Return, Cancel, Start)) and event.name != runs and _is_woken(event, by, signals, facts):
            yield Wake(event.time, runs, event.name, by)


def _is_woken(event: Event, by: str, signals: dict[str, str], facts: Facts) -> bool:
    """Whether the line tells of a wake that a call makes, and not the time."""
    match event:
        case Start():
            return by == "create"
        case Cancel():
            return True
        case Return(time, name, call, result, _):
            before = facts.thread_at(name, time - 1)
            if call in CONDITION_WAITS and facts.at("mutex", before.what, time) is not None and before.until is None:
                return True
            if result == "EINTR" or call in ("sigwaitinfo", "sigtimedwait"):
                return signals.get(name, "TIMER") != "TIMER"
            return result != "ETIMEDOUT" and not (result == "0" and call in SLEEPS)
    return False
