"""What the facts of a detail tell: states, execution priorities, waits by object, frames, and the owners of mutexes."""
from __future__ import annotations

from bisect import bisect_right
from collections.abc import Iterator

from .facts import Facts, ThreadFact
from .timeline import Owned, Span, State, Timeline

SLEEPS = frozenset(("nanosleep", "clock_nanosleep"))
SIGNAL_WAITS = frozenset(("sigwaitinfo", "sigtimedwait"))
SEMAPHORES = frozenset(("sem_wait", "sem_timedwait"))
CONDITIONS = frozenset(("wait", "timedwait"))
LOCKS = frozenset(("lock", "timedlock"))


def wait_kind(state: ThreadFact, mutexes: set[str]) -> str:
    """What kind of thing a blocked thread waits for: mutex, condition, semaphore, queue, signal, sleep or join."""
    if state.call in LOCKS or (state.call in CONDITIONS and state.what in mutexes):
        return "mutex"
    if state.call in CONDITIONS:
        return "condition"
    if state.call in SEMAPHORES:
        return "semaphore"
    if state.call in SIGNAL_WAITS:
        return "signal"
    if state.call in SLEEPS:
        return "sleep"
    return "join" if state.call == "join" else "queue"


def cleanup_names(facts: Facts) -> set[str]:
    """The cleanup handlers that are ever pushed: a frame of another name is that of a signal handler."""
    return {name for thread in facts.subjects("cleanups") for _, values in facts.changes("cleanups", thread) for name in values}


def stretches(facts: Facts, name: str, runs: list[tuple[int, int]], end: int) -> Iterator[tuple[int, int, ThreadFact, bool, str]]:
    """From where up to where a live thread has one state, runs or not, in one frame: the innermost body's name, empty for its own."""
    edges = {time for time, _ in facts.changes("thread", name)} | {time for time, _ in facts.changes("frames", name)}
    edges |= {edge for run in runs for edge in run} | {end}
    places = sorted(edge for edge in edges if edge <= end)
    at = 0
    for start, stop in zip(places, places[1:]):
        state = facts.thread_at(name, start)
        if not state.is_live:
            continue
        while at < len(runs) and runs[at][1] <= start:
            at += 1
        running = at < len(runs) and runs[at][0] <= start
        frames = facts.at("frames", name, start) or ()
        yield start, stop, state, running, frames[0] if frames else ""


def tell(seen: Timeline) -> None:
    """Puts what the facts tell in the place of what the events let one guess."""
    mutexes, cleanups = set(seen.facts.subjects("mutex")) | mutexes_waited_for(seen.facts), cleanup_names(seen.facts)
    for thread in seen.threads:
        told: list[Span] = []
        highs = [(span.start, span.high) for span in thread.spans if span.state is State.RUNNING]
        starts = [start for start, _ in highs]
        for start, end, state, running, frame in stretches(seen.facts, thread.name, thread.runs, seen.end):
            span = Span(start, end, State.WAITING if state.is_blocked else State.RUNNING if running else State.READY, state.execution,
                        frame=frame, cleanup=frame in cleanups)
            if state.is_blocked:
                span.call, span.what, span.until, span.kind = state.call, state.what, state.until, wait_kind(state, mutexes)
            if running:
                span.high = highs[bisect_right(starts, start) - 1][1]
            if told and goes_on(told[-1], span):
                told[-1].end = span.end
            else:
                told.append(span)
        thread.spans = told
    seen.mutexes = [owned_of(seen.facts, name, seen.end) for name in seen.facts.subjects("mutex")]


def goes_on(before: Span, span: Span) -> bool:
    """Whether a wait goes on, though the thread's priority is another one; where a setting of the clock moves its end, a stretch begins."""
    same = (before.state, before.call, before.what, before.until, before.frame) == (span.state, span.call, span.what, span.until, span.frame)
    return same and span.state is State.WAITING and before.end == span.start


def mutexes_waited_for(facts: Facts) -> set[str]:
    """The mutexes of which some fact tells, though they may not have been owned in the picture."""
    return {state.what for name in facts.subjects("thread") for _, state in facts.thread(name) if state.call in LOCKS}


def owned_of(facts: Facts, name: str, end: int) -> Owned:
    """The owners of a mutex. A stretch is one of one owner and one number of waiters."""
    owners, waiters = facts.changes("mutex", name), facts.changes("waiters", name)
    edges = sorted({time for time, _ in owners} | {time for time, _ in waiters} | {end})
    bars: list[tuple[int, int, str, int]] = []
    for start, stop in zip(edges, edges[1:]):
        owner = facts.at("mutex", name, start)
        if not owner or stop > end:
            continue
        waiting = len(facts.at("waiters", name, start) or ())
        if bars and bars[-1][1:] == (start, owner[0], waiting):
            start = bars.pop()[0]
        bars.append((start, stop, owner[0], waiting))
    return Owned(name, bars)
