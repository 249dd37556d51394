"""Values over time for the formats that have counters: priorities, semaphores, queues, owners, capacities."""
from __future__ import annotations

from collections.abc import Iterator

from .facts import Facts
from .lines import Return
from .steps import capacity_steps
from .timeline import State, ThreadLine, Timeline

Steps = list[tuple[int, int]]
# The calls that change the value of a semaphore, and by how much.
SEMAPHORE_CALLS = {"sem_post": 1, "sem_wait": -1, "sem_timedwait": -1, "sem_trywait": -1}


def clipped(changes: Iterator[tuple[int, int]], start: int, end: int) -> Steps:
    """The changes from `start` to `end`, with the value that holds at `start`; changes that change nothing are left out."""
    steps: Steps = []
    for time, value in changes:
        if time > end:
            break
        if time <= start:
            steps = [(start, value)]
        elif not steps or steps[-1][1] != value:
            steps.append((time, value))
    return steps


def semaphores(seen: Timeline) -> dict[str, Steps]:
    """The values of the semaphores that change, each from its declared value on."""
    found = {name: [(time, int(values[0])) for time, values in seen.facts.changes("sem", name)] for name in seen.facts.subjects("sem")}
    calls: dict[int, str] = {}
    for event in seen.trace.events if found else ():
        if isinstance(event, Return) and event.call in SEMAPHORE_CALLS:
            calls.setdefault(event.time, event.call)
    return {name: clipped(iter(declared(changes[0], calls) + changes), seen.start, seen.end) for name, changes in found.items()}


def declared(first: tuple[int, int], calls: dict[int, str]) -> Steps:
    """The value that a semaphore begins with. No fact tells it, but the call of its first change, which is by one, has a line."""
    time, value = first
    return [(0, value - SEMAPHORE_CALLS[calls[time]])] if time in calls else []


def queues(seen: Timeline) -> dict[str, Steps]:
    """How many messages stand in each queue."""
    return {name: clipped(((time, len(values) // 2) for time, values in seen.facts.changes("messages", name)), seen.start, seen.end)
            for name in seen.facts.subjects("messages")}


def priorities(seen: Timeline, thread: ThreadLine) -> Steps:
    """The execution priority of a thread at each tick, 0 where it has not started or has ended.

    A trace alone tells it where the thread is dispatched, and is then taken to keep it.
    """
    if seen.is_detail:
        return clipped(((time, state.execution) for time, state in seen.facts.thread(thread.name)), seen.start, seen.end)
    steps = [(span.start, span.priority) for span in thread.spans if span.state is State.RUNNING]
    if thread.ended is not None:
        steps.append((thread.ended, 0))
    return clipped(iter(steps), seen.start, seen.end)


def capacity(thread: ThreadLine, most: int) -> Steps:
    """The capacity of a server, 0 behind the end of its thread."""
    steps = list(capacity_steps(thread.capacity, most))
    return steps + [(thread.ended, 0)] if thread.ended is not None and steps else steps


def owner_at(facts: Facts, mutex: str, time: int) -> str:
    """Who owns a mutex, or `free`."""
    return (facts.at("mutex", mutex, time) or ("free",))[0]
