"""A part of a picture: some of the threads, from one instant to another."""
from __future__ import annotations

from dataclasses import replace

from .timeline import Capacity, Owned, Span, ThreadLine, Timeline


class NoWindow(Exception):
    """Why there is nothing to be shown."""


def window(seen: Timeline, start: int | None, end: int | None, names: list[str] | None) -> Timeline:
    """The picture from `start` to `end`, with these threads in this order. Raises NoWindow."""
    first, last = start or 0, seen.end if end is None else min(end, seen.end)
    if first > last or (first == last and seen.end > 0):
        raise NoWindow(f"the run goes from 0 to {seen.end}, and nothing of it stands between {first} and {last}")
    threads = seen.threads if names is None else [_named(seen, name) for name in names]
    if (first, last) != (0, seen.end):
        threads = [_thread(thread, first, last) for thread in threads]
    shown = {thread.name for thread in threads}
    mutexes = [_mutex(mutex, first, last) for mutex in seen.mutexes]
    return replace(
        seen, threads=threads, start=first, end=last,
        idle=[(max(a, first), min(b, last)) for a, b in seen.idle if b > first and a < last],
        killed=seen.killed if seen.killed and seen.killed.time <= last else None,
        mutexes=[mutex for mutex in mutexes if names is None or shown & {owner for _, _, owner, _ in mutex.bars}],
        scale=seen.scale or seen.priorities,
        wakes=[wake for wake in seen.wakes if first <= wake.time <= last and {wake.waker, wake.woken} <= shown])


def _named(seen: Timeline, name: str) -> ThreadLine:
    for thread in seen.threads:
        if thread.name == name:
            return thread
    raise NoWindow(f"the trace has no thread '{name}'; it has {', '.join(thread.name for thread in seen.threads)}")


def _thread(thread: ThreadLine, first: int, last: int) -> ThreadLine:
    ended = thread.ended
    return replace(
        thread, ended=ended if ended is not None and first <= ended <= last else None, over=ended is not None and ended < first,
        spans=[_clipped(span, first, last) for span in thread.spans if span.end > first and span.start < last],
        runs=[(max(a, first), min(b, last)) for a, b in thread.runs if b > first and a < last],
        marks=[mark for mark in thread.marks if first <= mark.time <= last],
        plans=[plan for plan in thread.plans if plan.time <= last and max(plan.due, plan.refilled or 0) >= first],
        capacity=[_piece(piece, first, last) for piece in thread.capacity if piece.end > first and piece.start < last])


def _clipped(span: Span, first: int, last: int) -> Span:
    return replace(span, start=max(span.start, first), end=min(span.end, last))


def _piece(piece: Capacity, first: int, last: int) -> Capacity:
    start = max(piece.start, first)
    return Capacity(start, min(piece.end, last), piece.at(start), piece.falls)


def _mutex(mutex: Owned, first: int, last: int) -> Owned:
    return Owned(mutex.name, [(max(a, first), min(b, last), owner, waiting) for a, b, owner, waiting in mutex.bars if b > first and a < last])
