"""Values over time for formats that know no slopes: a capacity that falls, as steps."""
from __future__ import annotations

from collections.abc import Iterator

from .timeline import Capacity, Timeline

MOST_STEPS = 1_000_000
MOST_STEPS_OF_ONE = 1_000


def steps_at_most(timeline: Timeline) -> int:
    """How many steps one stretch of a falling capacity may have, so that all of them together are not too many."""
    falling = sum(piece.falls for thread in timeline.threads for piece in thread.capacity)
    return max(1, min(MOST_STEPS_OF_ONE, MOST_STEPS // max(1, falling)))


def capacity_steps(pieces: list[Capacity], most: int) -> Iterator[tuple[int, int]]:
    """The instants at which the capacity is another one, and what it is from there on.

    A stretch of at most `most` ticks has a step for each tick; of a longer one only `most` are told, evenly.
    """
    last = None
    for piece in pieces:
        ticks = piece.end - piece.start
        for number in range(min(most, ticks) + 1 if piece.falls else 1):
            time = piece.start + number * ticks // min(most, ticks) if piece.falls else piece.start
            value = piece.at(time)
            if value != last:
                yield time, value
                last = value
