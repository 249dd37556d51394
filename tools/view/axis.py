"""The time axis: where an instant stands, and where the axis is cut because nothing happens for long."""
from __future__ import annotations

from bisect import bisect_right
from collections.abc import Sequence
from dataclasses import dataclass

MOST_CUTS = 24


@dataclass(frozen=True, slots=True)
class Segment:
    """A part of the axis: from one instant to another, and its place. In a cut part nothing happens."""

    start: int
    end: int
    left: float
    right: float
    cut: bool

    @property
    def ticks(self) -> int:
        return self.end - self.start


def parts_of(instants: Sequence[int], width: float, cut_width: float, legible: float) -> list[tuple[int, int, bool]]:
    """The parts of an axis of `width`, as (from, to, whether it is cut out).

    A gap between two instants is cut where the middle one of all gaps would be narrower than `legible` and that gap
    wider than three times `cut_width`: the longest first, at most 24 of them.
    """
    gaps = sorted(((b - a, a, b) for a, b in zip(instants, instants[1:])), key=lambda gap: gap[0], reverse=True)
    if not gaps:
        return [(instants[0], instants[0] + 1, False)]
    kept, room = instants[-1] - instants[0], width
    middle = gaps[len(gaps) // 2][0]
    cuts: list[tuple[int, int]] = []
    for long, start, end in gaps[:MOST_CUTS]:
        if middle * room / kept >= legible or long * room / kept < 3 * cut_width or long < 8:
            break
        margin = min(max(1, middle), long // 4)
        cuts.append((start + margin, end - margin))
        kept, room = kept - (long - 2 * margin), room - cut_width
    parts, at = [], instants[0]
    for start, end in sorted(cuts):
        parts += [(at, start, False), (start, end, True)]
        at = end
    return parts + [(at, instants[-1], False)]


class Axis:
    """Instants to places between `left` and `left + width`, by parts that are each linear."""

    def __init__(self, instants: Sequence[int], left: float, width: float, cut_width: float, legible: float) -> None:
        parts = parts_of(instants, width, cut_width, legible)
        kept = sum(end - start for start, end, cut in parts if not cut)
        cuts = sum(cut for _, _, cut in parts)
        self.scale = (width - cuts * cut_width) / kept
        self.segments: list[Segment] = []
        at = left
        for start, end, cut in parts:
            wide = cut_width if cut else (end - start) * self.scale
            self.segments.append(Segment(start, end, at, at + wide, cut))
            at += wide
        self._starts = [segment.start for segment in self.segments]
        self.left, self.right = left, at

    @property
    def cuts(self) -> list[Segment]:
        return [segment for segment in self.segments if segment.cut]

    def at(self, time: int) -> float:
        """The place of an instant; one past the end stands a little behind it."""
        segment = self.segments[max(0, bisect_right(self._starts, time) - 1)]
        if time > segment.end:
            return segment.right + 12
        return segment.left + (segment.right - segment.left) * (time - segment.start) / max(1, segment.ticks)


def nice_step(least: int) -> int:
    """The least of 1, 2, 5, 10, 20, 50 and so on that is at least `least`."""
    power = 10 ** max(0, len(str(max(1, least))) - 1)
    return next(factor * power for factor in (1, 2, 5, 10) if factor * power >= least)
