"""What stands between threads: bars of the owners of mutexes, arrows from who wakes to who is woken, and the lists themselves."""
from __future__ import annotations

from .axis import Axis
from .svg_spans import bins_of, is_dense
from .svg_writer import FAINT, INK, Writer, short, wide_of
from .timeline import Owned, Span, State, ThreadLine, Timeline, Wake

HEIGHT, BAR, LIST = 22.0, 13.0, 17.0
NAME = 8.8
OWNER, CONTENDED = "#e8d9b5", "#eab676"
ARROW = "#5c6675"
LEAST_APART = 12.0


def _as_thread(mutex: Owned) -> ThreadLine:
    """A mutex as a thread that runs while it is owned, at priority 1 while others wait for it."""
    return ThreadLine(mutex.name, [Span(start, end, State.RUNNING, min(waiting, 1)) for start, end, _, waiting in mutex.bars])


def has_shares(mutex: Owned, axis: Axis) -> bool:
    """Whether its bars stand too close to be told apart."""
    return is_dense(_as_thread(mutex), axis)


def draw_mutex(out: Writer, mutex: Owned, axis: Axis, y: float) -> None:
    """A bar for each owner, darker where others wait for it."""
    out.text(8, y + BAR - 2, mutex.name, size=10, fill=FAINT, title=f"the mutex {mutex.name}")
    out.line(8, y + HEIGHT - 3, axis.right, y + HEIGHT - 3, stroke="#eceef2", stroke_width="1")
    if has_shares(mutex, axis):
        _draw_shares(out, _as_thread(mutex), axis, y)
        return
    last = -9.0
    for start, end, owner, waiting in mutex.bars:
        left, right = axis.at(start), axis.at(end)
        if right - last < 1:
            continue
        last = right
        others = f", and {waiting} wait for it" if waiting else ""
        title = f"{owner} owns {mutex.name} for {end - start} ticks [{start}, {end}){others}"
        out.rect(left, y, right - left, BAR, title=title, fill=CONTENDED if waiting else OWNER, stroke="#b08d4c", stroke_width="0.6", class_="owner")
    _draw_names(out, mutex, axis, y)


def _draw_names(out: Writer, mutex: Owned, axis: Axis, y: float) -> None:
    """The name of each owner in its bars; where none of those that touch has room for it, across or beside them, or from them on."""
    owned: list[list[tuple[int, int, str, int]]] = []
    for bar in mutex.bars:
        if owned and owned[-1][-1][1:3] == (bar[0], bar[2]):
            owned[-1].append(bar)
        else:
            owned.append([bar])
    free = axis.left
    for number, bars in enumerate(owned):
        owner, left, right = bars[0][2], axis.at(bars[0][0]), axis.at(bars[-1][1])
        wide = wide_of(owner, NAME) + 3
        places = [(axis.at(start) + axis.at(end)) / 2 for start, end, *_ in bars if axis.at(end) - axis.at(start) >= wide]
        if not places and right - left >= wide:
            places = [(left + right) / 2]
        until = axis.at(owned[number + 1][0][0]) if number + 1 < len(owned) else axis.right
        free = max(free, left) if places else free
        for place in places:
            out.text(place, y + BAR - 3, owner, size=NAME, anchor="middle", fill=INK)
        if not places and until - right >= wide + 3:
            out.text(right + 3, y + BAR - 3, owner, size=NAME, fill=INK)
            right += wide + 3
        elif not places and left - free >= wide + 3:
            out.text(left - 3, y + BAR - 3, owner, size=NAME, anchor="end", fill=INK)
        elif not places and until - left >= wide + 3:
            out.text(left + 3, y + BAR - 3, owner, size=NAME, fill=INK)
            right = left + 3 + wide
        free = max(free, right)


def _draw_shares(out: Writer, line: ThreadLine, axis: Axis, y: float) -> None:
    """How much of each column a mutex is owned, from below: first where others wait for it."""
    for column in bins_of(line, axis):
        wide, ticks, base = column.right - column.left, column.end - column.start, y + BAR
        title = f"{line.name}, ticks {column.start} to {column.end}: owned for {sum(column.runs.values())}, others wait for it for {column.runs.get(1, 0)}"
        for waits, fill in ((1, CONTENDED), (0, OWNER)):
            high = BAR * column.runs.get(waits, 0) / ticks
            if high > 0:
                base -= high
                out.rect(column.left, base, wide, high, title=title, fill=fill, class_="owner-dense")


def too_many(wakes: list[Wake], axis: Axis) -> bool:
    """Whether the arrows would hide the picture."""
    return len(wakes) * LEAST_APART > axis.right - axis.left


def draw_wakes(out: Writer, wakes: list[Wake], axis: Axis, bars: dict[str, tuple[float, float]]) -> None:
    """An arrow from the bar of who wakes to the bar of who is woken, at the instant of the wake; none where there are too many."""
    if too_many(wakes, axis):
        return
    for wake in wakes:
        x = axis.at(wake.time)
        (top, bottom), (woken_top, woken_bottom) = bars[wake.waker], bars[wake.woken]
        begin, end = (bottom, woken_top) if woken_top > top else (top, woken_bottom)
        title = f"{wake.time}: {wake.waker} wakes {wake.woken} by {wake.by}" if wake.by != "create" else \
            f"{wake.time}: {wake.waker} starts {wake.woken}"
        out.path(f"M{short(x)},{short(begin)}C{short(x - 7)},{short((begin + end) / 2)} {short(x - 7)},{short((begin + end) / 2)} {short(x)},{short(end)}",
                 title=title, stroke=ARROW, stroke_width="1.1", fill="none", marker_end="url(#wake)", class_="wakes")


def list_priorities(timeline: Timeline) -> list[int]:
    """The priorities of the lists that have a thread at some instant of the picture, the highest first."""
    return sorted((int(priority) for priority in timeline.facts.subjects("list")
                   if any(values for _, end, values in timeline.facts.stretches("list", priority, timeline.end) if end > timeline.start)), reverse=True)


def draw_list(out: Writer, timeline: Timeline, priority: int, axis: Axis, y: float) -> None:
    """The members of a list, its head first, in each stretch in which they do not change."""
    out.text(8, y + BAR - 2, f"list {priority}", size=9.5, fill=FAINT)
    out.line(8, y + LIST - 1, axis.right, y + LIST - 1, stroke="#eceef2", stroke_width="1")
    for start, end, members in timeline.facts.stretches("list", str(priority), timeline.end):
        if not members or end <= timeline.start or start >= timeline.end:
            continue
        left, right = axis.at(max(start, timeline.start)), axis.at(min(end, timeline.end))
        title = f"list {priority}, head first, [{start}, {end}): {' '.join(members)}"
        out.rect(left, y, right - left, BAR, title=title, fill="#f2f4f8", stroke="#c6cbd4", stroke_width="0.6", class_="list")
        shown = next((text for text in (" ".join(members), members[0] + (" ..." if len(members) > 1 else "")) if right - left >= len(text) * 5 + 4), "")
        if shown:
            out.text(left + 3, y + BAR - 3, shown, size=8.4, fill=INK)
