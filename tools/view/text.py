"""A time line for a terminal: one row for each thread, one column for each tick, or for several where they would not fit."""
from __future__ import annotations

from bisect import bisect_right
from collections.abc import Iterable
from dataclasses import dataclass
from textwrap import wrap

from .axis import nice_step, parts_of
from .timeline import MarkKind, Span, State, ThreadLine, Timeline

DEFAULT_WIDTH = 100
# So many columns the axis has at least, beside the names.
LEAST_WIDTH = 20
CUT, KILLED, IDLE = "//", "X", "i"
LETTERS = "ABCDEFGHIJKLMNOPQRSTUVWXYZ"
MOST_MARK_ROWS = 4

MARKS: dict[MarkKind, tuple[str, str]] = {
    MarkKind.START: (">", "start"), MarkKind.EXIT: ("x", "exit"), MarkKind.CANCEL: ("c", "cancel"),
    MarkKind.DELIVER: ("s", "deliver"), MarkKind.ERROR: ("e", "an error is returned"), MarkKind.CLOCK: ("k", "the clock is set"),
    MarkKind.ACTIVATE: ("^", "activate"), MarkKind.EXHAUST: ("!", "exhaust"), MarkKind.PLAN: ("p", "plan"),
    MarkKind.REFILL: ("+", "refill"), MarkKind.RELEASE: ("r", "release of a job"), MarkKind.LATE: ("L", "a deadline is missed")}
MANY = "&"
# What stands where a thread does not run: its state, and of a wait what it is for.
SIGNS: dict[tuple[State, str], tuple[str, str]] = {
    (State.READY, ""): ("-", "ready"), (State.WAITING, ""): (".", "waiting"), (State.WAITING, "sleep"): (".", "sleeping"),
    (State.WAITING, "mutex"): ("#", "waiting for a mutex"), (State.WAITING, "condition"): ("~", "for a condition"),
    (State.WAITING, "semaphore"): ("%", "for a semaphore"), (State.WAITING, "queue"): ("=", "for a queue"),
    (State.WAITING, "signal"): ("!", "for a signal"), (State.WAITING, "join"): (":", "for a thread to end"),
    (State.OFF, ""): ("?", "not running and no more is told")}
FRAMES = {False: ("*", "in a signal handler"), True: ("_", "in a cleanup handler")}
OWNERS = "123456789abcdefghijklmnopqrstuvwxyz" + LETTERS
UNSHOWN, OTHER = "+", "@"
# A space at which no line is broken.
BOUND = "\u00a0"


@dataclass(frozen=True, slots=True)
class Part:
    """Columns from `column` on, each of `step` ticks from `start` on; a cut part has no ticks of its own."""

    start: int
    end: int
    column: int
    step: int
    cut: bool

    @property
    def columns(self) -> int:
        return len(CUT) if self.cut else -(-(self.end - self.start) // self.step)


class Columns:
    """Which column an instant has. The last column is that of the end of the run."""

    def __init__(self, timeline: Timeline, width: int) -> None:
        ticks = timeline.end - timeline.start
        parts = [(timeline.start, timeline.end, False)] if ticks < width else parts_of(timeline.instants, width - 1, len(CUT) + 1, 2.0)
        self.step, self.parts = 1, self._laid(parts, 1)
        while self._wide() > width:
            self.step = nice_step(self.step + 1)
            self.parts = self._laid(parts, self.step)
        self._starts = [part.start for part in self.parts]
        self.count = self._wide()

    @staticmethod
    def _laid(parts: list[tuple[int, int, bool]], step: int) -> list[Part]:
        laid: list[Part] = []
        column = 0
        for start, end, cut in parts:
            laid.append(Part(start, end, column, step, cut))
            column += laid[-1].columns
        return laid

    def _wide(self) -> int:
        return self.parts[-1].column + self.parts[-1].columns + 1

    @property
    def cuts(self) -> list[Part]:
        return [part for part in self.parts if part.cut]

    def of(self, time: int) -> int:
        part = self.parts[max(0, bisect_right(self._starts, time) - 1)]
        if time >= part.end:
            return part.column + part.columns
        return part.column if part.cut else part.column + (time - part.start) // part.step

    def whole_ticks(self, column: int) -> int:
        """How many ticks a column stands for."""
        part = next(p for p in reversed(self.parts) if p.column <= column)
        return min(part.step, part.end - part.start - (column - part.column) * part.step)


def letters_of(priorities: list[int]) -> dict[int, str]:
    """A letter for each priority, A for the highest; Z stands for all from the 26th on."""
    return {priority: LETTERS[min(at, 25)] for at, priority in enumerate(priorities)}


def wrapped(text: str, width: int) -> list[str]:
    """A line of words on as many lines as it needs, those behind the first a little to the right."""
    return wrap(text, width, subsequent_indent="  ", break_on_hyphens=False)


def listed(what: str, items: list[str], width: int) -> list[str]:
    """What is told by several items: each stands whole on one line, where that has room for it."""
    whole = [item.replace(" ", BOUND) if len(item) + 3 <= width else item for item in items]
    return [line.replace(BOUND, " ") for line in wrapped(what + ", ".join(whole), width)]


def sign_of(span: Span) -> tuple[str, str]:
    """The sign of a stretch in which the thread does not run, and what it says."""
    return SIGNS[span.state, span.kind]


def filled(columns: Columns, stretches: Iterable[tuple[int, int, str]]) -> str:
    """A row with the sign of each stretch in its columns."""
    row = [" "] * columns.count
    for start, end, sign in stretches:
        for column in range(columns.of(start), columns.of(end - 1) + 1):
            row[column] = sign
    return torn(row, columns)


def torn(row: list[str], columns: Columns) -> str:
    """A row with its cuts."""
    for cut in columns.cuts:
        row[cut.column:cut.column + len(CUT)] = CUT
    return "".join(row).rstrip()


def frames_row(thread: ThreadLine, columns: Columns) -> list[str]:
    """A row that says where the thread is in a handler, if it ever is."""
    frames = [(span.start, span.end, FRAMES[span.cleanup][0]) for span in thread.spans if span.frame]
    return [filled(columns, frames)] if frames else []


def owner_signs(timeline: Timeline) -> dict[str, str]:
    """A sign for each thread, or where they are more than the signs for each that owns a mutex; those behind the last sign share one."""
    names = [thread.name for thread in timeline.threads]
    if len(names) > len(OWNERS):
        owners = {owner for mutex in timeline.mutexes for _, _, owner, _ in mutex.bars}
        names = [name for name in names if name in owners]
    return {name: OWNERS[at] if at < len(OWNERS) else OTHER for at, name in enumerate(names)}


def owners_told(timeline: Timeline) -> list[str]:
    """Whose each sign is, for the legend."""
    signs = owner_signs(timeline)
    told = [f"{sign} {name}" for name, sign in signs.items() if sign != OTHER]
    if len(told) < len(signs):
        told.append(f"{OTHER} one of {len(signs) - len(told)} more")
    if any(owner not in signs for mutex in timeline.mutexes for _, _, owner, _ in mutex.bars):
        told.append(f"{UNSHOWN} a thread that is not shown")
    return told


def owner_rows(timeline: Timeline, columns: Columns) -> list[tuple[str, str]]:
    """For each mutex its name, and the sign of its owner in each column."""
    signs = owner_signs(timeline)
    return [(mutex.name, filled(columns, ((start, end, signs.get(owner, UNSHOWN)) for start, end, owner, _ in mutex.bars)))
            for mutex in timeline.mutexes]


def list_lines(timeline: Timeline, width: int) -> list[str]:
    """The lists at each instant at which one changes, the highest first, each with its head first."""
    priorities = sorted(map(int, timeline.facts.subjects("list")), reverse=True)
    times = sorted({time for priority in priorities for time, _ in timeline.facts.changes("list", str(priority))
                    if timeline.start <= time < timeline.end})
    lines = ["lists, head first:"] if times else []
    for time in times:
        members = [(priority, timeline.facts.at("list", str(priority), time)) for priority in priorities]
        told = [f"{priority} {' '.join(names)}" for priority, names in members if names] or ["all empty"]
        lines += [f"  {line}" for line in listed(f"{time}: ", told, width - 2)]
    return lines


def state_row(thread: ThreadLine, columns: Columns, letters: dict[int, str]) -> str:
    """What the thread does in each column: a letter where it runs, small where only in a part of the column."""
    row = [" "] * columns.count
    ran: dict[int, int] = {}
    best: dict[int, int] = {}
    for span in thread.spans:
        first, last = columns.of(span.start), columns.of(span.end - 1)
        if span.state is not State.RUNNING:
            sign = sign_of(span)[0]
            for column in range(first, last + 1):
                if row[column] == " ":
                    row[column] = sign
            continue
        for column in range(first, last + 1):
            ran[column] = ran.get(column, 0) + _ticks_in(span, columns, column, first, last)
            best[column] = max(best.get(column, 0), span.priority)
    for column, ticks in ran.items():
        letter = letters[best[column]]
        row[column] = letter if ticks >= columns.whole_ticks(column) else letter.lower()
    return torn(row, columns)


def _ticks_in(span: Span, columns: Columns, column: int, first: int, last: int) -> int:
    """How many ticks of the stretch stand in the column."""
    if first < column < last:
        return columns.whole_ticks(column)
    part = next(p for p in reversed(columns.parts) if p.column <= column)
    start = part.start if part.cut else part.start + (column - part.column) * part.step
    end = part.end if part.cut else min(part.end, start + part.step)
    return max(0, min(end, span.end) - max(start, span.start))


def mark_rows(thread: ThreadLine, columns: Columns) -> list[str]:
    """The marks of the thread under their columns, the first of a column in the first row."""
    marks: dict[int, list[str]] = {}
    for mark in thread.marks:
        if mark.kind in MARKS:
            signs = marks.setdefault(columns.of(mark.time), [])
            if MARKS[mark.kind][0] not in signs:
                signs.append(MARKS[mark.kind][0])
    rows = []
    for at in range(min(MOST_MARK_ROWS, max(map(len, marks.values()), default=0))):
        row = [" "] * columns.count
        for column, signs in marks.items():
            if at < len(signs):
                row[column] = MANY if at == MOST_MARK_ROWS - 1 and len(signs) > MOST_MARK_ROWS else signs[at]
        rows.append("".join(row).rstrip())
    return rows


def ruler(columns: Columns, killed: int | None) -> tuple[str, str]:
    """Two rows: numbers of ticks, and a point for each column with a stroke at those that have their number, and a cross at a kill."""
    numbers, strokes = [" "] * (columns.count + 24), ["."] * columns.count
    free = 0
    for part in columns.parts:
        if part.cut:
            strokes[part.column:part.column + len(CUT)] = CUT
            continue
        every = 10 if part.columns > 10 else 5
        for column in range(part.column, part.column + part.columns):
            tick = part.start + (column - part.column) * part.step
            edge = column == part.column
            if edge or (tick // part.step) % every == 0:
                strokes[column] = "|"
                text = str(tick)
                if column >= free and (edge or column + len(text) <= part.column + part.columns):
                    numbers[column:column + len(text)] = text
                    free = column + len(text) + 1
    if killed is not None:
        strokes[columns.of(killed)] = KILLED
    return "".join(numbers).rstrip(), "".join(strokes)


def legend(timeline: Timeline, columns: Columns, letters: dict[int, str], width: int) -> list[str]:
    """What each sign of the picture is: of those alone that it has."""
    lines = _priorities_told(letters, width)
    lines += listed("", signs_told(timeline), width)
    if columns.step > 1:
        lines += wrapped("a small letter: it runs in a part of the column; another sign: in a part of it at least", width)
    if timeline.mutexes:
        lines += listed("owners: ", owners_told(timeline), width)
    kinds = {mark.kind for thread in timeline.threads for mark in thread.marks}
    marks = [f"{sign} {what}" for kind, (sign, what) in MARKS.items() if kind in kinds]
    if marks:
        lines += listed("marks: ", marks, width)
    if timeline.killed is not None:
        lines += wrapped(f"{KILLED} in the ruler: {timeline.killed.signal} kills the process", width)
    for cut in columns.cuts:
        lines += wrapped(f"{CUT} the axis is cut: nothing happens from {cut.start} to {cut.end}, {cut.end - cut.start} ticks", width)
    return lines


def _priorities_told(letters: dict[int, str], width: int) -> list[str]:
    priorities = sorted(letters, reverse=True)
    shown = [f"{letters[p]} {p}" for p in priorities[:25]]
    if len(priorities) > 25:
        shown.append(f"Z {priorities[25]} and below")
    return listed("priority: ", shown, width) if shown else ["no thread ran"]


def signs_told(timeline: Timeline) -> list[str]:
    """What stands where no letter does."""
    spans = [span for thread in timeline.threads for span in thread.spans]
    signs = {sign_of(span) for span in spans if span.state is not State.RUNNING}
    frames = {FRAMES[span.cleanup] for span in spans if span.frame}
    told = [f"{sign} {what}" for sign, what in (*SIGNS.values(), *FRAMES.values()) if (sign, what) in signs | frames]
    if timeline.idle:
        told.append(f"{IDLE} the processor is idle")
    return told


def heading(timeline: Timeline, columns: Columns) -> str:
    idle = sum(end - start for start, end in timeline.idle)
    each = "a column is one tick" if columns.step == 1 else f"a column is {columns.step} ticks"
    how = "" if timeline.finished else "; the trace has no end"
    if timeline.killed is not None:
        how = f"; killed by {timeline.killed.signal}"
    title = f"{timeline.title}: " if timeline.title else ""
    tick = f"; a tick is {timeline.tick}" if timeline.tick else ""
    return f"{title}ticks {timeline.start} to {timeline.end}, {each}; idle for {idle}{how}{tick}"


def draw(timeline: Timeline, width: int | None = None, lists: bool = False) -> str:
    """The time line, at most `width` columns wide, the threads' names among them."""
    names = [thread.name for thread in timeline.threads] + [mutex.name for mutex in timeline.mutexes]
    gutter = max([4, *map(len, names)]) + 1
    width = max(gutter + LEAST_WIDTH, width or DEFAULT_WIDTH)
    columns = Columns(timeline, width - gutter)
    letters = letters_of(timeline.priorities)
    numbers, strokes = ruler(columns, timeline.killed.time if timeline.killed is not None else None)
    rows = [*wrapped(heading(timeline, columns), width), "tick".ljust(gutter) + numbers, " " * gutter + strokes]
    for thread in timeline.threads:
        rows.append(thread.name.ljust(gutter) + state_row(thread, columns, letters))
        rows += [" " * gutter + row for row in frames_row(thread, columns)]
        rows += [" " * gutter + row for row in mark_rows(thread, columns)]
    if timeline.idle:
        rows.append("idle".ljust(gutter) + filled(columns, ((start, end, IDLE) for start, end in timeline.idle)))
    rows += [name.ljust(gutter) + row for name, row in owner_rows(timeline, columns)]
    told = legend(timeline, columns, letters, width) + (["", *list_lines(timeline, width)] if lists else [])
    return "\n".join(line.rstrip() for line in rows + [""] + told) + "\n"
