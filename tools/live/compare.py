"""A log beside the trace that is due: where they differ, and the trace that came out.

A thread tells what happens to it when it has the processor. One that wakes may have to wait for that, and one that is preempted within
a call tells its return when it goes on. So an event may be seen at its own time, at the tick in which its thread is next dispatched, or
between these; and later, where others that are no less urgent kept the processor all the time. Of the traces that a log allows the one
that came out is the one that follows the due trace for longest: an event that agrees stands at its due place, any other where it was seen.
"""
from __future__ import annotations

from dataclasses import dataclass, field

from .due import NOBODY, Due, Told
from .log import Log, Seen

UNSEEN = "UNSEEN"
#: a timed wait whose time has passed answers at once on Linux; in the trace the answer would come with the items of the horizon
PAST_WAIT = "return timedwait ETIMEDOUT 0"


@dataclass(frozen=True)
class Difference:
    """From which tick on the two cannot be the same, and how they part."""

    tick: int
    text: str

    def __str__(self) -> str:
        return f"{self.tick}: {self.text}"


@dataclass
class Comparison:
    """What one log shows beside the trace that is due."""

    differences: list[Difference] = field(default_factory=list)
    lines: list[str] = field(default_factory=list)  #: the trace that came out
    compared: int = 0  #: events that agree
    late: int = 0  #: of these, seen after their due time
    unseen: list[str] = field(default_factory=list)  #: due lines whose thread did not get the processor any more

    @property
    def agrees(self) -> bool:
        return not self.differences

    @property
    def first(self) -> int | None:
        """The tick of the first difference."""
        return min((difference.tick for difference in self.differences), default=None)


#: where a line stands: its time, the kind of its place within the instant, and its order there
Place = tuple[int, int, int]
AS_DUE, AS_SEEN, DISPATCHED, KILLED = range(4)


class Comparer:
    """Goes over one log and one due trace."""

    def __init__(self, due: Due, log: Log) -> None:
        self.due = due
        self.log = log
        self.found = Comparison()
        self.placed: list[tuple[Place, str]] = []

    def compare(self) -> Comparison:
        if self.log.trouble is not None:
            self.differ(self.log.died or 0, f"the process {self.log.trouble}")
        self.compare_owners()
        self.compare_priorities()
        self.compare_killed()
        for thread in range(len(self.due.names)):
            self.compare_thread(thread)
        self.found.differences.sort(key=lambda difference: difference.tick)
        self.found.lines = self.trace()
        return self.found

    def differ(self, tick: int, text: str) -> None:
        self.found.differences.append(Difference(tick, text))

    def name(self, thread: int) -> str:
        return "nobody" if thread == NOBODY else self.due.names[thread]

    def compare_owners(self) -> None:
        for tick, (want, have) in enumerate(zip(self.due.owners, self.log.owners)):
            if want != have:
                self.differ(tick, f"{self.name(have)} runs, and {self.name(want)} is due")
                return

    def compare_priorities(self) -> None:
        """Where a thread is dispatched that is due, the kernel says its priority."""
        for tick, want in self.due.priorities.items():
            if tick >= len(self.log.owners) or self.log.owners[tick] != self.due.owners[tick]:
                return
            have = self.log.priorities[tick]
            if have != want:
                self.differ(tick, f"{self.name(self.due.owners[tick])} runs at the priority {have}, and {want} is due")
                return

    def compare_killed(self) -> None:
        want, have = self.due.killed, self.log.killed
        if want is None and have is None or self.is_killed_as_due():
            return
        told = [f"killed by {ended[1]} at {ended[0]}" if ended else "lives on" for ended in (have, want)]
        self.differ(min(ended[0] for ended in (want, have) if ended), f"the process: {told[0]}, and due: {told[1]}")

    def is_killed_as_due(self) -> bool:
        """The end of a process is seen by the one that watches it, up to a tick later."""
        want, have = self.due.killed, self.log.killed
        return want is not None and have is not None and want[1] == have[1] and 0 <= have[0] - want[0] <= 1

    def compare_thread(self, thread: int) -> None:
        """One thread's events, in their order, up to the first that differs."""
        due, seen = self.due.events[thread], self.log.of(thread)
        for number, told in enumerate(due):
            if number >= len(seen):
                if self.is_missed(thread, told):
                    return
                continue
            text = self.difference(told, seen[number])
            if text is not None:
                self.differ(min(told.seen_by, seen[number].tick), f"{self.name(thread)}: {text}")
                self.place_seen(thread, seen[number:])
                return
            self.found.compared += 1
            self.found.late += seen[number].tick > told.time
            self.place_due(told)
        more = [event for event in seen[len(due):] if event.tick < self.due.end or event.words != PAST_WAIT]
        if more:
            self.differ(more[0].tick, f"{self.name(thread)}: `{more[0].words}`, and nothing is due")
            self.place_seen(thread, more)

    def difference(self, told: Told, seen: Seen) -> str | None:
        have, want = seen.words, told.words
        if f" {UNSEEN} " in have and have.split()[:2] == want.split()[:2]:
            have = want  # a handler stands in the call, whose answer comes after it
        if have != want:
            return f"`{have}`, and `{want}` is due at {told.time}"
        is_in_time = seen.tick <= told.seen_by or self.was_kept_waiting(told, seen.thread, seen.tick)
        if seen.tick < told.time or self.has_run(seen.thread, told.time, seen.tick) or not is_in_time:
            return f"`{have}` is seen at {seen.tick}, and due at {told.time}, to be seen by {told.seen_by}"
        return None

    def has_run(self, thread: int, since: int, until: int) -> bool:
        """Whether a thread has run a tick in between, and so would have told before what was to tell."""
        return thread in self.log.owners[since:until]

    def was_kept_waiting(self, told: Told, thread: int, until: int) -> bool:
        """Whether threads that are no less urgent kept the processor from an event's time to this tick."""
        owners, priorities = self.log.owners, self.log.priorities
        turn = next((tick for tick in range(until, len(owners)) if owners[tick] == thread), None)
        own = told.priority if turn is None else priorities[turn]
        return all(owners[tick] not in (NOBODY, thread) and priorities[tick] >= own for tick in range(told.time, until))

    def is_missed(self, thread: int, told: Told) -> bool:
        """Whether an event that the log lacks had to be seen; one that nobody could see stands in the trace as it is due."""
        is_due = told.is_seen and not self.was_kept_waiting(told, thread, self.end())
        if is_due or told.words == "exit":
            self.differ(told.seen_by, f"{self.name(thread)}: nothing, and `{told.words}` is due at {told.time}")
            return True
        self.found.unseen.append(self.due.lines[told.place])
        self.place_due(told)
        return False

    def place_due(self, told: Told) -> None:
        self.placed.append(((told.time, AS_DUE, told.place), self.due.lines[told.place]))

    def place_seen(self, thread: int, events: list[Seen]) -> None:
        for event in events:
            kind, *rest = event.words.split()
            words = [str(event.tick), kind, self.name(thread), *rest]
            self.placed.append(((event.tick, AS_SEEN, self.log.events.index(event)), " ".join(words)))

    def trace(self) -> list[str]:
        """The lines that came out, in the order and the form of a trace."""
        end = self.end()
        owners = self.log.owners[:end]
        for tick, owner in enumerate(owners):
            if tick == 0 or owner != owners[tick - 1]:
                words = "idle" if owner == NOBODY else f"dispatch {self.name(owner)} {self.log.priorities[tick]}"
                self.placed.append(((tick, DISPATCHED, 0), f"{tick} {words}"))
        if self.log.killed:
            self.placed.append(((end, KILLED, 0), f"{end} killed {self.log.killed[1]}"))
        lines = [text for place, text in sorted(self.placed) if place[0] <= end]
        closing = [f"thread {name} ticks {ticks}" for name, ticks in zip(self.due.names, self.log.ticks)]
        return [*lines, f"{end} end", *closing]

    def end(self) -> int:
        """When the run ended: at its horizon, or with its process."""
        if self.log.died is not None:
            return min(self.log.died, len(self.log.owners))
        if self.log.killed is None:
            return len(self.log.owners)
        return self.due.end if self.is_killed_as_due() else self.log.killed[0]


def compare(due: Due, log: Log) -> Comparison:
    return Comparer(due, log).compare()
