"""A trace, put together so that it can be measured: who ran when, which calls waited, where each kind of line stands."""
from __future__ import annotations

import re
from collections import defaultdict
from dataclasses import dataclass
from functools import cached_property
from itertools import takewhile

from view.facts import Facts, ThreadFact
from view.lines import (
    Activate, Cancel, Closing, Deliver, Dispatch, End, Event, Exhaust, Exit, Idle, Killed, Plan, Refill, Return, Start, Trace)

# The events by the word of their line.
EVENTS = {kind.__name__.lower(): kind for kind in (
    Dispatch, Idle, Start, Exit, Return, Cancel, Deliver, Killed, Activate, Exhaust, Plan, Refill, End)}
Stretch = tuple[int, int]


@dataclass(frozen=True, slots=True)
class Returned:
    """A call's return: the number of its line, what it says, and since when its thread had not run, where it had waited."""

    line: int
    event: Return
    waited_since: int | None

    @property
    def at_work(self) -> int:
        """The instant at which the call has its effect: it returns then, or the thread begins to wait."""
        return self.event.time if self.waited_since is None else self.waited_since


@dataclass(frozen=True, slots=True)
class Blocked:
    """A stretch in which a thread is blocked in one call: `on` is what it waits for last, `ended` whether the trace has its end."""

    start: int
    end: int
    call: str
    on: str
    ended: bool


class Seen:
    """A trace that is measured. What a measure asks for is put together once, and only where one asks for it."""

    def __init__(self, trace: Trace, is_detail: bool = False) -> None:
        """A detail of a run in which no thread has started has no facts, and whoever asked for it knows what it is."""
        self.trace = trace
        self.is_detail = is_detail or bool(trace.facts)
        self._states: dict[str, list[tuple[int, int, ThreadFact]]] = {}

    @cached_property
    def facts(self) -> Facts:
        return Facts(self.trace.facts)

    @cached_property
    def closing(self) -> dict[str, Closing]:
        """The closing lines by the names of their threads, in the order of declaration."""
        behind = list(takewhile(lambda event: isinstance(event, Closing), reversed(self.trace.events)))
        return {event.name: event for event in reversed(behind)}

    @cached_property
    def end(self) -> int:
        return next((event.time for event in reversed(self.trace.events) if not isinstance(event, Closing)), 0)

    @cached_property
    def returned(self) -> list[Returned]:
        """The returns. A thread that did not run in the tick before had waited, since it was last dispatched and replaced."""
        returned: list[Returned] = []
        runs, stopped = "", {}
        for line, event in enumerate(self.trace.events):
            kind = type(event)
            if kind is Return:
                returned.append(Returned(line, event, None if event.name == runs else stopped.get(event.name)))
            elif kind is Dispatch or kind is Idle:
                stopped[runs] = event.time
                runs = event.name if kind is Dispatch else ""
        return returned

    @cached_property
    def places(self) -> dict[tuple[type, object], list[int]]:
        """The numbers of the lines of each kind of event of each thread."""
        places: dict[tuple[type, object], list[int]] = defaultdict(list)
        for line, event in enumerate(self.trace.events):
            places[type(event), event[1] if len(event) > 1 else ""].append(line)
        return places

    def of(self, name: str, *kinds: type) -> list[Event]:
        """The events of these kinds of a thread, in their order."""
        return [self.trace.events[line] for line in sorted(line for kind in kinds for line in self.places.get((kind, name), ()))]

    def lines(self, words: list[str]) -> list[tuple[int, int]]:
        """The events, as (line, time), whose words behind their time begin with these; `*` stands for any word."""
        found = re.compile(r"\d+ " + " ".join(r"\S+" if word == "*" else re.escape(word) for word in words) + r"(?: |$)").match
        anywhere = len(words) == 1 or "*" in words[:2]
        numbers = range(len(self.trace.lines)) if anywhere else self.places.get((EVENTS.get(words[0]), words[1]), ())
        return [(number, self.trace.events[number][0]) for number in numbers if found(self.trace.lines[number])]

    @cached_property
    def runs(self) -> dict[str, list[Stretch]]:
        """The stretches in which each thread runs without a break; those of the name '' are idle."""
        runs: dict[str, list[Stretch]] = defaultdict(list)
        name, since = None, 0
        for event in self.trace.events:
            if isinstance(event, (Dispatch, Idle, End)):
                if name is not None and event.time > since:
                    runs[name].append((since, event.time))
                name, since = event.name if isinstance(event, Dispatch) else "", event.time
        return runs

    @cached_property
    def runs_from(self) -> dict[int, str]:
        """Who begins to run at an instant; the name '' is the idle processor."""
        return {start: name for name, runs in self.runs.items() for start, _ in runs}

    def exited(self, name: str) -> int | None:
        """When the thread ended, if it did."""
        places = self.places.get((Exit, name))
        return self.trace.events[places[-1]].time if places else None

    # What only a detail tells.

    def states(self, name: str) -> list[tuple[int, int, ThreadFact]]:
        """The state of a thread, from where up to where, from its first change on."""
        if name not in self._states:
            changes = self.facts.thread(name)
            ends = [time for time, _ in changes[1:]] + [self.end]
            self._states[name] = [(start, end, state) for (start, state), end in zip(changes, ends) if end > start]
        return self._states[name]

    def blocked(self, name: str) -> list[Blocked]:
        """The stretches in which a thread is blocked, one for each call."""
        found: list[Blocked] = []
        for start, end, state in self.states(name):
            if not state.is_blocked:
                continue
            ended = end < self.end or self._ends_at_the_end(name)
            if found and found[-1].end == start and found[-1].call == state.call:
                start = found.pop().start
            found.append(Blocked(start, end, state.call, state.what, ended))
        return found

    def _ends_at_the_end(self, name: str) -> bool:
        """Whether a wait is over at the very end of the run: behind the end no fact says so, but a line does."""
        return any(event.time == self.end for event in self.of(name, Return, Cancel)[-1:])

    def calls(self, name: str, call: str) -> list[int]:
        """The instants at which this call of the thread had its effect, rising: where it returned at once, or began to wait.

        A call that has not returned at the end has no line, so only a detail tells of that one.
        """
        if not self.is_detail:
            return [found.at_work for found in self.returned if found.event.name == name and found.event.call == call]
        at_once = [found.event.time for found in self.returned
                   if found.event.name == name and found.event.call == call and found.waited_since is None]
        return sorted(at_once + [wait.start for wait in self.blocked(name) if wait.call == call])

    def stands_at_the_end(self, name: str) -> bool:
        """Whether a live thread does not run at the end, so that a trace alone does not tell whether it waits."""
        last = self.runs.get(name, [(0, 0)])[-1][1]
        return self.exited(name) is None and bool(self.places.get((Start, name))) and last < self.end
