"""From the entries of a log to the lines of a trace, and to the input of `audit`."""
from __future__ import annotations

from dataclasses import dataclass, field

from .log import MARKER, SWITCH_EVENT, WAKES, Entry
from .names import OTHER, NameMap

MARKED = {"activate": 1, "exhaust": 0, "plan": 2, "refill": 2, "cancel": 0}
TOTALS = "totals"
GREATEST_REALTIME = 99
IDLE_PID = "0"


class NoLog(Exception):
    """Why nothing of what was read is of the log that the map is for."""


@dataclass
class Converter:
    """The lines so far, who runs since when, the ticks of each thread, and what markers said of each server's totals."""

    names: NameMap
    lines: list[str] = field(default_factory=list)
    runs: str = ""
    since: int = 0
    ticks: dict[str, int] = field(default_factory=dict)
    totals: dict[str, list[str]] = field(default_factory=dict)
    over: set[str] = field(default_factory=set)
    end: int = 0

    def take(self, entry: Entry) -> None:
        """One entry, at the instant that is nearest to its time."""
        now = self.names.ticks(entry.time)
        fields = entry.fields
        if entry.event == SWITCH_EVENT and fields:
            self.switch(now, fields)
        elif entry.event in WAKES and fields:
            self.begin(now, self.names.name_of(fields["comm"], fields["pid"]))
        elif entry.event == "sched_process_exit" and fields:
            self.finish(now, self.names.name_of(fields["comm"], fields["pid"]))
        elif marker := MARKER.fullmatch(entry.text):
            self.mark(now, marker["words"].split())

    def switch(self, now: int, fields: dict[str, str]) -> None:
        """Another thread gets the processor; one that left it for good has ended."""
        if fields["prev_state"][0] in "XZx":
            self.finish(now, self.names.name_of(fields["prev_comm"], fields["prev_pid"]))
        name = self.names.name_of(fields["next_comm"], fields["next_pid"])
        self.begin(now, name)
        runs = name or ("idle" if fields["next_pid"] == IDLE_PID else OTHER)
        if runs == self.runs:
            return
        self.charge(now)
        self.runs = runs
        priority = max(1, GREATEST_REALTIME - int(fields["next_prio"]))
        self.lines.append(f"{now} idle" if runs == "idle" else f"{now} dispatch {runs} {priority}")

    def charge(self, now: int) -> None:
        self.ticks[self.runs] = self.ticks.get(self.runs, 0) + now - self.since
        self.since = now

    def begin(self, now: int, name: str | None) -> None:
        """A thread of the map is seen for the first time."""
        if name is not None and name not in self.ticks:
            self.ticks[name] = 0
            self.lines.append(f"{now} start {name}")

    def finish(self, now: int, name: str | None) -> None:
        if name is not None and name in self.ticks and name not in self.over:
            self.over.add(name)
            self.lines.append(f"{now} exit {name}")

    def mark(self, now: int, words: list[str]) -> None:
        """A marker `pse52 WORD NAME NUMBERS` that the kernel or the program wrote into the log."""
        match words:
            case ["pse52", word, name, *numbers] if MARKED.get(word) == len(numbers):
                self.begin(now, name)
                self.lines.append(" ".join((str(now), word, name, *numbers)))
            case ["pse52", word, name, *numbers] if word == TOTALS and len(numbers) == 4:
                self.totals[name] = numbers

    def text(self) -> str:
        """The trace, with its closing lines."""
        return "".join(f"{line}\n" for line in [*self.lines, f"{self.end} end", *map(self.closing, self.names.names.values())])

    def remarks(self) -> list[str]:
        """What the map has and the log has not, and the other way round."""
        unseen = [f"no line of the log has '{of}', which the map calls {name}" for of, name in self.names.names.items() if name not in self.ticks]
        known = {*self.names.names.values(), OTHER, "idle", ""}
        return unseen + [f"a marker names '{name}', which the map does not" for name in self.ticks if name not in known]

    def closing(self, name: str) -> str:
        line = f"thread {name} ticks {self.ticks.get(name, 0)}"
        if name not in self.totals or name in self.over:
            return line
        high, init, refilled, capacity = self.totals[name]
        return f"{line} high {high} init {init} refilled {refilled} capacity {capacity}"


def kept(entries: list[Entry], names: NameMap) -> list[Entry]:
    """What counts of a log. Without an origin in the map the first entry of its processor is at instant 0. Raises NoLog."""
    if not entries:
        raise NoLog("standard input has no line of ftrace's text")
    found = [entry for entry in entries if names.cpu is None or entry.cpu == names.cpu]
    if not found:
        raise NoLog(f"no line of the log is of processor {names.cpu}, which the map names")
    if names.origin is None:
        names.origin = found[0].time
    found = [entry for entry in found if entry.time >= names.origin]
    if not found:
        raise NoLog("the whole log is before the origin that the map names")
    if not any(entry.event == SWITCH_EVENT and entry.fields for entry in found):
        raise NoLog("no line that counts is a sched_switch in ftrace's own text; of trace-cmd it is `trace-cmd report -N`")
    return found


def converted(entries: list[Entry], names: NameMap) -> Converter:
    """The trace of those entries of a log that count."""
    converter = Converter(names)
    for entry in entries:
        converter.take(entry)
    converter.end = names.ticks(entries[-1].time)
    converter.charge(converter.end)
    return converter


def head_of(names: NameMap) -> str:
    return "".join(f"server {name} {server.period} {server.budget} {server.limit}\n" for name, server in names.servers.items())
