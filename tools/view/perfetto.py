"""JSON of Chrome's trace event format, for ui.perfetto.dev: a track for the processor and for each thread, flows from who wakes to
who is woken, instants for what happens, and counters. A tick is written as a nanosecond, or as --tick says.
"""
from __future__ import annotations

import json
from collections.abc import Iterator

from .kinds import labels
from .steps import steps_at_most
from .timeline import Mark, MarkKind, Span, State, Timeline
from .values import capacity, queues, semaphores

PROCESS, PROCESSOR = 1, 0
COLOURS = {State.READY: "thread_state_runnable", State.WAITING: "thread_state_sleeping", State.OFF: "grey"}
NANOSECONDS = {"ns": 1, "us": 1000, "ms": 1_000_000, "s": 1_000_000_000}


def nanoseconds(tick: str) -> int:
    """The nanoseconds of a tick, 1 where none is named."""
    return int(tick.rstrip("nsum")) * NANOSECONDS[tick.lstrip("0123456789")] if tick else 1


def draw(timeline: Timeline) -> str:
    events = list(_Events(timeline).all())
    unit = f"one tick is {timeline.tick or '1ns'}"
    return (f'{{"displayTimeUnit":"ns","otherData":{{"unit":"{unit}"}},"traceEvents":[\n' + ",\n".join(events) + "\n]}\n")


class _Events:
    """The events of the format, each a line of JSON."""

    def __init__(self, timeline: Timeline) -> None:
        self._seen, self._factor = timeline, nanoseconds(timeline.tick)

    def _time(self, ticks: int) -> str:
        """A time in microseconds, as the format wants it, without a digit lost."""
        time = ticks * self._factor
        return f"{time // 1000}.{time % 1000:03d}"

    def all(self) -> Iterator[str]:
        yield _named("process_name", PROCESSOR, "pse52")
        yield from self._track(PROCESSOR, "processor")
        for number, thread in enumerate(self._seen.threads, 1):
            for start, end in thread.runs:
                yield f'{self._head("X", PROCESSOR, start)},"dur":{self._time(end - start)},"cat":"processor","name":"{thread.name}"}}'
            yield from self._track(number, thread.name)
            yield from (self._slice(span, number) for span in thread.spans)
            yield from (self._instant(mark, number) for mark in thread.marks)
        yield from self._flows()
        yield from self._counters()
        if self._seen.killed is not None:
            yield f'{self._head("i", PROCESSOR, self._seen.killed.time)},"s":"g","name":"killed {self._seen.killed.signal}"}}'

    def _head(self, phase: str, number: int, time: int) -> str:
        return f'{{"ph":"{phase}","pid":{PROCESS},"tid":{number},"ts":{self._time(time)}'

    @staticmethod
    def _track(number: int, name: str) -> Iterator[str]:
        yield _named("thread_name", number, name)
        yield f'{{"ph":"M","pid":{PROCESS},"tid":{number},"name":"thread_sort_index","args":{{"sort_index":{number}}}}}'

    def _slice(self, span: Span, number: int) -> str:
        head = f'{self._head("X", number, span.start)},"dur":{self._time(span.end - span.start)}'
        if span.state is State.RUNNING:
            level = "" if span.high is None else f',"level":"{"high" if span.high else "low"}"'
            frame = f',"handler":"{span.frame}"' if span.frame else ""
            name = f"priority {span.priority}" + (f" in {span.frame}" if span.frame else "")
            return f'{head},"cat":"running","name":"{name}","args":{{"priority":{span.priority}{level}{frame}}}}}'
        what = labels(span)[0] if span.state is State.WAITING else ""
        name = span.state.value + (f": {what}" if what else "")
        told = {"priority": span.priority, "call": span.call, "until": span.until}
        args = json.dumps({key: value for key, value in told.items() if value})
        return f'{head},"cat":"{span.state.value}","cname":"{COLOURS[span.state]}","name":"{name}","args":{args}}}'

    def _instant(self, mark: Mark, number: int) -> str:
        line = mark.told(self._seen.trace.lines)
        what = line.split(" ")
        if mark.sentence:
            name = mark.kind.value
        else:
            name = " ".join([what[1], *(what[3:5] if mark.kind in (MarkKind.RETURN, MarkKind.ERROR, MarkKind.CLOCK) else what[3:])])
        return (f'{self._head("i", number, mark.time)},"s":"t","name":{json.dumps(name)},"cat":"{mark.kind.value}",'
                f'"args":{{"line":{json.dumps(line)}}}}}')

    def _flows(self) -> Iterator[str]:
        """A flow begins in the slice of who wakes, which ends at the instant, and ends in what the woken thread then does."""
        numbers = {thread.name: number for number, thread in enumerate(self._seen.threads, 1)}
        for identity, wake in enumerate(self._seen.wakes, 1):
            told = f'"id":{identity},"cat":"wake","name":"{wake.by}"}}'
            yield f'{self._head("s", numbers[wake.waker], max(wake.time - 1, 0))},{told}'
            yield f'{self._head("f", numbers[wake.woken], wake.time)},"bp":"e",{told}'

    def _counters(self) -> Iterator[str]:
        most = steps_at_most(self._seen)
        for thread in self._seen.threads:
            yield from self._counter(f"capacity of {thread.name}", "ticks", capacity(thread, most))
        for name, steps in semaphores(self._seen).items():
            yield from self._counter(f"semaphore {name}", "value", steps)
        for name, steps in queues(self._seen).items():
            yield from self._counter(f"queue {name}", "messages", steps)

    def _counter(self, name: str, what: str, steps: list[tuple[int, int]]) -> Iterator[str]:
        for time, value in steps:
            yield f'{{"ph":"C","pid":{PROCESS},"ts":{self._time(time)},"name":"{name}","args":{{"{what}":{value}}}}}'


def _named(what: str, number: int, name: str) -> str:
    return f'{{"ph":"M","pid":{PROCESS},"tid":{number},"name":"{what}","args":{{"name":{json.dumps(name)}}}}}'
