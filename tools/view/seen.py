"""From a trace or a detail to what a picture shows."""
from __future__ import annotations

from .facts import Facts
from .lines import Trace
from .servers import end_servers
from .timeline import Span, State, Timeline
from .told import tell
from .tracks import HANDLERS, Builder
from .wakes import wakes_of


def timeline_of(trace: Trace) -> Timeline:
    """What the threads of a trace did."""
    builder = Builder(trace)
    for number, event in enumerate(trace.events):
        builder.line = number
        HANDLERS[type(event)](builder, event)
    finished = builder.end is not None
    if not finished:
        builder.end = trace.events[-1][0]
        builder.finish(builder.end)
    facts = Facts(trace.facts)
    seen = Timeline(builder.order(), builder.end, builder.idle, builder.killed, finished, trace, facts=facts)
    for thread in seen.threads:
        thread.runs = joined_runs(thread.spans)
    end_servers(seen)
    if seen.is_detail:
        tell(seen)
    seen.wakes = wakes_of(trace, facts)
    return seen


def joined_runs(spans: list[Span]) -> list[tuple[int, int]]:
    """The stretches in which a thread runs without a break."""
    runs: list[tuple[int, int]] = []
    for span in spans:
        if span.state is State.RUNNING and runs and runs[-1][1] == span.start:
            runs[-1] = runs[-1][0], span.end
        elif span.state is State.RUNNING:
            runs.append((span.start, span.end))
    return runs
