"""What a wait is for: its colour, its short word, and its sentence, the same in every picture."""
from __future__ import annotations

from .timeline import Span

# The colours are told apart by people who do not tell red from green, too, by how light they are; the words stand beside them.
COLOURS = {"mutex": "#c2410c", "condition": "#a16207", "semaphore": "#0f766e", "queue": "#1d4ed8", "signal": "#7e22ce",
           "sleep": "#8a93a3", "join": "#be185d", "": "#8a93a3"}
WORDS = {"mutex": "mutex", "condition": "cond", "semaphore": "sem", "queue": "queue", "signal": "signal", "sleep": "sleep",
         "join": "join", "": ""}
HANDLER, CLEANUP = "#7a3fb0", "#8c4a1f"


def labels(span: Span) -> list[str]:
    """What may be written into a wait, the longest first: the kind and the name, the name, the kind, nothing."""
    if not span.kind:
        return [span.call]
    return [f"{WORDS[span.kind]} {span.what}".strip(), span.what, WORDS[span.kind]]


def sentence(name: str, span: Span) -> str:
    """What a stretch says, for a title."""
    ticks = f"for {span.end - span.start} ticks [{span.start}, {span.end})"
    frame = f", in the {'cleanup' if span.cleanup else 'signal'} handler {span.frame}" if span.frame else ""
    match span.state.value:
        case "running":
            low = "" if span.high is None else ", the server's high priority" if span.high else ", low: no capacity to use"
            return f"{name} runs at priority {span.priority} {ticks}{low}{frame}"
        case "waiting":
            what = f" for the {'thread' if span.kind == 'join' else span.kind} {span.what}" if span.what else ""
            until = f", at most until {span.until}" if span.until is not None and span.kind != "sleep" else ""
            until = f", until {span.until}" if span.kind == "sleep" else until
            return f"{name} waits{f' in {span.call}' if span.call else ''}{what} {ticks}{until}{frame}"
        case "ready":
            at = f" at priority {span.priority}" if span.priority else ""
            return f"{name} is ready{at} and does not run {ticks}{frame}"
    return f"{name} does not run {ticks}; the trace does not tell whether it waits"
