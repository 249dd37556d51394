"""What is answered to a script: its faults, or its picture, its trace or its detail.

The trace is that of the program where one is here. The facts are the program's where it has `detail`, and else those of the
reference; then the trace is held against the events of the reference, and the answer tells where they differ. A program that
refuses what has no fault is of another version: then the reference makes both, and the answer says so.
"""
from __future__ import annotations

import shlex
import subprocess
from dataclasses import dataclass, field

from explain.found import Found
from explain.text import faults_of
from simulate import answer as reference_answer
from view.facts import FORMS as FACT_FORMS
from view.html import data_of
from view.lines import TooManyLines, read_trace
from view.seen import timeline_of
from view.source import MOST_TICKS, REFERENCE, REFUSED, USAGE, programs
from view.svg import draw

MOST_DETAIL = 64 * 1024 * 1024
REFERENCES = "the reference"


class NoRun(Exception):
    """Why there is no run of a script."""


@dataclass
class Sources:
    """What is asked: the words of the program, if there is one, and whether it knows `detail`."""

    program: list[str] | None
    has_detail: bool = True

    @staticmethod
    def found() -> "Sources":
        asked = programs(REFERENCE)
        return Sources(asked[0] if len(asked) > 1 else None)


@dataclass(frozen=True)
class Run:
    """The trace and the detail of a script, what made each, and a sentence where the two do not agree."""

    trace: bytes
    detail: bytes
    trace_by: str
    facts_by: str
    warning: str = field(default="")


def trace_of(detail: bytes) -> bytes:
    """The trace that stands in a detail: its lines without the facts."""
    words = tuple(word.encode() for word in FACT_FORMS)
    return b"".join(line for line in detail.splitlines(keepends=True) if line.split(b" ", 2)[1] not in words or line.startswith(b"thread "))


def _begun(program: list[str], command: str, horizon: int, script: bytes) -> subprocess.Popen[bytes]:
    """A program that has its script. Raises NoRun."""
    try:
        begun = subprocess.Popen([*program, command, str(horizon)], stdin=subprocess.PIPE, stdout=subprocess.PIPE, stderr=subprocess.DEVNULL)
    except OSError as error:
        raise NoRun(f"{program[0]} cannot be started: {error.strerror}") from None
    try:
        with begun.stdin:
            begun.stdin.write(script)
    except BrokenPipeError:
        pass  # it ended before it had read all, and its status says why
    return begun


def _ended(begun: subprocess.Popen[bytes]) -> tuple[int, bytes]:
    text = begun.stdout.read()
    return begun.wait(), text


def _trace_by(begun: subprocess.Popen[bytes], name: str) -> tuple[bytes | None, str]:
    """The trace of a program, or none and why where it does not know this language. Raises NoRun."""
    status, trace = _ended(begun)
    said = trace.decode("ascii", "backslashreplace").strip()[:200]
    if status == REFUSED:
        return None, f"{name} is of another version and does not take this script ({said}); the reference made the trace"
    if status != 0:
        raise NoRun(f"{name} ended with the status {status}: {said}")
    return trace, ""


def _detail_by(horizon: int, script: bytes, sources: Sources) -> bytes | None:
    """The detail of the program, where it has one."""
    with _begun(sources.program or [], "detail", horizon, script) as begun:
        status, detail = _ended(begun)
    sources.has_detail = status != USAGE
    return detail if status == 0 else None


def _of_reference(script: bytes, horizon: int) -> bytes:
    """The detail by the reference. Raises NoRun."""
    if horizon > MOST_TICKS:
        raise NoRun(f"the reference tells the facts, a tick at a time: {MOST_TICKS} ticks are the most that it is asked for")
    status, detail = reference_answer(script, horizon, command="detail")
    if status != 0:
        raise NoRun(f"the reference: {detail.decode().strip()}")
    return detail


def run(script: bytes, horizon: int, sources: Sources) -> Run:
    """Runs a script that has no fault. Raises NoRun."""
    if sources.program is None:
        detail = _of_reference(script, horizon)
        return Run(trace_of(detail), detail, REFERENCES, REFERENCES)
    name = shlex.join(sources.program)
    with _begun(sources.program, "run", horizon, script) as begun:
        # While it runs, the facts are asked for.
        detail = _detail_by(horizon, script, sources) if sources.has_detail else None
        facts_by = REFERENCES if detail is None else name
        detail = detail or _of_reference(script, horizon)
        trace, why = _trace_by(begun, name)
    if trace is None:
        return Run(trace_of(detail), detail, REFERENCES, facts_by, why)
    return Run(trace, detail, name, facts_by, _difference(trace, detail))


def _difference(trace: bytes, detail: bytes) -> str:
    told = trace_of(detail)
    if trace == told:
        return ""
    pairs = zip(trace.splitlines(), told.splitlines())
    number = next((number for number, (one, other) in enumerate(pairs, 1) if one != other), min(trace.count(b"\n"), told.count(b"\n")) + 1)
    return f"the trace and the facts differ from line {number} of the trace on; the picture is that of the facts"


def _told(fault: Found) -> dict[str, object]:
    return {
        "line": fault.line, "column": fault.word.column if fault.word else 0, "word": fault.word.text if fault.word else "",
        "kind": fault.kind.name, "wrong": fault.wrong, "mend": fault.mend,
        "asides": [{"line": aside.line, "why": aside.why} for aside in fault.asides]}


def answer(script: bytes, horizon: int, form: str, title: str, sources: Sources) -> dict[str, object]:
    """What the page gets: `faults`, or `why` there is no run, or what it asked for."""
    faults = faults_of(script)
    if faults:
        first = min(faults, key=lambda fault: fault.rank)
        return {"faults": [_told(fault) | {"first": fault is first} for fault in faults]}
    try:
        ran = run(script, horizon, sources)
    except NoRun as wrong:
        return {"why": str(wrong)}
    if form in ("trace", "detail"):
        return {"text": (ran.trace if form == "trace" else ran.detail).decode("ascii")}
    if len(ran.detail) > MOST_DETAIL:
        return {"why": f"the detail has more than {MOST_DETAIL} bytes; take a smaller horizon"}
    try:
        seen = timeline_of(read_trace(ran.detail.splitlines(keepends=True)))
    except TooManyLines as wrong:
        return {"why": str(wrong)}
    seen.title = title
    if form == "svg":
        return {"text": draw(seen)}
    return {"data": data_of(seen), "trace": ran.trace_by, "facts": ran.facts_by, "warning": ran.warning}
