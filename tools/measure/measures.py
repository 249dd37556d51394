"""The measures that a table [[measure]] of a sweep or an option of `pse52-measure` names, with their columns and figures.

A column without a figure, as the greatest of no times, is empty. A measure that names what is not there is none: NamesNothing.
"""
from __future__ import annotations

import re
import shlex
from collections.abc import Callable, Iterable
from dataclasses import dataclass
from fractions import Fraction

from view.lines import CALLS, SIGNALS

from .jobs import NEXT_JOB, OF_NO_THREAD, SLEEP, Jobs, NamesNothing, answered, asleep_with_an_open_job, behind_a_lost_signal, periodic, thread_of
from .seen import EVENTS, Seen
from .usage import (
    capacity_of, high_ticks, is_server, refill_waits, stops_of, ticks_of, waits_of)

Figure = int | Fraction | None
Table = dict[str, object]
JOBS = ("periodic", "response")
LOCKS = frozenset(("lock", "timedlock"))
# The calls in which a thread may wait.
WAITING = (*NEXT_JOB, "lock", "timedlock", "join", "mq_send", "mq_timedsend")
PLACE = re.compile(r"\{[a-z][a-z0-9_]*\}")


class WrongMeasure(Exception):
    """What is wrong with the words of a measure."""


@dataclass(frozen=True)
class Measure:
    """A measure: the words of its table, the names of its columns, and how it is read off a trace."""

    words: Table
    columns: tuple[str, ...]
    needs_detail: bool
    read: Callable[[Seen, Table], list[Figure]]

    @property
    def name(self) -> str:
        return str(self.words["name"])

    def figures(self, seen: Seen, values: dict[str, int] | None = None) -> list[str]:
        """The figures of a trace, `values` standing in the places of names. Raises NamesNothing with the name of the measure."""
        try:
            return [shown(figure) for figure in self.read(seen, filled(self.words, values or {}))]
        except NamesNothing as wrong:
            raise NamesNothing(f"measure '{self.name}': {wrong}") from None

    @property
    def threads(self) -> list[str]:
        """The names of the threads that its words say."""
        lines = [str(self.words.get(key, "")).split() for key in ("from", "to")]
        named = [str(self.words["thread"])] if "thread" in self.words else []
        return named + [line[1] for line in lines if len(line) > 1 and line[1] != "*" and line[0] not in (*OF_NO_THREAD, "call")]

    @property
    def warning(self) -> str | None:
        """What a reader of the figures must know."""
        match self.words.get("from"):
            case "wake":
                return (f"measure '{self.name}': from 'wake' leaves out the first job, and each one that begins late, since a thread "
                        "that is late does not wait; kind 'periodic' counts from the releases")
            case "start":
                return f"measure '{self.name}': from 'start' counts the first job of a thread alone; kind 'periodic' counts all"
        return None


def filled(words: Table, values: dict[str, int]) -> Table:
    """The words with a number in the place of each `{name}`."""
    return {key: values[word[1:-1]] if isinstance(word, str) and PLACE.fullmatch(word) else word for key, word in words.items()}


def shown(figure: Figure) -> str:
    """A figure as it stands in a table: whole, or with three digits behind the point, rounded to the even one."""
    if figure is None:
        return ""
    if isinstance(figure, int):
        return str(figure)
    thousandths = round(figure * 1000)
    return f"{thousandths // 1000}.{thousandths % 1000:03d}"


# Readers: what each kind says of a trace.

def job_columns(words: Table) -> tuple[str, ...]:
    percentiles = tuple(f"p{percent}" for percent in words.get("percentiles", ()))
    late = ("late",) if "deadline" in words or words["kind"] == "periodic" else ()
    return ("jobs", "least", "mean", *percentiles, "greatest", "jitter", *late, "open")


def job_figures(jobs: Jobs, words: Table) -> list[Figure]:
    """In the order of the columns. A periodic job's deadline is its period where none is named."""
    responses = jobs.responses
    deadline = words.get("deadline", words.get("period"))
    return [jobs.count, min(responses, default=None), jobs.mean, *map(jobs.percentile, words.get("percentiles", ())),
            max(responses, default=None), jobs.jitter, *([] if deadline is None else [jobs.late(deadline)]), len(jobs.open)]


def jobs_of(seen: Seen, words: Table) -> Jobs:
    """The jobs of a measure of the kind `periodic` or `response`."""
    if words["kind"] == "periodic":
        return periodic(seen, words["thread"], words["period"], words.get("phase", 0), words.get("to", SLEEP), words.get("jobs"))
    return answered(seen, words["from"], words["to"], words.get("thread"))


def lost_signal(seen: Seen, words: Table) -> int | None:
    """When the jobs of a measure begin to count as later than they are, since a timer lost a signal; None where they never do."""
    if words["kind"] != "periodic":
        return None
    return behind_a_lost_signal(seen, words["thread"], words["period"], words.get("phase", 0), words.get("to", SLEEP))


def asleep(seen: Seen, words: Table) -> int | None:
    """When the thread of a measure first sleeps although a job is released and not done; None where it never does."""
    if words["kind"] != "periodic" or words.get("to", SLEEP) != SLEEP:
        return None
    return asleep_with_an_open_job(seen, words["thread"], words["period"], words.get("phase", 0), words.get("jobs"))


def read_jobs(seen: Seen, words: Table) -> list[Figure]:
    return job_figures(jobs_of(seen, words), words)


def read_ticks(seen: Seen, words: Table) -> list[Figure]:
    return [ticks_of(seen, thread_of(seen, words["thread"]))]


def read_utilisation(seen: Seen, words: Table) -> list[Figure]:
    return [Fraction(ticks_of(seen, thread_of(seen, words["thread"])), seen.end) if seen.end else None]


def server_of(seen: Seen, words: Table) -> str:
    name = thread_of(seen, words["thread"])
    if not is_server(seen, name):
        raise NamesNothing(f"thread '{name}' has no server in this trace")
    return name


def read_share(seen: Seen, words: Table) -> list[Figure]:
    name = server_of(seen, words)
    ticks, high = ticks_of(seen, name), high_ticks(seen, name)
    if high is None:
        raise NamesNothing(f"the ticks of '{name}' at high priority are not told, since a 'setsched' may have changed its policy")
    return [Fraction(high, ticks) if ticks else None]


def read_capacity(seen: Seen, words: Table) -> list[Figure]:
    capacity = capacity_of(seen, server_of(seen, words))
    return [capacity.used, capacity.had]


def read_exhausted(seen: Seen, words: Table) -> list[Figure]:
    return [capacity_of(seen, server_of(seen, words)).exhausted]


def read_refill_wait(seen: Seen, words: Table) -> list[Figure]:
    name = server_of(seen, words)
    waits = refill_waits(seen, name)
    if waits is None:
        raise NamesNothing(f"the waits of '{name}' for a refill are not told, since a 'setsched' may have changed its policy")
    return [sum(waits), max(waits, default=None)]


def read_lock(seen: Seen, words: Table) -> list[Figure]:
    """From the call to its return: one tick for the call, and the wait that ends with the return."""
    name = words.get("thread")
    if name is not None:
        thread_of(seen, name)
    times = [call.event.time - call.at_work + 1 for call in seen.returned
             if call.event.call in LOCKS and call.event.name == (name or call.event.name)]
    return [max(times, default=None)]


def read_blocked(seen: Seen, words: Table) -> list[Figure]:
    """The waits of a thread, of all or of those in one call or for one thing."""
    waits = [wait for wait in waits_of(seen, thread_of(seen, words["thread"]))
             if wait.call == words.get("call", wait.call) and wait.on == words.get("on", wait.on)]
    return [sum(wait.times for wait in waits), sum(wait.ticks for wait in waits), max((wait.longest for wait in waits), default=None)]


def read_preempted(seen: Seen, words: Table) -> list[Figure]:
    return [stops_of(seen, thread_of(seen, words["thread"])).preempted]


@dataclass(frozen=True)
class Kind:
    """A kind of measure: the keys that it needs and may have, the endings of its columns, its reader, whether it needs a detail."""

    needed: frozenset[str]
    allowed: frozenset[str]
    endings: Callable[[Table], Iterable[str]]
    read: Callable[[Seen, Table], list[Figure]]
    needs_detail: bool = False


def _kind(needed: str, allowed: str, endings: tuple[str, ...] | Callable[[Table], Iterable[str]],
          read: Callable[[Seen, Table], list[Figure]], needs_detail: bool = False) -> Kind:
    return Kind(frozenset(needed.split()), frozenset(allowed.split()), endings if callable(endings) else lambda _: endings, read, needs_detail)


KINDS: dict[str, Kind] = {
    "periodic": _kind("thread period", "phase to deadline jobs percentiles", job_columns, read_jobs),
    "response": _kind("from to", "thread deadline percentiles", job_columns, read_jobs),
    "ticks": _kind("thread", "", ("",), read_ticks),
    "utilisation": _kind("thread", "", ("",), read_utilisation),
    "high_share": _kind("thread", "", ("",), read_share),
    "capacity": _kind("thread", "", ("used", "had"), read_capacity),
    "exhausted": _kind("thread", "", ("",), read_exhausted),
    "refill_wait": _kind("thread", "", ("total", "longest"), read_refill_wait, True),
    "lock": _kind("", "thread", ("",), read_lock),
    "blocked": _kind("thread", "call on", ("times", "total", "longest"), read_blocked, True),
    "preempted": _kind("thread", "", ("",), read_preempted, True),
}
NUMBERS = {"period": 1, "phase": 0, "deadline": 0, "jobs": 1}


def measure_of(table: Table) -> Measure:
    """The measure that a table says. Raises WrongMeasure."""
    name, kind = table.get("name"), table.get("kind")
    if not isinstance(name, str) or not name.isidentifier() or not name.isascii():
        raise WrongMeasure("each measure has a 'name' of letters, digits and '_'")
    if not isinstance(kind, str) or kind not in KINDS:
        raise WrongMeasure(f"measure '{name}': 'kind' is one of {', '.join(KINDS)}")
    row = KINDS[kind]
    for key in table:
        if key not in row.needed | row.allowed | {"name", "kind"}:
            raise WrongMeasure(f"measure '{name}': '{kind}' has no '{key}'")
    for key in sorted(row.needed - set(table)):
        raise WrongMeasure(f"measure '{name}': '{kind}' needs '{key}'")
    for key, value in table.items():
        _check_value(name, key, value)
    for key in ("from", "to"):
        if key in table:
            _check_line(name, key, str(table[key]), kind)
    if table.get("from") in ("start", "wake") and "thread" not in table:
        raise WrongMeasure(f"measure '{name}': from '{table['from']}' needs the 'thread' that does it")
    columns = tuple(f"{name}_{ending}" if ending else name for ending in row.endings(table))
    calls = kind == "periodic" and str(table.get("to", SLEEP)).startswith("call ")
    return Measure(dict(table), columns, row.needs_detail or calls, row.read)


def measures_in(tables: object) -> list[Measure]:
    """The measures of the tables of a file. Raises WrongMeasure."""
    if not isinstance(tables, list) or not all(isinstance(table, dict) for table in tables):
        raise WrongMeasure("what is measured stands in tables [[measure]]")
    return list(map(measure_of, tables))


def measure_of_words(said: str) -> Measure:
    """The measure of jobs that words KEY=VALUE say. Its name is that of the thread where none is said, and its kind follows from its keys."""
    table: Table = {}
    try:
        split = shlex.split(said)
    except ValueError:
        raise WrongMeasure(f"--jobs has a quotation mark that is not closed: {said}") from None
    for word in split:
        key, equals, value = word.partition("=")
        if not equals:
            raise WrongMeasure(f"--jobs has words KEY=VALUE, and '{word}' is none")
        if key in table:
            raise WrongMeasure(f"--jobs has '{key}=' twice, and of both one alone would count: {said}")
        table[key] = int(value) if value.isascii() and value.isdigit() else value
    if not {"period", "from", "kind"} & set(table):
        raise WrongMeasure(f"--jobs needs period= of a periodic thread, or from= and to= of what begins and ends a job, and '{said}' has neither")
    table.setdefault("kind", "periodic" if "period" in table else "response")
    table.setdefault("name", table.get("thread", "jobs"))
    if table["kind"] not in JOBS:
        raise WrongMeasure(f"--jobs is of kind {' or '.join(JOBS)}, and not '{table['kind']}'")
    return without_places(measure_of(table))


def without_places(measure: Measure) -> Measure:
    """The measure, where no value of a sweep is to stand in it. Raises WrongMeasure."""
    for key, value in measure.words.items():
        if key in NUMBERS and isinstance(value, str):
            raise WrongMeasure(f"measure '{measure.name}': '{key}' is {value}, and only a sweep has a value for that; name a number")
    return measure


def _check_value(name: str, key: str, value: object) -> None:
    if key in NUMBERS:
        is_place = isinstance(value, str) and PLACE.fullmatch(value)
        if not is_place and (type(value) is not int or value < NUMBERS[key]):
            unit = "; all times are in ticks, without a unit" if re.fullmatch(r"\d+ ?[a-z]+", str(value)) else ""
            raise WrongMeasure(f"measure '{name}': '{key}' is a number of at least {NUMBERS[key]}, or in a sweep \"{{name}}\", "
                               f"and not {value!r}{unit}")
    elif key == "percentiles":
        if not isinstance(value, list) or not all(type(percent) is int and 1 <= percent <= 100 for percent in value):
            raise WrongMeasure(f"measure '{name}': 'percentiles' is a list of numbers from 1 to 100")
    elif not isinstance(value, str):
        raise WrongMeasure(f"measure '{name}': '{key}' is a text")
    elif key == "call" and value not in WAITING:
        raise WrongMeasure(f"measure '{name}': 'call' is one in which a thread may wait, {', '.join(sorted(WAITING))}, and not '{value}'")


def _check_line(name: str, key: str, said: str, kind: str) -> None:
    """The words of a line are words that a trace has."""
    words = said.split()
    if key == "from" and said in ("start", "wake"):
        return
    if kind == "periodic" and words[:1] == ["call"] and len(words) == 2 and words[1] in CALLS:
        return
    if kind == "response" and words[:1] == ["call"]:
        raise WrongMeasure(f"measure '{name}': '{said}' may end a job of a periodic thread alone, which has period=; "
                           f"here '{key}' begins with the word of a trace line, as 'return'")
    if not words or words[0] not in EVENTS:
        raise WrongMeasure(f"measure '{name}': '{key}' begins with the word of a trace line, as 'return', and not with '{said}'")
    known = {"return": CALLS, "deliver": SIGNALS}.get(words[0])
    if known and len(words) > 2 and words[2] != "*" and words[2] not in known:
        raise WrongMeasure(f"measure '{name}': '{key}' names '{words[2]}', which no trace has behind '{words[0]}'")


def never_done(measure: Measure, rows: Iterable[dict[str, str]]) -> bool:
    """Whether jobs are measured, and in no row one is done: the measure then names nothing."""
    if measure.words["kind"] not in JOBS:
        return False
    return all(row[f"{measure.name}_jobs"] == row[f"{measure.name}_open"] for row in rows)
