"""What a sweep says of jobs that are not done at the end, of which no response time tells."""
from __future__ import annotations

from collections.abc import Iterator, Sequence

from measure.measures import Measure, filled, never_done
from measure.notes import ends_by, is_starved
from measure.seen import Seen
from view.lines import read_trace

from .plan import Sweep
from .worker import Streams

Rows = list[dict[str, str]]
# Of each run the measures whose thread ended behind a release, with a job there that is not done.
Ended = dict[int, Sequence[str]]


def behind_an_end(sweep: Sweep, rows: Rows, ended: Ended) -> Iterator[str]:
    """Which measures have runs whose thread ended, and jobs there that it may not have."""
    for measure in sweep.measures:
        count = sum(measure.name in names for names in ended.values())
        if count:
            yield (f"measure '{measure.name}': in {count} of {len(rows)} runs its thread ended behind releases whose jobs are not done, and "
                   f"'{measure.name}_open' and '{measure.name}_late' count them; where it has no more jobs, say how many with 'jobs'")


def hidden(sweep: Sweep, rows: Rows, ended: Ended | None = None) -> Iterator[str]:
    """Which measures have runs whose late jobs no response time shows, since they are not done at the end; not those of a thread that ended."""
    for measure in sweep.measures:
        late, greatest = f"{measure.name}_late", f"{measure.name}_greatest"
        count = 0
        for number, row in enumerate(rows if late in measure.columns else ()):
            if measure.name in (ended or {}).get(number, ()):
                continue
            words = filled(measure.words, {name: int(row[name]) for name in sweep.names})
            deadline = words.get("deadline", words.get("period"))
            count += row[late] not in ("", "0") and int(row[greatest] or 0) <= deadline
        if count:
            yield (f"measure '{measure.name}': in {count} of {len(rows)} runs the late jobs are not done at the end: '{late}' counts them, "
                   f"and '{greatest}' and the other response times do not")


def none_done(sweep: Sweep, rows: Rows, program: list[str]) -> Iterator[tuple[Measure, bool]]:
    """The measures of which in no run a job is done, and whether that is so since the thread of the first such run is starved."""
    for measure in sweep.measures:
        told = [row for row in rows if row.get(f"{measure.name}_jobs")]
        if told and never_done(measure, told):
            begun = [number for number, row in enumerate(rows) if row[f"{measure.name}_jobs"] not in ("", "0")]
            yield measure, bool(begun) and _is_starved(sweep, begun[0], measure, program)


def nothing_done(measure: Measure) -> str:
    return (f"measure '{measure.name}': in no run a job is done, so there is no response time, and only late and open ones are counted; "
            f"the thread is still in the first, or '{ends_by(measure)}' is not what ends one")


def _is_starved(sweep: Sweep, number: int, measure: Measure, program: list[str]) -> bool:
    """By one run more: the table does not tell it."""
    run = sweep.run(number)
    with Streams() as streams:
        status, told, _ = streams.run([*program, sweep.command, str(sweep.horizon_of(run))], sweep.script(run).encode())
    filled_in = Measure(filled(measure.words, sweep.values_of(run)), measure.columns, measure.needs_detail, measure.read)
    return status == 0 and is_starved(Seen(read_trace(told.splitlines(keepends=True)), sweep.command == "detail"), filled_in)
