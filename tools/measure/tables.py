"""The tables of `pse52-measure`, and how they are written: lined up for people, or as one CSV for programs."""
from __future__ import annotations

import csv
import io
from collections.abc import Iterable, Iterator
from dataclasses import dataclass, field
from fractions import Fraction

from .measures import Measure, job_figures, jobs_of, shown
from .seen import Seen
from .usage import at_priorities, capacity_of, is_server, ready_ticks, stops_of, ticks_of, waits_of


@dataclass
class Table:
    """A table: its name, the names of the columns, how many of them say what the row is of, and the rows."""

    name: str
    columns: list[str]
    keys: int
    rows: list[list[str]] = field(default_factory=list)


def share(part: int, whole: int) -> str:
    """A share in percent with one digit behind the point."""
    if not whole:
        return ""
    tenths = round(Fraction(1000 * part, whole))
    return f"{tenths // 10}.{tenths % 10}%"


def jobs_table(seen: Seen, measures: list[Measure]) -> Table:
    """A row for each measure of jobs. All have the same columns; what a measure does not have is empty."""
    columns = ["jobs", "least", "mean", "p50", "p90", "p99", "greatest", "jitter", "deadline", "late", "open"]
    table = Table("jobs", ["measure", *columns], 1)
    for measure in measures:
        words = {**measure.words, "percentiles": [50, 90, 99]}
        deadline = words.get("deadline", words.get("period"))
        figures = [shown(figure) for figure in job_figures(jobs_of(seen, words), words)]
        if deadline is None:
            figures.insert(-1, "")
        table.rows.append([measure.name, *figures[:8], "" if deadline is None else str(deadline), *figures[8:]])
    return table


def threads_table(seen: Seen) -> Table:
    columns = ["thread", "ticks", "share"] + (["ready", "blocked", "preempted", "turns"] if seen.is_detail else [])
    table = Table("threads", columns, 1)
    for name in seen.closing:
        ticks = ticks_of(seen, name)
        row = [name, str(ticks), share(ticks, seen.end)]
        if seen.is_detail:
            stops = stops_of(seen, name)
            blocked = sum(wait.end - wait.start for wait in seen.blocked(name))
            row += [str(ready_ticks(seen, name)), str(blocked), str(stops.preempted), str(stops.turns)]
        table.rows.append(row)
    return table


def waits_table(seen: Seen) -> Table:
    table = Table("waits", ["thread", "call", "for", "times", "ticks", "longest", "open"], 3)
    for name in seen.closing:
        for wait in waits_of(seen, name):
            table.rows.append([name, wait.call, wait.on, str(wait.times), str(wait.ticks), str(wait.longest), str(int(wait.open))])
    return table


def priorities_table(seen: Seen) -> Table:
    table = Table("priorities", ["thread", "priority", "ticks"], 2)
    for name in seen.closing:
        for priority, ticks in at_priorities(seen, name).items():
            table.rows.append([name, str(priority), str(ticks)])
    return table


def servers_table(seen: Seen) -> Table:
    table = Table("servers", ["thread", "used", "had", "share", "exhausted", "refill_total", "refill_longest"], 1)
    for name in filter(lambda name: is_server(seen, name), seen.closing):
        capacity = capacity_of(seen, name)
        waits = capacity.refill_waits
        used = "" if capacity.used is None or not capacity.had else share(capacity.used, capacity.had)
        told = ["", ""] if waits is None else [str(sum(waits)), str(max(waits, default=0))]
        table.rows.append([name, shown(capacity.used), shown(capacity.had), used, str(capacity.exhausted), *told])
    return table


def tables_of(seen: Seen, measures: list[Measure]) -> Iterator[Table]:
    """All tables that have a row."""
    if measures:
        yield jobs_table(seen, measures)
    yield threads_table(seen)
    tables = ([waits_table(seen), priorities_table(seen)] if seen.is_detail else []) + [servers_table(seen)]
    yield from (table for table in tables if table.rows)


def as_text(tables: Iterable[Table]) -> str:
    """Lined up, words to the left and figures to the right, with an empty line between tables."""
    return "\n".join(_lined(table) for table in tables)


def _lined(table: Table) -> str:
    heads = [f"{table.name}: {table.columns[0]}", *table.columns[1:]]
    rows = [heads, *table.rows]
    widths = [max(len(row[at]) for row in rows) for at in range(len(heads))]
    lines = []
    for row in rows:
        cells = [cell.ljust(wide) if at < table.keys else cell.rjust(wide) for at, (cell, wide) in enumerate(zip(row, widths))]
        lines.append("  ".join(cells).rstrip() + "\n")
    return "".join(lines)


def as_csv(tables: Iterable[Table]) -> str:
    """One figure a line: the table, the thread or measure, what else the row is of, the name of the figure, and the figure."""
    out = io.StringIO()
    writer = csv.writer(out, lineterminator="\n")
    writer.writerow(["table", "of", "what", "figure", "value"])
    for table in tables:
        for row in table.rows:
            what = " ".join(filter(None, row[1:table.keys]))
            for column, value in zip(table.columns[table.keys:], row[table.keys:]):
                writer.writerow([table.name, row[0], what, column, value.rstrip("%") if column == "share" else value])
    return out.getvalue()
