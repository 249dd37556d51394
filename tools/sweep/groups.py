"""The rows of a table put together by the values of one or two names: counts added up, the greatest and the least of all."""
from __future__ import annotations

from collections.abc import Callable, Iterable

from measure.measures import Measure

# How the figures of several runs become one, by the ending of a column or by the kind of a measure whose column has none.
TOGETHER: dict[str, Callable[[Iterable[int]], int]] = {
    "jobs": sum, "late": sum, "open": sum, "times": sum, "total": sum, "used": sum, "had": sum,
    "least": min, "greatest": max, "longest": max,
    "ticks": sum, "exhausted": sum, "preempted": sum, "lock": max}


def columns_of(measures: list[Measure]) -> dict[str, Callable[[Iterable[int]], int]]:
    """The columns whose figures can be put together. Means, percentiles, jitters and shares cannot."""
    found = {}
    for measure in measures:
        for column in measure.columns:
            ending = column.removeprefix(measure.name).removeprefix("_") or str(measure.words["kind"])
            if ending in TOGETHER:
                found[column] = TOGETHER[ending]
    return found


def grouped(rows: list[dict[str, str]], by: list[str], measures: list[Measure], shown: list[str] | None = None) -> list[list[str]]:
    """The head and a row for each value: how many runs there were, how many without figures, and each column put together.

    Where some columns are asked for, these are shown alone.
    """
    columns = columns_of(measures)
    if shown is not None:
        columns = {column: columns[column] for column in shown}
    groups: dict[tuple[str, ...], list[dict[str, str]]] = {}
    for row in rows:
        groups.setdefault(tuple(row[name] for name in by), []).append(row)
    table = [[*by, "runs", "faults", *columns]]
    for values, members in groups.items():
        figures = []
        for column, together in columns.items():
            said = [int(row[column]) for row in members if row[column] != ""]
            figures.append(str(together(said)) if said else "")
        table.append([*values, str(len(members)), str(sum(row["fault"] != "" for row in members)), *figures])
    return table


def lined_up(table: list[list[str]]) -> str:
    widths = [max(len(row[at]) for row in table) for at in range(len(table[0]))]
    return "".join("  ".join(cell.rjust(wide) for cell, wide in zip(row, widths)) + "\n" for row in table)
