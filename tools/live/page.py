#!/usr/bin/env python3
"""Makes docs/REAL_KERNELS.md of what is known, of the probes with their traces, and of the figures; or checks that it is what they make.

    python3 tools/live/page.py           writes the page
    python3 tools/live/page.py --check   changes nothing; says what differs, and ends with 1 where something does
"""
from __future__ import annotations

import json
import sys
import textwrap
from collections.abc import Iterator
from itertools import zip_longest
from pathlib import Path

sys.path.insert(0, str(Path(__file__).resolve().parents[1]))

from live import TOP  # noqa: E402
from live.cases import PROBES, probe, probes  # noqa: E402
from live.known import Difference, Side, by_name, subjects  # noqa: E402
from simulate import answer  # noqa: E402

PAGE = TOP / "docs" / "REAL_KERNELS.md"
TEMPLATE = Path(__file__).with_name("page.md")
FIGURES = Path(__file__).with_name("figures.json")
WIDTH = 120
#: a picture of two traces has so many rows at most
MOST_ROWS = 20
KINDS = {
    "rows": "worked examples of tests/worked",
    "plain": "generated, that come to no known difference",
    "generated": "generated, whatever they come to",
    "probes": "probes of examples/real",
}


def wrapped(head: str, text: str) -> str:
    return "\n".join(textwrap.wrap(f"{head} {text}", WIDTH, initial_indent="- ", subsequent_indent="  ", break_on_hyphens=False))


# Two traces side by side


def by_time(lines: list[str]) -> dict[int, list[str]]:
    """The lines of a trace by their time; closing lines are left out."""
    found: dict[int, list[str]] = {}
    for line in lines:
        if not line.startswith("thread "):
            found.setdefault(int(line.split()[0]), []).append(line)
    return found


def rows_of(due: list[str], live: list[str]) -> list[tuple[str, str]]:
    """Both traces, the lines of an instant beside one another, from shortly before the first difference on."""
    left, right = by_time(due), by_time(live)
    rows: list[tuple[str, str]] = []
    first = 0
    for time in sorted(left.keys() | right.keys()):
        pair = list(zip_longest(left.get(time, []), right.get(time, []), fillvalue=""))
        if not first and any(a != b for a, b in pair):
            first = len(rows) or 1
        rows += pair
    if len(rows) <= MOST_ROWS:
        return rows
    begin = max(0, min(first - 4, len(rows) - MOST_ROWS))
    shown = rows[begin:begin + MOST_ROWS]
    before, after = [("..", "..")] if begin else [], [("..", "..")] if begin + MOST_ROWS < len(rows) else []
    return before + shown + after


def picture(name: str) -> Iterator[str]:
    """The script, the trace that is due, and the trace that came out, in three columns."""
    case = probe(PROBES / f"{name}.task")
    script = [line for line in case.text.decode().splitlines() if not line.startswith("#")]
    traces = [(PROBES / f"{name}{end}").read_text().splitlines() for end in (".trace", ".live.trace")]
    rows = rows_of(*traces)
    heads = (f"run {case.horizon}", "due", "this kernel")
    table = [heads, *((a or "", *(b or ("", ""))) for a, b in zip_longest(script, rows))]
    widths = [max(len(row[column]) for row in table) for column in range(2)]
    for number, (text, due, live) in enumerate(table):
        mark = " " if number == 0 or due == live else "*"
        yield f"{text:{widths[0]}} | {due:{widths[1]}} |{mark}{live}".rstrip()


def section(each: Difference) -> Iterator[str]:
    """A difference with its probes."""
    yield f"### {each.name}\n"
    yield f"{each.side.told[0].upper()}{each.side.told[1:]}.\n"
    yield wrapped("**Linux**:", each.kernel)
    yield wrapped("**Rules**:", each.rule)
    yield wrapped("**IEEE 1003.1-2017**,", f"{each.section}: {each.standard}")
    yield wrapped("**To a designer**:", each.means)
    for name in each.probes:
        case = probe(PROBES / f"{name}.task")
        how = ", where both agree" if case.shows == "agrees" else ", with `--handlers`" if case.handlers else ""
        yield f"\n[{name}](../examples/real/{name}.task){how}:\n{case.title}\n"
        yield "```"
        yield from picture(name)
        yield "```"
    yield ""


def differences() -> str:
    lines: list[str] = []
    for subject in subjects():
        lines += [f"## {subject.title}\n", *(line for each in subject.differences for line in section(each))]
    return "\n".join(lines)


# Tables


def contents() -> str:
    lines = ["| subject | difference | whose side the standard is on |", "|---|---|---|"]
    for subject in subjects():
        lines += [f"| {subject.title} | [{each.name}](#{each.name}) | {SHORT[each.side]} |" for each in subject.differences]
    return "\n".join(lines)


SHORT = {Side.STANDARD: "the rules'", Side.OPEN: "open, or Linux's", Side.OWN: "the rule is our own", Side.RIG: "a limit of the rig"}


def counts() -> str:
    sides = [each.side for each in by_name().values()]
    return (f"There are {len(sides) - sides.count(Side.RIG)}: in {sides.count(Side.STANDARD)} the standard is on the side of the rules, in "
            f"{sides.count(Side.OPEN)} it leaves the\nchoice open or leans to Linux, and in {sides.count(Side.OWN)} the rule is this project's own.")


def figures() -> str:
    """The sums that batch.py has kept."""
    told = json.loads(FIGURES.read_text())
    lines = ["| scripts | run | agree | differ, with a known name | without one | given up | runs | disturbed | events that agree |",
             "|---|---|---|---|---|---|---|---|---|"]
    for key, what in KINDS.items():
        if key in told:
            sums = told[key]
            ran = sums["agree"] + sums["known"] + sums["unknown"] + sums["gave_up"]
            lines.append(f"| {what} | {ran} | {sums['agree']} | {sums['known']} | {sums['unknown']} | {sums['gave_up']} | {sums['runs']} | "
                         f"{sums['disturbed']} | {sums['events']} |")
    effects = [sums for sums in told.values() if "effects" in sums]
    lines.append(f"\nOf the {sum(sums['effects'] for sums in effects)} effects of ticks in runs that agree half came within "
                 f"{max(sums['half'] for sums in effects):.3f} tick of their grid points,\nand 99 of 100 within "
                 f"{max(sums['nearly_all'] for sums in effects):.3f}.")
    return "\n".join(lines)


def sides() -> str:
    """Who said which trace is due, and on what all this was run."""
    told = json.loads(FIGURES.read_text())
    versions = {json.dumps(sums["versions"], sort_keys=True) for sums in told.values()}
    lines = [f"{each['kernel']} ({each['preemption']}), {each['library']}, {each['processors']} processors" for each in map(json.loads, sorted(versions))]
    asked = " and ".join(sorted({sums["side"] for sums in told.values()}))
    return "; ".join(lines) + f".\nThe traces that are due are those of {asked}."


def left_out() -> str:
    told = json.loads(FIGURES.read_text())["rows"]
    return ", ".join(f"{count} for {why}" for why, count in sorted(told["left_out"].items()))


def page() -> str:
    parts = {"DIFFERENCES": differences(), "CONTENTS": contents(), "COUNTS": counts(), "FIGURES": figures(), "SIDES": sides(), "LEFT_OUT": left_out()}
    text = TEMPLATE.read_text()
    for name, part in parts.items():
        text = text.replace(f"<!-- {name} -->", part.rstrip("\n"))
    return text


def faults() -> list[str]:
    """Where probes, what is known, and the page do not agree."""
    found = []
    known = {name: each for each in by_name().values() for name in each.probes}
    for case in probes():
        shown = known.get(case.name)
        if shown is None or case.shows not in (shown.name, "agrees"):
            found.append(f"examples/real/{case.name}.task shows {case.shows}, and what is known lists it with {shown and shown.name}")
        if answer(case.text, case.horizon)[1] != (PROBES / f"{case.name}.trace").read_bytes():
            found.append(f"examples/real/{case.name}.trace is not what is due")
    found += [f"no probe {name}" for name in known if not (PROBES / f"{name}.task").exists()]
    if not PAGE.exists() or PAGE.read_text() != page():
        found.append("docs/REAL_KERNELS.md is not what its parts make: python3 tools/live/page.py")
    return found


def main(words: list[str]) -> int:
    if words != ["--check"]:
        PAGE.write_text(page())
        return 0
    found = faults()
    print(*found, f"real kernels: {len(by_name())} differences, {len(found)} faults", sep="\n")
    return 1 if found else 0


if __name__ == "__main__":
    sys.exit(main(sys.argv[1:]))
