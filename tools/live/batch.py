#!/usr/bin/env python3
"""Runs many scripts on this machine's kernel, and adds up what they show.

    python3 tools/live/batch.py rows                      the worked examples of tests/worked that the kernel has the forms for
    python3 tools/live/batch.py probes [--keep]           the probes of examples/real; --keep writes their traces and logs anew
    python3 tools/live/batch.py generated FIRST COUNT     generated scripts, from a seed on
    python3 tools/live/batch.py plain FIRST COUNT         those that come to no known difference, and so must agree

Further words: --only NAME.., --program WORDS, --core K, --times T, --figures NAME (keeps the sums in tools/live/figures.json),
--logs FOLDER (keeps each log). Exit status 1 where a difference has no name, or the other side parts from the reference.
"""
from __future__ import annotations

import argparse
import json
import sys
from collections.abc import Iterator
from dataclasses import asdict, dataclass, field
from pathlib import Path

sys.path.insert(0, str(Path(__file__).resolve().parents[1]))

from live.cases import PROBES, Case, generated, probes, worked  # noqa: E402
from live.due import Side, other_side  # noqa: E402
from live.rig import CannotRun, Options, Result, TooLong, run_script  # noqa: E402
from live.runner import NoLog, build, last_core  # noqa: E402
from live.settings import Interrupted, refused_by_kernel, why_not  # noqa: E402
from live.versions import versions  # noqa: E402
from simulate import answer  # noqa: E402

FIGURES = Path(__file__).with_name("figures.json")
LOGS = Path(__file__).with_name("tests") / "logs"


@dataclass
class Sums:
    """What a batch shows."""

    scripts: int = 0
    left_out: dict[str, int] = field(default_factory=dict)
    agree: int = 0
    known: int = 0
    unknown: int = 0
    gave_up: int = 0
    runs: int = 0
    disturbed: int = 0
    events: int = 0
    parted: int = 0  #: traces of the other side that are not the reference's
    names: dict[str, int] = field(default_factory=dict)  #: how often each known difference was one of those that explain

    def line(self) -> str:
        ran = self.agree + self.known + self.unknown + self.gave_up
        return (f"scripts {self.scripts}, run {ran}: agree {self.agree}, differ with a known name {self.known}, without {self.unknown}, "
                f"given up {self.gave_up}; left out {self.left_out}; runs {self.runs}, disturbed {self.disturbed}; "
                f"events that agree {self.events}; traces that are not the reference's {self.parted}")


def words_of(words: list[str]) -> argparse.Namespace:
    parser = argparse.ArgumentParser(description=__doc__, formatter_class=argparse.RawDescriptionHelpFormatter)
    parser.add_argument("kind", choices=("rows", "probes", "generated", "plain"))
    parser.add_argument("numbers", nargs="*", type=int)
    parser.add_argument("--keep", action="store_true")
    parser.add_argument("--only", nargs="+", default=[])
    parser.add_argument("--program")
    parser.add_argument("--core", type=int, default=last_core())
    parser.add_argument("--times", type=int, default=2)
    parser.add_argument("--figures")
    parser.add_argument("--logs", type=Path)
    return parser.parse_args(words)


def cases(said: argparse.Namespace) -> Iterator[Case]:
    match said.kind:
        case "rows":
            found = worked()
        case "probes":
            found = probes()
        case _:
            found = generated(*said.numbers, is_plain=said.kind == "plain")
    yield from (case for case in found if not said.only or case.name in said.only)


class Batch:
    """The cases of one kind, one after the other."""

    def __init__(self, said: argparse.Namespace, side: Side) -> None:
        self.said = said
        self.side = side
        self.sums = Sums()
        self.distances: list[float] = []  #: of effects of ticks from their grid points, in ticks, where runs agree

    def run(self, case: Case) -> None:
        self.sums.scripts += 1
        options = Options(core=self.said.core, times=self.said.times, handlers_in_waits=case.handlers)
        try:
            result = run_script(case.text, case.horizon, self.side, options)
        except (CannotRun, TooLong) as cannot:
            why = cannot.lines[0].why.split(":")[0] if isinstance(cannot, CannotRun) else "too long"
            self.sums.left_out[why] = self.sums.left_out.get(why, 0) + 1
            return
        except NoLog as failed:
            print(f"{case.name}: {failed}")
            self.sums.unknown += 1
            return
        self.add(case, result)
        if self.said.keep:
            keep_probe(case, result)
        if self.said.logs:
            self.said.logs.mkdir(parents=True, exist_ok=True)
            (self.said.logs / f"{case.name}.log").write_text(result.last.text)
            (self.said.logs / f"{case.name}.task").write_bytes(case.text)
            (self.said.logs / f"{case.name}.live.trace").write_text(trace_text(result.last.found.lines))
            (self.said.logs / f"{case.name}.trace").write_text(trace_text(result.due.lines))

    def add(self, case: Case, result: Result) -> None:
        """Adds up one result, and prints what is not as it would be best."""
        sums, found = self.sums, result.last.found
        sums.runs += result.attempts
        sums.disturbed += result.attempts - len(result.runs)
        sums.events += found.compared
        if trace_text(result.due.lines).encode() != answer(case.text, case.horizon)[1]:
            sums.parted += 1
            print(f"{case.name}: the trace of {self.side.name} is not the reference's")
        if result.gave_up is not None:
            sums.gave_up += 1
            print(f"{case.name}: given up, {result.gave_up}; {found.differences[:1]}")
        elif found.agrees:
            sums.agree += 1
            self.distances += [event.phase for run in result.runs for event in run.log.events if event.is_call]
        else:
            sums.known += bool(result.names)
            sums.unknown += not result.names
            for name in result.names:
                sums.names[name] = sums.names.get(name, 0) + 1
            print(f"{case.name}: {', '.join(result.names) or 'NO KNOWN NAME'}: {found.differences[0]}")
        shown = ["agrees"] if result.agrees else result.names
        if case.shows and case.shows not in shown:
            sums.unknown += 1
            print(f"{case.name}: shows {', '.join(shown)}, and was to show {case.shows}")


def trace_text(lines: list[str]) -> str:
    return "".join(line + "\n" for line in lines)


def keep_probe(case: Case, result: Result) -> None:
    """The traces beside the probe, and its log for the tests."""
    (PROBES / f"{case.name}.trace").write_text(trace_text(result.due.lines))
    (PROBES / f"{case.name}.live.trace").write_text(trace_text(result.last.found.lines))
    LOGS.mkdir(exist_ok=True)
    (LOGS / f"{case.name}.log").write_text(result.last.text)


def placed(distances: list[float]) -> dict[str, float]:
    """How far from their grid points effects came: of half of them, and of all but one in a hundred, at most."""
    found = sorted(map(abs, distances)) or [0.0]
    return {"effects": len(distances), "half": found[len(found) // 2], "nearly_all": found[len(found) * 99 // 100]}


def keep_figures(name: str, side: Side, sums: Sums, distances: list[float]) -> None:
    """The sums by their kind, for the page."""
    figures = json.loads(FIGURES.read_text()) if FIGURES.exists() else {}
    figures[name] = asdict(sums) | placed(distances) | {"side": side.name, "versions": versions()}
    FIGURES.write_text(json.dumps(figures, indent=1, sort_keys=True) + "\n")


def main(words: list[str]) -> int:
    said = words_of(words)
    why = why_not() or refused_by_kernel()
    if why is not None:
        print(f"skipped: {why}")
        return 0
    build()
    side = other_side(said.program)
    batch = Batch(said, side)
    try:
        for case in cases(said):
            batch.run(case)
    except Interrupted:
        print("interrupted")
        return 130
    print(f"beside {side.name}")
    print(batch.sums.line())
    print(placed(batch.distances))
    print(dict(sorted(batch.sums.names.items())))
    if said.figures:
        keep_figures(said.figures, side, batch.sums, batch.distances)
    return 1 if batch.sums.unknown or batch.sums.parted else 0


if __name__ == "__main__":
    sys.exit(main(sys.argv[1:]))
