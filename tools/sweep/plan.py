"""The file of a sweep, read: its script, the values of each name, the horizon, and what is measured. docs/SWEEP.md explains it."""
from __future__ import annotations

import hashlib
import json
import math
import re
import tomllib
from collections import Counter
from collections.abc import Iterator
from dataclasses import dataclass
from pathlib import Path

from measure.measures import PLACE as WHOLE_PLACE
from measure.measures import NUMBERS, Measure, WrongMeasure, measures_in

MOST_RUNS = 1_000_000
GREATEST_NUMBER = 10**18
PLACE = re.compile(r"\{([a-z][a-z0-9_]*)\}")
# The endings of columns with response times.
RESPONSE = re.compile(r"least|mean|greatest|p\d+")
RESERVED = ("status", "fault")
# What a thread that waits for signals waits for.
SIGNAL_SET = re.compile(r"all|none|rt\d+(,rt\d+)*")
# The exit statuses that a run has by its script and words alone: it would end so again.
LASTING = frozenset(("0", "1", "2", "3"))
# What measures a trace.
TOOLS = Path(__file__).parents[1]
MEASURING = [TOOLS / "sweep" / "worker.py", *(TOOLS / "measure" / f"{name}.py" for name in ("measures", "jobs", "notes", "usage", "seen")),
             *(TOOLS / "view" / f"{name}.py" for name in ("lines", "facts", "seen", "timeline", "tracks"))]


class WrongSweep(Exception):
    """What is wrong with the file of a sweep."""


@dataclass(frozen=True)
class Run:
    """One run of the grid: its number, from 0, and its values in the order of the names."""

    number: int
    values: tuple[int, ...]


@dataclass(frozen=True)
class Sweep:
    """A sweep as its file says it."""

    folder: Path
    stem: str
    template: str
    horizon: int | str
    values: dict[str, list[int]]
    measures: list[Measure]

    @property
    def names(self) -> list[str]:
        return list(self.values)

    @property
    def count(self) -> int:
        return math.prod(len(values) for values in self.values.values())

    @property
    def figures(self) -> int:
        """How many columns the measures have."""
        return sum(len(measure.columns) for measure in self.measures)

    @property
    def columns(self) -> list[str]:
        return [*self.names, *RESERVED, *(column for measure in self.measures for column in measure.columns)]

    @property
    def command(self) -> str:
        """The command of each run: a measure that needs what no trace tells asks for the detail."""
        return "detail" if any(measure.needs_detail for measure in self.measures) else "run"

    def run(self, number: int) -> Run:
        """The run of the grid with this number, the last name changing quickest."""
        values, rest = [], number
        for choices in reversed(self.values.values()):
            rest, at = divmod(rest, len(choices))
            values.append(choices[at])
        return Run(number, tuple(reversed(values)))

    def runs(self) -> Iterator[Run]:
        """The whole grid in its order."""
        return map(self.run, range(self.count))

    def values_of(self, run: Run) -> dict[str, int]:
        return dict(zip(self.names, run.values))

    def script(self, run: Run) -> str:
        return filled(self.template, self.values_of(run))

    def horizon_of(self, run: Run) -> int:
        return self.horizon if isinstance(self.horizon, int) else int(filled(self.horizon, self.values_of(run)))

    def lasts(self, row: list[str]) -> bool:
        """Whether the run of this row would end so again: it was started, had what it needed, and was not killed."""
        return row[len(self.names)] in LASTING

    def beside(self, output: Path | None, suffix: str) -> Path:
        """A file of the sweep: beside the table that is asked for, else beside the file of the sweep."""
        if output is None:
            return self.folder / f"{self.stem}{suffix}"
        return output if suffix == ".csv" else output.with_name(f"{output.stem}{suffix}")

    def deadline_of(self, column: str) -> int | None:
        """The deadline of the measure whose response times stand in this column, where it is one number."""
        for measure in self.measures:
            if column in measure.columns and RESPONSE.fullmatch(column.removeprefix(f"{measure.name}_")):
                deadline = measure.words.get("deadline", measure.words.get("period"))
                return deadline if isinstance(deadline, int) else None
        return None

    def identity(self, program: list[str]) -> str:
        """Two sweeps with the same identity have the same rows, so the one may go on where the other stopped.

        Of the program it has the words, and the content of those that are files, of Python with the modules beside them; and the
        content of what measures.
        """
        parts = [part for word in program for part in parts_of(Path(word))]
        files = [hashlib.sha256(path.read_bytes()).hexdigest() for path in (*parts, *MEASURING) if path.is_file()]
        told = [self.template, self.horizon, list(self.values.items()), [measure.words for measure in self.measures], program, files]
        return hashlib.sha256(json.dumps(told).encode()).hexdigest()


def parts_of(file: Path) -> list[Path]:
    """The files of which a part of a program is: itself, and of Python the modules beside it, which it may import."""
    return sorted({file, *file.parent.glob("*.py")}) if file.suffix == ".py" else [file]


def filled(template: str, values: dict[str, int]) -> str:
    """The text with a number in each place."""
    return PLACE.sub(lambda place: str(values[place[1]]), template)


def read_sweep(path: Path) -> Sweep:
    """Reads the file of a sweep and its script. Raises WrongSweep, and OSError where a file cannot be read."""
    try:
        said = tomllib.loads(_text(path))
    except tomllib.TOMLDecodeError as error:
        raise WrongSweep(f"{path.name}: {error}") from None
    _only(said, {"script", "horizon", "values", "measure"}, "the file")
    script = said.get("script")
    if not isinstance(script, str):
        raise WrongSweep("the file needs 'script': the name of the script's file, in quotation marks")
    template = _text(path.parent / script)
    values = _values(said.get("values", {}))
    sweep = Sweep(path.parent, path.stem, template, _horizon(said.get("horizon")), values, _measures(said.get("measure", [])))
    _places(sweep)
    _names(sweep)
    if sweep.count > MOST_RUNS:
        raise WrongSweep(f"the grid has {sweep.count} runs, and a sweep at most {MOST_RUNS}")
    columns = sweep.columns
    for column in columns:
        if columns.count(column) > 1:
            raise WrongSweep(f"two columns have the name '{column}'")
    return sweep


def _text(path: Path) -> str:
    """The text of a file, its line ends as they are."""
    try:
        return path.read_bytes().decode()
    except UnicodeDecodeError as error:
        raise WrongSweep(f"{path.name}: {error}") from None


def _only(table: dict, keys: set[str], what: str) -> None:
    for key in table:
        if key not in keys:
            raise WrongSweep(f"{what} has no '{key}'; it has {', '.join(sorted(keys))}")


def _is_number(value: object) -> bool:
    return isinstance(value, int) and not isinstance(value, bool) and 0 <= value <= GREATEST_NUMBER


def _horizon(said: object) -> int | str:
    if _is_number(said) or (isinstance(said, str) and PLACE.fullmatch(said)):
        return said
    raise WrongSweep("the file needs 'horizon': a number of ticks, or \"{name}\"")


def _values(said: object) -> dict[str, list[int]]:
    if not isinstance(said, dict) or not said:
        raise WrongSweep("[values] names at least one value")
    values = {}
    for name, choice in said.items():
        if not PLACE.fullmatch("{" + name + "}"):
            raise WrongSweep(f"'{name}' is no name: a small letter, then small letters, digits and '_'")
        values[name] = _range(name, choice) if isinstance(choice, dict) else choice
        if not isinstance(values[name], list) or not values[name] or not all(map(_is_number, values[name])):
            raise WrongSweep(f"'{name}' is a list of numbers, or has from, to and step")
        for value, times in Counter(values[name]).items():
            if times > 1:
                raise WrongSweep(f"'{name}' has {value} {times} times, and each of its runs would count as often")
    return values


def _range(name: str, choice: dict) -> list[int]:
    _only(choice, {"from", "to", "step"}, f"'{name}'")
    first, last, step = choice.get("from"), choice.get("to"), choice.get("step", 1)
    if not (_is_number(first) and _is_number(last) and _is_number(step)) or step == 0 or first > last:
        raise WrongSweep(f"'{name}' goes from a number to one that is not below it, by a step of at least 1")
    if (last - first) // step >= MOST_RUNS:
        raise WrongSweep(f"'{name}' has more than {MOST_RUNS} values")
    return list(range(first, last + 1, step))


def _measures(said: object) -> list[Measure]:
    try:
        return measures_in(said)
    except WrongMeasure as wrong:
        raise WrongSweep(str(wrong)) from None


def _places(sweep: Sweep) -> None:
    """Each place has a value, and each value a place."""
    said = [sweep.horizon, *(word for measure in sweep.measures for word in measure.words.values())]
    measured = {word[1:-1] for word in said if isinstance(word, str) and WHOLE_PLACE.fullmatch(word)}
    places = set(PLACE.findall(sweep.template)) | measured
    for name in sorted(places - set(sweep.names)):
        raise WrongSweep(f"{'a measure or the horizon' if name in measured else 'the script'} has {{{name}}}, and [values] has no '{name}'")
    for name in sweep.names:
        if name not in places:
            raise WrongSweep(f"[values] has '{name}', and the script has no {{{name}}}")
    for measure in sweep.measures:
        for key in NUMBERS.keys() & {key for key, word in measure.words.items() if isinstance(word, str)}:
            if min(sweep.values[measure.words[key][1:-1]]) < NUMBERS[key]:
                raise WrongSweep(f"measure '{measure.name}': '{key}' is a number of at least {NUMBERS[key]}, and {measure.words[key]} may be less")


def _declared(sweep: Sweep, *heads: str) -> list[str]:
    """The names that lines of the script with these first words declare."""
    lines = [line.split("#")[0].split() for line in sweep.template.split("\n")]
    return [words[1] for words in lines if len(words) > 1 and words[0] in heads]


def _names(sweep: Sweep) -> None:
    """Each thread that a measure names, and each thing that one is to wait for, is one of the script, at some values at least."""
    threads, things = _declared(sweep, "thread"), _declared(sweep, "thread", "mutex", "cond", "sem", "queue")
    for measure in sweep.measures:
        for name in measure.threads:
            if not _is_one_of(name, threads, sweep):
                raise WrongSweep(f"measure '{measure.name}': the script has no thread '{name}'; it has {', '.join(threads) or 'none'}")
        on = measure.words.get("on")
        if isinstance(on, str) and not SIGNAL_SET.fullmatch(on) and not _is_one_of(on, things, sweep):
            raise WrongSweep(f"measure '{measure.name}': the script has no '{on}' to wait for; it has {', '.join(things) or 'nothing'}")


def _is_one_of(name: str, there: list[str], sweep: Sweep) -> bool:
    return any(_form(one, sweep.values).fullmatch(name) for one in there)


def _form(name: str, values: dict[str, list[int]]) -> re.Pattern[str]:
    """What a name in the script may be, where a number of the grid may stand in it."""
    parts = PLACE.split(name)
    return re.compile("".join(f"(?:{'|'.join(map(str, values[part]))})" if at % 2 else re.escape(part) for at, part in enumerate(parts)))
