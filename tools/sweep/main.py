"""The command `pse52-sweep SWEEP.toml`."""
from __future__ import annotations

import argparse
import os
import shlex
import shutil
import signal
import subprocess
import time
from enum import IntEnum
from pathlib import Path

from command import Usage, Words, overwrites, say, tell, told, write
from measure.measures import Measure

from .engine import NoEngine, Work, results
from .groups import columns_of, grouped, lined_up
from .plan import Sweep, WrongSweep, read_sweep
from .plot import NoPlot, draw, gnuplot
from .table import Kept, read_table, table
from .told import of_runs, refusals
from .unfinished import behind_an_end, hidden, none_done, nothing_done

TOOL = "pse52-sweep"
TOP = Path(__file__).resolve().parents[2]
WRAPPER = TOP / "bin" / "pse52"


class Status(IntEnum):
    DONE = 0
    USAGE = 1
    REFUSED = 2
    MISSING = 3
    INTERRUPTED = 130


class NoProgram(Exception):
    """The program that runs the scripts cannot be found or built."""


class NamedNothing(Exception):
    """A measure had nothing to measure, or no run could be measured. The table is written all the same."""


def count_of(word: str) -> int:
    if word.isdecimal() and int(word) >= 1:
        return int(word)
    raise argparse.ArgumentTypeError(f"'{word}' is not how many runs go at once; what is measured is said in SWEEP.toml")


def words_of(words: list[str]) -> argparse.Namespace:
    parser = Words(TOOL, "Runs one script with many values, and writes a table SWEEP.csv with a line for each run.")
    parser.add_argument("sweep", type=Path, metavar="SWEEP.toml")
    parser.add_argument("--jobs", type=count_of, default=os.cpu_count() or 1, metavar="N", help="runs at once, on each machine")
    parser.add_argument("--sshlogin", metavar="HOSTS", help="machines, as GNU parallel takes them; ':' is this one")
    parser.add_argument("--output", type=Path, metavar="FILE.csv", help="the table; what is kept and drawn stands beside it")
    parser.add_argument("--by", metavar="NAME[,NAME]", help="also print the figures put together by the values of these names")
    parser.add_argument("--columns", metavar="NAME[,NAME]", help="with --by, these columns alone")
    parser.add_argument("--plot", metavar="COLUMN", help="also draw this column, as SWEEP-COLUMN.svg")
    parser.add_argument("--over", metavar="NAME[,NAME]", help="the one or two names that it is drawn over")
    parser.add_argument("--program", metavar="WORDS", default=os.environ.get("PSE52"),
                        help="what runs a script; without it PSE52 of the environment, or bin/pse52")
    parser.add_argument("--engine", choices=("parallel", "xargs"), help="without it GNU parallel where that is here")
    parser.add_argument("--anew", action="store_true", help="forget the rows that are done")
    said = parser.read(words)
    if said.columns and not said.by:
        parser.error("--columns are some of those that --by NAME puts together, and without it nothing is")
    if said.over and not said.plot:
        parser.error("--over is for a picture, and without --plot COLUMN none is drawn")
    return said


def program_of(said: str | None) -> list[str]:
    """The words of the program. That of this repository is started without its wrapper, so that rows are kept of the program that ran
    and not of the wrapper; where there is none, the wrapper says why."""
    words = [str(WRAPPER)]
    if said:
        try:
            words = shlex.split(said)
        except ValueError as wrong:
            raise NoProgram(f"--program {said}: {wrong}") from wrong
        path = shutil.which(words[0]) if words else None
        if path is None:
            raise NoProgram(f"'{said}' is no program that can be started")
        if Path(path).resolve() != WRAPPER:
            return [str(Path(word).resolve()) if os.sep in word and Path(word).exists() else word for word in words]
    ended = subprocess.run(["sh", str(WRAPPER), *words[1:], "--which"], stdout=subprocess.PIPE, text=True, check=False)
    if ended.returncode != 0:
        raise NoProgram(f"--program '{WRAPPER} --released' runs the release, --program 'python3 {TOP}/tools/reference/simulate.py' the reference")
    return [ended.stdout.rstrip("\n")]


class Progress:
    """How many runs are done and about how long is left, on standard error: often on a terminal, else at each tenth."""

    def __init__(self, done: int, count: int) -> None:
        self._first, self._count = done, count
        self._began = time.monotonic()
        self._shown = 0.0
        self._tenth = 10 * done // max(1, count)
        self._terminal = overwrites()
        if done:
            tell(f"{done} of {count} runs were done before")

    def now(self, done: int) -> None:
        """So many runs are done by now."""
        time_now, tenth, last = time.monotonic(), 10 * done // self._count, done == self._count
        if self._terminal and (time_now - self._shown > 0.2 or last):
            self._shown = time_now
            tell(f"\r\033[K{self._told(done, time_now)}", end="\n" if last else "")
        elif not self._terminal and tenth > self._tenth:
            tell(self._told(done, time_now))
        self._tenth = tenth

    def _told(self, done: int, now: float) -> str:
        left = (now - self._began) / max(1, done - self._first) * (self._count - done)
        return f"{done} of {self._count} runs, about {_span(left)} left"


def _span(seconds: float) -> str:
    if seconds < 100:
        return f"{seconds:.0f} s"
    return f"{seconds / 60:.0f} min" if seconds < 6000 else f"{seconds / 3600:.1f} h"


def carry_out(sweep: Sweep, said: argparse.Namespace, program: list[str]) -> tuple[Path, Kept]:
    """Carries out the runs that are not done yet, and writes the table. The rows stay, so that the same words need no run again."""
    kept_file = sweep.beside(said.output, ".rows")
    if said.anew:
        kept_file.unlink(missing_ok=True)
    with Kept(kept_file, sweep.identity(program), sweep.lasts) as kept:
        left = [run.number for run in sweep.runs() if run.number not in kept.rows]
        progress = Progress(len(kept.rows), sweep.count)
        if left:
            for line in results(Work(said.sweep.resolve(), program, left, said.jobs, said.sshlogin), said.engine):
                kept.add(line)
                progress.now(len(kept.rows))
    if len(kept.rows) != sweep.count:
        raise NoEngine(f"the engine ended with {len(kept.rows)} of {sweep.count} runs done; start the sweep again to go on")
    path = sweep.beside(said.output, ".csv")
    path.write_text(table(sweep.columns, kept.rows))
    again = sum(not sweep.lasts(row) for row in kept.rows.values())
    if again:
        say(TOOL, f"runs that something ended from outside, as their rows say: {again}; the same words do them again")
    return path, kept


def over_of(sweep: Sweep, said: str | None) -> list[str]:
    """The names that are drawn over: those that are asked for, or the first two that have more than one value, the one with more first."""
    if said:
        names = said.split(",")
    else:
        several = [name for name in sweep.names if len(sweep.values[name]) > 1][:2] or sweep.names[:1]
        names = sorted(several, key=lambda name: len(sweep.values[name]), reverse=True)
    if len(names) > 2 or len(set(names)) < len(names) or any(name not in sweep.values for name in names):
        raise WrongSweep(f"--over is one or two of {', '.join(sweep.names)}")
    return names


def complaints(rows: list[dict[str, str]], misnamed: list[Measure]) -> list[str]:
    """What is wrong with the measures as the runs show it: the first fault of a run that was measured, and measures that name no end of a job."""
    faults = [row["fault"] for row in rows if row["status"] == "0" and row["fault"]]
    found = [f"{len(faults)} of {len(rows)} runs lack figures; the first: {faults[0]}"] if faults else []
    if all(row["status"] != "0" for row in rows):
        found.append("no run ended with a trace, so nothing is measured")
    return found + [f"measure '{measure.name}': in no run a job is done; does 'to' name what comes?" for measure in misnamed]


def put(text: str) -> bool:
    """Writes to standard output. Where that fails it is told, and the sweep goes on: its table and its picture are files."""
    return not write(TOOL, text)


def carried_out(said: argparse.Namespace) -> Status:
    """The whole sweep: its runs, its table, and what is printed and drawn of it."""
    sweep = read_sweep(said.sweep)
    over = over_of(sweep, said.over)
    by = said.by.split(",") if said.by else []
    if any(name not in sweep.values for name in by):
        raise WrongSweep(f"--by is one or more of {', '.join(sweep.names)}")
    columns = said.columns.split(",") if said.columns else None
    for name in columns or ():
        if name not in columns_of(sweep.measures):
            raise WrongSweep(f"--columns: '{name}' cannot be put together; there are {', '.join(columns_of(sweep.measures))}")
    if said.plot is not None:
        figures = [column for column in sweep.columns if column != "fault"]
        if said.plot not in figures:
            raise WrongSweep(f"no column of figures has the name '{said.plot}'; there are {', '.join(figures)}")
        gnuplot()
    for warning in filter(None, (measure.warning for measure in sweep.measures)):
        say(TOOL, warning)
    if not sweep.measures:
        say(TOOL, "nothing is measured, since the file has no table [[measure]]")
    program = program_of(said.program)
    path, kept = carry_out(sweep, said, program)
    rows = read_table(path)
    written = put(f"{path}\n")
    if by:
        written = written and put(lined_up(grouped(rows, by, sweep.measures, columns)))
    undone = list(none_done(sweep, rows, program))
    for note in [*refusals(sweep, rows), *of_runs(sweep, kept.told), *hidden(sweep, rows, kept.ended), *behind_an_end(sweep, rows, kept.ended),
                 *(nothing_done(measure) for measure, starved in undone if starved)]:
        say(TOOL, note)
    if wrong := complaints(rows, [measure for measure, starved in undone if not starved]):
        raise NamedNothing("; ".join(wrong))
    if said.plot is not None:
        picture = sweep.beside(said.output, f"-{said.plot}.svg")
        draw(rows, said.plot, over, picture, sweep.deadline_of(said.plot))
        written = written and put(f"{picture}\n")
    return Status.DONE if written else Status.REFUSED


def main(words: list[str]) -> Status:
    try:
        said = words_of(words)
    except SystemExit as ended:
        return Status.REFUSED if ended.code else Status.DONE
    except Usage as wrong:
        say(TOOL, f"{wrong}; --help tells all")
        return Status.USAGE
    for number in (signal.SIGTERM, signal.SIGHUP):
        signal.signal(number, signal.default_int_handler)
    try:
        return carried_out(said)
    except (WrongSweep, NamedNothing, OSError) as wrong:
        say(TOOL, told(wrong))
        return Status.REFUSED
    except (NoEngine, NoProgram, NoPlot) as missing:
        say(TOOL, str(missing))
        return Status.MISSING
    except KeyboardInterrupt:
        tell(f"\n{TOOL}: interrupted; the same words go on from here")
        return Status.INTERRUPTED
