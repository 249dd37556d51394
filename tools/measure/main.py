"""The command `pse52-measure`."""
from __future__ import annotations

import argparse
import tomllib
from pathlib import Path

from command import Status, Usage, Words, carried_out, number_of_ticks, say, write
from view.lines import NotATraceLine, TooManyLines, read_trace
from view.source import Given, NoSource, given

from .jobs import NamesNothing
from .measures import JOBS, Measure, WrongMeasure, measure_of_words, measures_in, without_places
from .notes import notes_of, notes_of_run
from .rta import Analysis, remarks, rta_table
from .seen import Seen
from .tables import as_csv, as_text, share, tables_of
from .tasks import NoTask

TOOL = "pse52-measure"
HELP = """Measures one run of pse52: jobs and their response times, threads, waits, priorities, servers.

What is measured is FILE, or standard input: a trace, a detail, or a script. A script is run for as many ticks as --horizon says,
or as its first line does, # horizon N. A trace alone does not tell what a thread waits for; a detail or a script does.

--jobs has words KEY=VALUE, as a table [[measure]] of a sweep has them, for instance
  --jobs 'thread=logger period=40 to="return logger gettime" deadline=39'
  --jobs 'from="return source mq_send" to="return server sem_post" deadline=30'
A job of a periodic thread counts from its release, whether or not the thread waited for it."""


def words_of(words: list[str]) -> argparse.Namespace:
    parser = Words(TOOL, HELP)
    parser.add_argument("file", nargs="?", type=Path, metavar="FILE")
    parser.add_argument("--script", type=Path, metavar="FILE", help="a script to run, in place of FILE")
    parser.add_argument("--horizon", type=number_of_ticks, metavar="N", help="run the script for so many ticks")
    parser.add_argument("--jobs", action="append", default=[], metavar="WORDS", help="measure jobs; it may come several times")
    parser.add_argument("--measures", type=Path, metavar="FILE", help="measure the jobs that the tables [[measure]] of this file say")
    parser.add_argument("--csv", action="store_true", help="write one CSV: table, of, what, figure, value")
    parser.add_argument("--rta", action="store_true", help="also the periodic tasks of the script, and the response times that are proved for them")
    said = parser.read(words)
    if said.script is not None and said.file is not None:
        raise Usage("--script FILE stands in place of FILE")
    return said


def measures_of(said: argparse.Namespace) -> list[Measure]:
    """The measures of jobs that the words and the file name."""
    measures = [measure_of_words(words) for words in said.jobs]
    if said.measures:
        try:
            found = measures_in(tomllib.loads(said.measures.read_bytes().decode()).get("measure", []))
        except (tomllib.TOMLDecodeError, UnicodeDecodeError, WrongMeasure) as wrong:
            raise WrongMeasure(f"{said.measures}: {wrong}") from None
        measures += [without_places(measure) for measure in found if measure.words["kind"] in JOBS]
    return measures


def taken(said: argparse.Namespace) -> Given:
    """What is measured."""
    found = given(said.script or said.file, said.script is not None, said.horizon, TOOL)
    if said.rta and found.script is None:
        raise Usage("--rta is for a script, and this is none")
    return found


def check(seen: Seen, measures: list[Measure]) -> list[str]:
    """What must be said beside the figures. Raises NamesNothing where a measure names what never comes."""
    notes = [*notes_of_run(seen), *notes_of(seen, measures)]
    if not seen.is_detail:
        notes.append("a trace does not tell what a thread waits for, nor at which priority it runs on; "
                     "of the script, or of a detail, that is measured too")
    return notes


def heading(seen: Seen) -> str:
    idle = sum(end - start for start, end in seen.runs.get("", ()))
    busy = seen.end - idle
    return f"{seen.end} ticks, of which the processor ran for {busy} ({share(busy, seen.end) or '0%'}) and was idle for {idle}\n\n"


def measured(said: argparse.Namespace) -> str:
    """The text that is written."""
    measures = measures_of(said)
    lines, script = taken(said)
    seen = Seen(read_trace(lines), script is not None)
    for note in check(seen, measures):
        say(TOOL, note)
    tables = list(tables_of(seen, measures))
    if not said.rta or script is None:
        return as_csv(tables) if said.csv else heading(seen) + as_text(tables)
    analysis = Analysis(script, {str(m.words["thread"]): m.words["deadline"] for m in measures if {"thread", "deadline"} <= set(m.words)})
    analysis.prove()
    analysis.look(seen, measures)
    for note in analysis.notes:
        say(TOOL, note)
    tables.append(rta_table(analysis))
    return as_csv(tables) if said.csv else heading(seen) + as_text(tables) + remarks(analysis)


def main(words: list[str]) -> int:
    return carried_out(TOOL, lambda: write(TOOL, measured(words_of(words))),
                       dict.fromkeys((NotATraceLine, TooManyLines, NamesNothing, WrongMeasure, NoSource, NoTask), Status.REFUSED))
