"""The command `pse52-view FORMAT`: a picture of a trace, of a detail, or of a script that is run for it."""
from __future__ import annotations

import argparse
import gc
import re
import shutil
import sys
from collections.abc import Callable
from importlib import import_module
from pathlib import Path

from command import Status, Usage, Words, carried_out, number_of_ticks, say, write
from measure.jobs import NamesNothing
from measure.measures import WrongMeasure, measure_of_words

from .lines import NotATraceLine, TooManyLines, Trace, read_trace
from .progress import Progress
from .releases import mark_jobs
from .source import NoSource, given
from .seen import timeline_of
from .timeline import Timeline
from .window import NoWindow, window

TOOL = "pse52-view"
FORMATS = ("text", "svg", "html", "vcd", "perfetto", "ftrace", "trace.dat")
WIDE, WITH_LISTS, OF_LINUX = ("text", "svg"), ("text", "svg"), ("ftrace", "trace.dat")
TICK = re.compile(r"([1-9][0-9]{0,5})(ns|us|ms|s)")
HELP = """FORMAT is one of
  text      a time line for a terminal; --width is its columns
  svg       one picture; --width is its pixels
  html      one page to zoom and pan in, with two cursors and the facts of each tick
  vcd       a value change dump, for GTKWave and other wave viewers
  perfetto  JSON of Chrome's trace event format, for ui.perfetto.dev
  ftrace    text of Linux's ftrace: sched_switch, sched_waking
  trace.dat the same as a file that trace-cmd and KernelShark open

What is drawn is FILE, or standard input: a trace, a detail, or a script. A script is run for as many ticks as --horizon says,
or as its first line does, # horizon N. A trace alone does not tell why a thread does not run; a detail or a script does."""


def _width(word: str) -> int:
    if not (word.isascii() and word.isdigit()) or not 1 <= len(word) <= 5 or int(word) < 1:
        raise argparse.ArgumentTypeError(f"'{word}' is no width from 1 to 99999")
    return int(word)


def _tick(word: str) -> str:
    if not TICK.fullmatch(word):
        raise argparse.ArgumentTypeError(f"'{word}' is no length of a tick, as 1us, 250ns or 10ms")
    return word


def command_of(words: list[str]) -> argparse.Namespace:
    """What the words ask for. Raises Usage."""
    parser = Words(TOOL, HELP)
    parser.add_argument("format", choices=FORMATS, metavar="FORMAT")
    parser.add_argument("file", nargs="?", type=Path, metavar="FILE")
    parser.add_argument("--script", type=Path, metavar="FILE", help="a script to run, in place of FILE")
    parser.add_argument("--horizon", type=number_of_ticks, metavar="N", help="run the script for so many ticks")
    parser.add_argument("--from", dest="start", type=number_of_ticks, metavar="N", help="begin the picture at this tick")
    parser.add_argument("--to", dest="end", type=number_of_ticks, metavar="N", help="end it at this one")
    parser.add_argument("--threads", type=lambda word: word.split(","), metavar="A,B", help="only these threads, in this order")
    parser.add_argument("--title", metavar="TEXT", help="a title; without it the name of the script")
    parser.add_argument("--tick", type=_tick, metavar="1us", help="how long a tick is; without it 1 us for ftrace and trace.dat, 1 ns for vcd and perfetto")
    parser.add_argument("--jobs", action="append", default=[], metavar="WORDS",
                        help="mark releases and missed deadlines, as 'thread=lo period=20 deadline=15'; the words are those of pse52-measure")
    parser.add_argument("--lists", action="store_true", help="text and svg: also who stands on which list, head first")
    parser.add_argument("--width", type=_width, metavar="N", help="text and svg: columns or pixels")
    said = parser.read(words)
    if said.script is not None and said.file is not None:
        raise Usage("--script FILE stands in place of FILE")
    if said.width is not None and said.format not in WIDE:
        raise Usage(f"'{said.format}' has no --width")
    if said.lists and said.format not in WITH_LISTS:
        raise Usage(f"'{said.format}' has no --lists")
    return said


def drawer(name: str) -> Callable[..., str | bytes]:
    """The function that draws in a format. Its module has the name of the format, without a point."""
    return import_module(f".{name.replace('.', '')}", __package__).draw


def terminal_width(name: str, width: int | None) -> int | None:
    """Where no width is asked for, a time line is as wide as the terminal that it goes to."""
    if width is None and name == "text" and sys.stdout is not None and sys.stdout.isatty():
        return shutil.get_terminal_size().columns
    return width


def traced(said: argparse.Namespace, progress: Progress) -> tuple[Trace, str]:
    """What is drawn, and its title where it has one: a script is run for its detail."""
    path = said.script or said.file
    found = given(path, said.script is not None, said.horizon, TOOL, lambda: progress.say("running the script"))
    progress.reads(found.lines)
    return read_trace(found.lines, progress.lines), path.stem if found.script is not None and path and path != Path("-") else ""


def picture(said: argparse.Namespace, progress: Progress) -> str | bytes:
    """What is written."""
    trace, title = traced(said, progress)
    progress.say("putting the picture together")
    seen: Timeline = timeline_of(trace)
    notes = mark_jobs(seen, [measure_of_words(words) for words in said.jobs])
    if notes:
        progress.done()
    for note in notes:
        say(TOOL, note)
    seen = window(seen, said.start, said.end, said.threads)
    seen.title = title if said.title is None else said.title
    seen.tick = said.tick or ("1us" if said.format in OF_LINUX else "")
    if said.format in WITH_LISTS:
        return drawer(said.format)(seen, terminal_width(said.format, said.width), said.lists)
    return drawer(said.format)(seen)


def main(words: list[str]) -> int:
    # A long trace is many small values and no cycles, and the process ends after its one picture.
    gc.disable()
    progress = Progress()

    def work() -> Status:
        try:
            text = picture(command_of(words), progress)
        finally:
            progress.done()
        return write(TOOL, text)
    return carried_out(TOOL, work, dict.fromkeys((NotATraceLine, TooManyLines, NoSource, NoWindow, NamesNothing, WrongMeasure), Status.REFUSED))
