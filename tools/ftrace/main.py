"""The command `pse52-from-ftrace MAP < LOG`."""
from __future__ import annotations

from pathlib import Path

from command import Status, Words, carried_out, say, standard_input, write

from .convert import NoLog, converted, head_of, kept
from .doubts import doubts
from .log import read_log
from .names import WrongMap, read_map

TOOL = "pse52-from-ftrace"
HELP = """Reads the text of ftrace from standard input, and writes the input of pse52 audit: the servers of the map, a line %%, and a trace."""


def carry_out(words: list[str]) -> Status:
    """Writes what the words ask for. What the map and the log do not share is said on standard error."""
    parser = Words(TOOL, HELP)
    parser.add_argument("map", type=Path, metavar="MAP", help="which thread has which name, and how long a tick is")
    parser.add_argument("--trace", action="store_true", help="write the trace alone, as for pse52-view")
    said = parser.read(words)
    names = read_map(said.map.read_text(errors="replace"))
    text = standard_input(TOOL, "the text of ftrace is").read().decode(errors="replace")
    read = read_log(text)
    found = converted(kept(read, names), names)
    for remark in [*doubts(text, read, names), *found.remarks()]:
        say(TOOL, remark)
    return write(TOOL, found.text() if said.trace else f"{head_of(names)}%%\n{found.text()}")


def main(words: list[str]) -> int:
    return carried_out(TOOL, lambda: carry_out(words), {WrongMap: Status.REFUSED, NoLog: Status.REFUSED})
