"""What of a script this machine's kernel has not got, so that it is not run at all."""
from __future__ import annotations

from collections.abc import Iterator
from dataclasses import dataclass

from forms import REAL, RESULTS, SIGNAL, SIGNAL_SET, Form, Stage, is_place
from reader import Entry, heading_of, read_lines
from words import lines_of, number_of, signals_of

from .flatten import CALLS, SIGNALS

#: Linux has the priorities 1 to 99 for these policies, and the runner's own thread has the highest
HIGHEST_PRIORITY = 98

#: the keywords that flatten.py and the runner know, beside the calls
KNOWN = frozenset((
    *"1 abs action add at block cleanup cond disable dormant enable end fifo forever handler if ignore inherit loop mutex".split(),
    *"nonblock none protect quantum queue recursive rel rr run sem set take thread timer unblock unless".split(),
    *CALLS, *RESULTS))


#: the words of CLOCK_REALTIME, which is this machine's own clock
OF_THE_CLOCK = frozenset((REAL, "clock_settime", "real_gettime"))


@dataclass(frozen=True)
class Unfit:
    """A line of the script that cannot be run, and why."""

    line: int
    why: str

    def __str__(self) -> str:
        return f"line {self.line}: {self.why}"


def unfit_lines(text: bytes) -> list[Unfit]:
    """Each line of an accepted script that asks for what the kernel has not got."""
    lines = lines_of(text)
    heading = heading_of(lines)
    entries, _ = read_lines(lines, Stage.WHOLE, heading)
    newer = [] if heading.version == 1 else [Unfit(heading.line, "version 2: the rig has room for the limits of version 1")]
    return newer + [Unfit(entry.line, why) for entry in entries for why in reasons(entry)]


def reasons(entry: Entry) -> Iterator[str]:
    """Why a line cannot be run: what the kernel has not got, and keywords that came to the language after this rig."""
    unknown = [word for word in entry.form.words if not is_place(word) and word not in KNOWN]
    if "sporadic" in unknown:
        yield "SCHED_SPORADIC: Linux has no sporadic servers"
    elif OF_THE_CLOCK & set(unknown):
        yield "CLOCK_REALTIME: it is this machine's own clock, which the rig leaves alone"
    elif unknown:
        yield f"{unknown[0]}: the rig does not know it"
    for place, number in entry.numbers():
        if place == "<priority>" and number > HIGHEST_PRIORITY:
            yield f"priority {number}: Linux has 1 to 99, and the runner keeps the highest"
    if any(signal >= SIGNALS for signal in single_signals(entry.form, entry.operands)):
        yield f"rt{SIGNALS}: glibc leaves a process the realtime signals rt0 to rt{SIGNALS - 1}"


def single_signals(form: Form, operands: tuple[str, ...]) -> Iterator[int]:
    """The signals that a line names; a set that has all of them names none in particular."""
    for place, word in zip(form.places, operands):
        if place == SIGNAL:
            yield number_of(word[2:])
        elif place == SIGNAL_SET and word not in ("all", "none"):
            bits = signals_of(word) or 0
            yield bits.bit_length() - 1
