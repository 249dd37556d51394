"""One script on this machine's kernel: it is run until the runs tell enough, and each difference gets its known names."""
from __future__ import annotations

import math
import time
from collections.abc import Iterable
from dataclasses import dataclass, field

from forms import ObjectKind
from reader import read
from script import Script

from .compare import Comparison, compare
from .due import Due, Refused, Side, read_due
from .flatten import flatten
from .log import Log, read_log
from .runner import LONGEST_SECONDS, Place, last_core, run_flat
from .settings import realtime
from .unfit import Unfit, unfit_lines
from .watched import watched

TICK = 5.0  #: milliseconds
LEAST_RR_TICK = 8.0  #: a round robin tick is a multiple of the kernel's own tick, and at least this
MOST_ATTEMPTS = 10
PAUSE = 0.3  #: seconds, times the attempt: the noise of a busy machine comes in bursts
#: the runner keeps so many ticks of a run
MOST_TICKS = 4096
_CLOCK_MONOTONIC_COARSE = 6


class CannotRun(Exception):
    """Lines of the script that the kernel has nothing for."""

    def __init__(self, lines: list[Unfit]) -> None:
        super().__init__("; ".join(map(str, lines)))
        self.lines = lines


class TooLong(Exception):
    """The horizon is too far for a run in real time."""


@dataclass(frozen=True)
class Options:
    """How a script is run."""

    core: int = field(default_factory=last_core)
    tick: float | None = None  #: milliseconds, or what the script needs
    times: int = 2  #: runs that must tell the same
    handlers_in_waits: bool = False


@dataclass
class Run:
    """One run that tells: its log as text and read, and what it shows beside the due trace."""

    text: str
    log: Log
    found: Comparison

    @property
    def tells(self) -> bool:
        """Whether the machine left the run alone; one that agrees in spite of noise tells too."""
        return self.found.agrees or not self.log.is_noisy

    @property
    def told(self) -> tuple[list[int], list[str]]:
        """What two runs that tell the same have in common."""
        return self.log.owners, [difference.text for difference in self.found.differences]


@dataclass
class Result:
    """A script, the trace that is due, and its runs. `noted` are the known differences that may show, and from which tick on."""

    due: Due
    horizon: int
    place: Place
    noted: dict[str, int]
    runs: list[Run] = field(default_factory=list)
    attempts: int = 0
    gave_up: str | None = None  #: why the runs tell nothing

    @property
    def last(self) -> Run:
        return self.runs[-1]

    @property
    def agrees(self) -> bool:
        return self.gave_up is None and self.last.found.agrees

    @property
    def names(self) -> list[str]:
        """The known differences that may have made the first one that shows, the latest first."""
        first = self.last.found.first
        known = [] if first is None else [name for name, tick in self.noted.items() if tick <= first]
        return sorted(known, key=lambda name: -self.noted[name])

    @property
    def is_explained(self) -> bool:
        return self.agrees or self.gave_up is None and bool(self.names)


def script_of(text: bytes) -> Script:
    """The script of a text, where this kernel has what it asks for."""
    script, fault = read(text)
    if script is None:
        raise Refused(f"refused {fault.line} {fault.kind.value} {fault.kind.name}")
    lines = unfit_lines(text)
    if lines:
        raise CannotRun(lines)
    return script


def kernel_tick() -> float:
    """The length of the kernel's own tick in milliseconds."""
    return time.clock_getres(_CLOCK_MONOTONIC_COARSE) * 1000


def uses_round_robin(text: bytes) -> bool:
    return any(b"rr" in line.split(b"#")[0].split() for line in text.splitlines())


def tick_for(text: bytes) -> float:
    if not uses_round_robin(text):
        return TICK
    return math.ceil(LEAST_RR_TICK / kernel_tick()) * kernel_tick()


def result_of(text: bytes, horizon: int, side: Side, options: Options = Options()) -> Result:
    """Everything but the runs."""
    script = script_of(text)
    tick = options.tick or tick_for(text)
    if horizon > MOST_TICKS or horizon * tick > LONGEST_SECONDS * 1000:
        most = min(MOST_TICKS, int(LONGEST_SECONDS * 1000 / tick))
        raise TooLong(f"a run to {horizon} is too long: with ticks of {tick:g} ms at most {most} are run")
    names = [named.name for named in script.objects(ObjectKind.THREAD)]
    due = read_due(side.trace(text, horizon), names)
    noted = watched(script, horizon, options.handlers_in_waits).noted
    return Result(due, horizon, Place(options.core, tick), noted)


def run_script(text: bytes, horizon: int, side: Side, options: Options = Options()) -> Result:
    """Runs a script until `times` runs told the same, or too many did not."""
    result = result_of(text, horizon, side, options)
    script = script_of(text)
    numbers = flatten(script)
    timeslice = None
    if uses_round_robin(text):
        timeslice = int(min(script.quantum, horizon + 1) * result.place.tick)
    depth = max((queue.kind.depth for queue in script.objects(ObjectKind.QUEUE)), default=0)
    with realtime(timeslice, depth):
        for attempt in range(MOST_ATTEMPTS):
            time.sleep(PAUSE * attempt if attempt >= options.times else 0)
            log_text = run_flat(numbers, horizon, result.place, options.handlers_in_waits)
            log = read_log(log_text)
            run = Run(log_text, log, compare(result.due, log))
            result.attempts += 1
            if run.tells:
                result.runs.append(run)
            if same(result.runs[-options.times:], options.times):
                return result
    result.gave_up = "every run was disturbed" if not result.runs else "no two runs in a row told the same"
    if not result.runs:
        result.runs.append(run)
    return result


def same(runs: Iterable[Run], times: int) -> bool:
    """Whether these are so many runs that tell the same."""
    told = [run.told for run in runs]
    return len(told) == times and all(each == told[0] for each in told)
