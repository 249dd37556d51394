"""What the runner saw of a run (runner/log.c says its lines)."""
from __future__ import annotations

from dataclasses import dataclass, field

#: an event stands so far before and behind a grid point, in parts of a tick, where nothing held it up
EARLIEST, LATEST = -0.11, 0.32


class NotALog(Exception):
    """The text is not what the runner prints."""


@dataclass(frozen=True)
class Seen:
    """An event of a thread: the tick in which it was seen, its distance from the grid point, and its words without the thread."""

    tick: int
    phase: float
    thread: int
    words: str

    @property
    def is_call(self) -> bool:
        """Whether it says that a call begins, which no trace tells."""
        return self.words.startswith("called ")


@dataclass(frozen=True)
class Noise:
    """What the machine did to the run: ticks with two owners, gaps that no thread of the script made, late wakes."""

    clashes: int
    gaps: int
    late: int
    latest: float


@dataclass
class Log:
    """All that was seen of a run."""

    events: list[Seen] = field(default_factory=list)
    owners: list[int] = field(default_factory=list)  #: of each tick the thread that ran it, or -1
    priorities: list[int] = field(default_factory=list)
    ticks: list[int] = field(default_factory=list)
    processor: list[float] = field(default_factory=list)  #: of each thread, by its clock, in ticks
    killed: tuple[int, str] | None = None
    trouble: str | None = None  #: how the run ended, where it came neither to its horizon nor to the end of its process
    died: int | None = None  #: the tick at which the process was ended by a signal that no script sends, as an abort
    noise: Noise = Noise(0, 0, 0, 0.0)

    @property
    def is_noisy(self) -> bool:
        """Whether something else on the machine has disturbed the run."""
        held_up = any(not EARLIEST < event.phase < LATEST for event in self.events)
        return bool(self.noise.clashes or self.noise.gaps or self.noise.late or held_up)

    def of(self, thread: int) -> list[Seen]:
        """The events of a thread that a trace tells, in their order."""
        return [event for event in self.events if event.thread == thread and not event.is_call]


def read_log(text: str) -> Log:
    log = Log()
    for line in text.splitlines():
        try:
            _read_line(log, line)
        except (ValueError, IndexError) as error:
            raise NotALog(line) from error
    if len(log.owners) != len(log.priorities):
        raise NotALog("owners and priorities of different lengths")
    return log


def _read_line(log: Log, line: str) -> None:
    words = line.split()
    match words[0]:
        case "owners":
            log.owners = [int(word) for word in words[1:]]
        case "priorities":
            log.priorities = [int(word) for word in words[1:]]
        case "ticks":
            log.ticks.append(int(words[2]))
            log.processor.append(float(words[3]))
        case "noise":
            log.noise = Noise(int(words[2]), int(words[4]), int(words[6]), float(words[8]))
        case "died":
            log.trouble = "died of signal " + words[3]
            log.died = int(words[5])
        case "timeout":
            log.trouble = "did not end in time"
        case _ if words[3] == "killed":
            log.killed = (int(words[0]), words[4])
        case _:
            log.events.append(Seen(int(words[0]), float(words[1]), int(words[2]), " ".join(words[3:])))
