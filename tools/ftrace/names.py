"""The map: which thread of a kernel's log has which name in the trace, which are sporadic servers, and how long a tick is."""
from __future__ import annotations

import re
from dataclasses import dataclass, field
from decimal import Decimal

NAME = re.compile(r"[a-z][a-z0-9_]{0,31}")
OTHER = "other"
GREATEST = 10**18
LINES = ("tick MICROSECONDS", "origin SECONDS", "cpu NUMBER", "thread NAME PID", "server NAME PID PERIOD BUDGET MAX")
# What a trace calls the processor that nobody of the map has; no thread can be called so.
TAKEN = (OTHER, "idle")


class WrongMap(Exception):
    """A line of a map that says nothing."""


@dataclass(frozen=True)
class Server:
    """The parameters of a thread under SCHED_SPORADIC, in ticks."""

    period: int
    budget: int
    limit: int


@dataclass
class NameMap:
    """Names by the pid or the command name of a log. A tick and the origin are in nanoseconds."""

    tick: int
    origin: int | None = None
    cpu: int | None = None
    names: dict[str, str] = field(default_factory=dict)
    servers: dict[str, Server] = field(default_factory=dict)

    def name_of(self, comm: str, pid: str) -> str | None:
        return self.names.get(pid, self.names.get(comm))

    def ticks(self, nanoseconds: int) -> int:
        """The instant, in ticks since the origin, that is nearest to a time of the log."""
        return (2 * (nanoseconds - (self.origin or 0)) + self.tick) // (2 * self.tick)


def nanoseconds(seconds: str) -> int:
    return int(Decimal(seconds) * 10**9)


def read_map(text: str) -> NameMap:
    """The map of its lines; # begins a comment."""
    found = NameMap(tick=0)
    for number, line in enumerate(text.splitlines(), 1):
        words = line.split("#")[0].split()
        try:
            if words:
                take(found, words)
        except (ValueError, ArithmeticError):
            due = next(each for each in LINES if each.split()[0] == words[0])
            raise WrongMap(f"line {number} of the map, '{line.strip()}': no number stands where one should; it is {due}") from None
        except WrongMap as wrong:
            raise WrongMap(f"line {number} of the map, '{line.strip()}': {wrong}") from None
    if found.tick <= 0:
        raise WrongMap("the map has no line `tick MICROSECONDS`")
    return found


def take(found: NameMap, words: list[str]) -> None:
    match words:
        case ["tick", length]:
            found.tick = int(Decimal(length) * 1000)
            wants(found.tick > 0, "a tick has at least a nanosecond")
        case ["origin", seconds]:
            found.origin = nanoseconds(seconds)
        case ["cpu", number]:
            found.cpu = int(number)
        case ["thread", name, of]:
            add(found, name, of)
        case ["server", name, of, period, budget, limit]:
            add(found, name, of)
            server = found.servers[name] = Server(int(period), int(budget), int(limit))
            wants(1 <= server.budget <= server.period <= GREATEST and 1 <= server.limit <= 16,
                  "the budget is from 1 to the period, the period at most 10^18, and MAX from 1 to 16")
        case _:
            raise WrongMap(f"a line is one of {', '.join(LINES)}")


def add(found: NameMap, name: str, of: str) -> None:
    wants(NAME.fullmatch(name) is not None, "a name is a small letter, and then small letters, digits and _, at most 32")
    wants(name not in TAKEN, "a trace calls what the map does not name so")
    wants(name not in found.names.values(), "a line above has this name")
    wants(of not in found.names, f"a line above has the thread {of}")
    found.names[of] = name


def wants(holds: bool, what: str) -> None:
    if not holds:
        raise WrongMap(what)
