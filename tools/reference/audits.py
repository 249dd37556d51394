"""The reference for `pse52 audit`: whether the sporadic servers that a head names kept their budgets in a trace.

    python3 tools/reference/audits.py < input

The input is a head of lines `server NAME PERIOD BUDGET MAX`, a line %% and a trace. Each line of the trace is judged by
itself and the lines before it, by six rules that count over those lines; nothing is replayed from line to line.

Exit status: 0 Done, 2 Refused, 3 TooLong, 8 NoTrace, 9 Breach.
"""
from __future__ import annotations

import re
import sys
from bisect import bisect_left, bisect_right
from dataclasses import dataclass

from forms import GREATEST_NUMBER
from reader import GREATEST_LIMIT, Fault, FaultKind
from trace_lines import BUDGET_LINE, TraceLine, read_line
from words import has_bad_byte, is_name, is_number, lines_of, number_of, words_of

GREATEST_INPUT = 67_108_864
GREATEST_SERVERS = 256
DONE, REFUSED, TOO_LONG, NO_TRACE, BREACH = 0, 2, 3, 8, 9
AFTER_START = frozenset(("dispatch", "activate", "exhaust", "plan", "refill", "exit"))


@dataclass(frozen=True)
class AuditedServer:
    """A server that the head names; period and budget are ticks."""

    name: str
    period: int
    budget: int
    limit: int


# The head


def line_fault(words: list[str]) -> FaultKind | None:
    """The least fault of a line with words by itself."""
    if words[0] != "server":
        return FaultKind.UnknownWord
    if len(words) != 5:
        return FaultKind.WordCount
    if not all(is_number(word) for word in words[2:]):
        return FaultKind.BadNumber
    return None if is_name(words[1]) else FaultKind.BadName


def range_fault(server: AuditedServer, is_too_many: bool) -> FaultKind | None:
    """The least fault of a server's numbers, and of there being too many servers."""
    if max(server.period, server.budget, server.limit) > GREATEST_NUMBER:
        return FaultKind.NumberRange
    if is_too_many:
        return FaultKind.TooMany
    fits = 1 <= server.budget <= server.period and 1 <= server.limit <= GREATEST_LIMIT
    return None if fits else FaultKind.ServerRange


def read_head(head: bytes) -> tuple[list[AuditedServer], Fault | None]:
    """The servers of a head, or its least fault by phase, line and kind."""
    servers: list[AuditedServer] = []
    later: list[Fault] = []
    for number, line in enumerate(lines_of(head), 1):
        if has_bad_byte(line):
            return [], Fault(1, number, FaultKind.BadByte)
        words = words_of(line)
        if not words:
            continue
        kind = line_fault(words)
        if kind is not None:
            return [], Fault(1, number, kind)
        server = AuditedServer(words[1], *(number_of(word) for word in words[2:]))
        if any(other.name == server.name for other in servers):
            later.append(Fault(2, number, FaultKind.DuplicateName))
        kind = range_fault(server, len(servers) >= GREATEST_SERVERS)
        if kind is not None:
            later.append(Fault(3, number, kind))
        servers.append(server)
    return servers, min(later, default=None)


# One server


@dataclass(frozen=True)
class Ticks:
    """The ticks below a time that the thread ran, and those of them at high priority."""

    ran: list[int]
    high: list[int]


class Account:
    """The lines so far that are about one server, and the judgement of one line more by what they count up to."""

    def __init__(self, server: AuditedServer) -> None:
        self.server = server
        self.given: list[TraceLine] = []
        self.own: list[TraceLine] = []
        self.closed = False
        self.end = 0
        self.known: dict[int, Ticks] = {}

    def take(self, line: TraceLine) -> None:
        """A line that was judged stands before the next one."""
        self.end = max(self.end, line.time)
        if line.form in ("dispatch", "idle"):
            self.given.append(line)
        if line.name == self.server.name and line.closes:
            self.closed = True
        elif line.name == self.server.name:
            self.own.append(line)

    def of(self, form: str) -> list[TraceLine]:
        """The server's lines of a form."""
        return [line for line in self.own if line.form == form]

    # What is counted

    def ticks_below(self, time: int) -> Ticks:
        """Counted over all lines once for each time, for no line that comes later has a time below it."""
        if time not in self.known:
            self.known[time] = self.count_ticks(time)
        return self.known[time]

    def count_ticks(self, time: int) -> Ticks:
        given, ran, high = [line.time for line in self.given], [], []
        plans, refills = [line.time for line in self.of("plan")], self.of("refill")
        refilled = [line.time for line in refills]
        for tick in range(time):
            last = bisect_right(given, tick)
            if last and self.given[last - 1].name == self.server.name:
                ran.append(tick)
                back = bisect_right(refilled, tick)
                capacity = self.server.budget + amounts(refills[:back]) - len(high)
                if capacity > 0 and bisect_right(plans, tick) - back < self.server.limit:
                    high.append(tick)
        return Ticks(ran, high)

    def high_before(self, time: int) -> int:
        return bisect_left(self.ticks_below(self.end).high, time)

    def capacity_at(self, time: int) -> int:
        """The budget and the refills so far, less the high ticks before a time."""
        return self.server.budget + amounts(self.of("refill")) - self.high_before(time)

    @property
    def pending(self) -> int:
        return len(self.of("plan")) - len(self.of("refill"))

    @property
    def lives(self) -> bool:
        return bool(self.of("start")) and not self.of("exit")

    # The rules

    def broken(self, line: TraceLine) -> int | None:
        """The least rule that a line breaks for this server."""
        self.end = max(self.end, line.time)
        own = line.name == self.server.name
        rules = [(1, own and self.breaks_life(line)), (2, own and line.form == "plan" and self.breaks_plan(line)),
                 (3, own and line.form == "refill" and self.breaks_refill(line) or self.misses_refill(line)),
                 (4, own and line.form == "activate" and self.breaks_activate(line)),
                 (5, own and line.form == "exhaust" and self.breaks_exhaust(line) or self.misses_plan(line)),
                 (6, own and line.closes and self.breaks_closing(line))]
        return min((rule for rule, breaks in rules if breaks), default=None)

    def breaks_life(self, line: TraceLine) -> bool:
        """A second start, or a line before the start or after the exit."""
        if line.form == "start":
            return bool(self.of("start"))
        return line.form in AFTER_START and not self.lives

    def breaks_plan(self, line: TraceLine) -> bool:
        """Another amount than the high ticks since the last activation, another due tick, a second plan, too many."""
        places = [place for place, one in enumerate(self.own) if one.form == "activate"]
        if not places:
            return True
        since = self.own[places[-1]].time
        used = self.high_before(line.time) - self.high_before(since)
        again = any(one.form == "plan" for one in self.own[places[-1]:])
        return (line.numbers != (used, since + self.server.period) or used < 1 or again
                or self.pending >= self.server.limit)

    def breaks_refill(self, line: TraceLine) -> bool:
        """No plan for it, another amount, another time than it was due, or another capacity."""
        if self.pending <= 0:
            return True
        plan = self.of("plan")[len(self.of("refill"))]
        amount, capacity = line.numbers
        return (amount != plan.numbers[0] or line.time != comes_at(plan)
                or capacity != self.capacity_at(line.time) + amount or capacity > self.server.budget)

    def misses_refill(self, line: TraceLine) -> bool:
        """A line of a later time than a refill that has not come, while the thread has not exited."""
        waiting = self.of("plan")[len(self.of("refill")):]
        return not line.closes and not self.of("exit") and any(comes_at(plan) < line.time for plan in waiting)

    def breaks_activate(self, line: TraceLine) -> bool:
        """Another capacity, none left, too many pending, or ticks that were used and not planned."""
        capacity, = line.numbers
        return (capacity != self.capacity_at(line.time) or capacity <= 0 or self.pending >= self.server.limit
                or amounts(self.of("plan")) != self.high_before(line.time))

    def breaks_exhaust(self, line: TraceLine) -> bool:
        """Capacity is left, or no high tick ended here."""
        return self.capacity_at(line.time) != 0 or line.time - 1 not in self.ticks_below(self.end).high

    def misses_plan(self, line: TraceLine) -> bool:
        """A line of a later time than a high tick's end that used all up, and at which no plan and no exit stands."""
        if line.closes:
            return False
        ends = [tick + 1 for tick in self.ticks_below(self.end).high if tick + 1 < line.time]
        return any(self.is_used_up(time) and not self.is_settled(time) for time in ends)

    def is_used_up(self, time: int) -> bool:
        refills = [line for line in self.of("refill") if line.time < time]
        return self.server.budget + amounts(refills) - self.high_before(time) == 0

    def is_settled(self, time: int) -> bool:
        return any(line.time == time and line.form in ("plan", "exit") for line in self.own)

    def breaks_closing(self, line: TraceLine) -> bool:
        """A second closing line, other ticks than it ran, or another budget part than it has."""
        ticks, refilled = self.ticks_below(self.end), amounts(self.of("refill"))
        budget = (len(ticks.high), self.server.budget, refilled, self.capacity_at(self.end))
        numbers = (len(ticks.ran), *(budget if self.lives else ()))
        return self.closed or (line.form == BUDGET_LINE) != self.lives or line.numbers != numbers


def amounts(lines: list[TraceLine]) -> int:
    return sum(line.numbers[0] for line in lines)


def comes_at(plan: TraceLine) -> int:
    """When a planned amount is refilled: at its due tick, or at the plan's time where that is later."""
    return max(plan.numbers[1], plan.time)


# The trace


@dataclass
class Order:
    """What the lines so far say of the order of the next one."""

    last: int = 0
    ended: bool = False

    def broken_by(self, line: TraceLine) -> bool:
        """A time that falls, a line behind the end that closes nothing, or a closing line before the end."""
        return not self.ended if line.closes else self.ended or line.time < self.last

    def take(self, line: TraceLine) -> None:
        self.last = max(self.last, line.time)
        self.ended = self.ended or line.form == "end"


def first_breach(servers: list[AuditedServer], trace: bytes) -> tuple[int, int] | None:
    """The first line that breaks a rule for any server, and the least rule that it breaks; the first line is 1."""
    accounts, order, count = [Account(server) for server in servers], Order(), 0
    for count, text in enumerate(lines_of(trace), 1):
        line = read_line(text)
        if line is None or order.broken_by(line):
            return count, 1
        rule = min(filter(None, (account.broken(line) for account in accounts)), default=None)
        if rule is not None:
            return count, rule
        for taker in (order, *accounts):
            taker.take(line)
    if not order.ended:
        return count + 1, 1
    return None if all(account.closed for account in accounts) else (count + 1, 6)


def audit(text: bytes) -> tuple[int, bytes]:
    """The status and the text of an audit."""
    if len(text) > GREATEST_INPUT:
        return TOO_LONG, b"too long\n"
    divider = re.search(rb"(?m)^%%(?:\n|\Z)", text)
    if divider is None:
        return NO_TRACE, b"no trace\n"
    servers, fault = read_head(text[:divider.start()])
    if fault is not None:
        return REFUSED, f"refused {fault.line} {fault.kind.value} {fault.kind.name}\n".encode()
    breach = first_breach(servers, text[divider.end():])
    if breach is not None:
        return BREACH, b"breach %d %d\n" % breach
    return DONE, b"budgets hold\n"


def main() -> int:
    status, text = audit(sys.stdin.buffer.read(GREATEST_INPUT + 1))
    sys.stdout.buffer.write(text)
    return status


if __name__ == "__main__":
    sys.exit(main())
