"""What `pse52 audit` found, in words: the line, the server and the rule.

    python3 tools/explain/breach.py LINE RULE INPUT      (INPUT has the head, the line %% and the trace)
"""
from __future__ import annotations

import re
import sys
from pathlib import Path

sys.path.insert(0, str(Path(__file__).resolve().parent.parent))

import explain  # noqa: E402, F401  which leads to the reference
from audits import Account, AuditedServer, Order, read_head  # noqa: E402
from trace_lines import TraceLine, read_line  # noqa: E402
from words import lines_of  # noqa: E402

# As docs/AUDIT.md has them.
RULES = {
    1: "Each line is a line of a trace, with no number above 3 * 10^18, and times do not fall. There is one `end`, with the closing "
       "lines and nothing else behind it. A server's thread starts at most once; its `dispatch`, `activate`, `exhaust`, `plan`, "
       "`refill` and `exit` come after its `start`, and none of them after its `exit`.",
    2: "A `plan` has as its amount the ticks at high priority since the last `activate`, at least one, and is due one period after that "
       "`activate`. It is the first plan since then, and finds fewer than MAX pending.",
    3: "A `refill` answers the oldest plan without one: its amount, the later of its due tick and its own time, and the capacity that "
       "follows, which is at most the budget. While the thread lives no later line comes before it.",
    4: "An `activate` tells the capacity, which is not 0. Fewer than MAX pend, and all ticks used before it are planned.",
    5: "An `exhaust` stands where a tick at high priority used the last of the capacity. Where one did, a `plan` or the `exit` of the "
       "thread stands at that instant, before any later line.",
    6: "Each server's thread has one closing line, with its ticks, and with the numbers of its server exactly where it started and did "
       "not exit.",
}
# Of more the server is not looked for where another one's line tells, since ticks are counted one by one.
MOST_LINES, MOST_TICKS = 5_000, 20_000
SHOWN = 100


def told(text: bytes, number: int, rule: int) -> str:
    """Of the input of an audit: which line of the trace breaks which rule, for which server, and what that rule is."""
    divider = re.search(rb"(?m)^%%(?:\n|\Z)", text)
    lines = lines_of(text[divider.end():])
    names = _servers(read_head(text[:divider.start()])[0], lines, number, rule)
    whose = f" for the server{'s' * (len(names) > 1)} {' and '.join(map(repr, names))}" if names else ""
    if number > len(lines):
        broken = f"behind its last line, {len(lines)}, the trace breaks rule {rule}{whose}"
    else:
        line = "".join(chr(byte) if 32 <= byte <= 126 else "?" for byte in lines[number - 1][:SHOWN])
        broken = f"line {number} of the trace breaks rule {rule}{whose}: {line}"
    return f"pse52: {broken}\npse52: rule {rule} of docs/AUDIT.md: {RULES[rule]}\n"


def _servers(servers: list[AuditedServer], lines: list[bytes], number: int, rule: int) -> list[str]:
    """The servers for which a line, or their end, breaks a rule; none where the line breaks it by itself."""
    if number > len(lines):
        closed = {line.split()[1] for line in lines if line.startswith(b"thread ")}
        return [server.name for server in servers if rule == 6 and server.name.encode() not in closed]
    line = read_line(lines[number - 1])
    if line is None or rule == 1 and _is_out_of_order(lines[:number - 1], line):
        return []
    missed = _missed([Account(server) for server in servers], lines[:number - 1], line, rule)
    return missed or [server.name for server in servers if server.name == line.name or rule in (3, 5) and len(servers) == 1]


def _is_out_of_order(before: list[bytes], line: TraceLine) -> bool:
    order, last = Order(), read_line(before[-1]) if before else None
    if last is not None:
        order.ended = last.closes
        order.take(last)
    return order.broken_by(line)


def _missed(accounts: list[Account], before: list[bytes], line: TraceLine, rule: int) -> list[str]:
    """The servers for which a line of any thread comes too late, since a refill was due before it, or a plan."""
    if rule == 3:
        before = [one for one in before if re.search(rb" (plan|refill|exit) ", one)]
    elif rule != 5 or len(before) > MOST_LINES or line.time * len(accounts) > MOST_TICKS:
        return []
    for one in filter(None, map(read_line, before)):
        for account in accounts:
            account.take(one)
    for account in accounts:
        account.end = max(account.end, line.time)
    misses = Account.misses_refill if rule == 3 else Account.misses_plan
    return [account.server.name for account in accounts if misses(account, line)]


def main(words: list[str]) -> int:
    sys.stdout.write(told(Path(words[2]).read_bytes(), int(words[0]), int(words[1])))
    return 0


if __name__ == "__main__":
    sys.exit(main(sys.argv[1:]))
