"""Holds `audit` of the reference, and of a built program, against traces of generated scripts, right ones and changed ones.

    python3 tools/reference/compare_audits.py [PROGRAM] [--stage STAGE] [--first N] [--count N]

Each seed gives two inputs. The first is the trace of a script without a setsched, behind a head of its sporadic servers:
there budgets hold. The second is the same with one line changed, taken out, doubled, swapped with the next or cut off, or
with a head that is changed, or the trace of a script with setsched. PROGRAM is a command line that takes `audit` and the
input on standard input; its bytes and its exit status are to be the reference's. Prints each difference, how often each
verdict came, and a last line 'N compared, M differ'. Exit status 1 where something differs.
"""
from __future__ import annotations

import argparse
import random
import re
import shlex
import subprocess
import sys
from collections import Counter

import generate
from audits import BREACH, DONE, audit
from forms import ObjectKind, Stage
from reader import read
from script import Script, Sporadic, Strict
from simulate import answer

SECONDS = 120
JUDGED = (b"start", b"dispatch", b"activate", b"exhaust", b"plan", b"refill", b"exit")
STRANGE_HEADS = (
    b"server a 10 3 4\nserver a 10 3 4\n", b"server a 2 3 4\n", b"server a 10 0 4\n", b"server a 10 3 17\n", b"server a 10 3 0\n",
    b"server a 10 3\n", b"serve a 10 3 4\n", b"server 1a x 3 4\n", b"server 1a 10 3 4\n", b"server a\x01 10 3 4\n", b"",
    b"server a 1000000000000000001 3 4\n", b"  # none\n\n", b"server a 10 3 4 # a comment\x07\n", b"%% \nserver nobody 10 3 4\n",
    b"".join(b"server s%d 10 3 4\n" % k for k in range(257)), b"server nobody 10 3 4")


def script_of(rng: random.Random, seed: int, stage: Stage, rescheduled: bool) -> tuple[Script, bytes, int]:
    """A generated script with a sporadic thread, with or without a setsched; one that has none becomes one without."""
    while True:
        text, horizon = generate.accepted(seed, stage)
        if not rescheduled:
            text = re.sub(rb"setsched[^\n#]*", b"yield", text)
        script, _ = read(text, stage)
        if script is not None and servers_of(script):
            return script, text, horizon
        seed = rng.randrange(10**9)


def servers_of(script: Script) -> dict[str, Sporadic]:
    return {named.name: named.kind.policy for named in script.objects(ObjectKind.THREAD)
            if isinstance(named.kind.policy, Sporadic) and not isinstance(named.kind.policy, Strict)}


def head_of(servers: dict[str, Sporadic]) -> bytes:
    return b"".join(b"server %s %d %d %d\n" % (name.encode(), server.period, server.budget, server.limit)
                    for name, server in servers.items())


def changed_line(line: bytes, names: list[bytes], rng: random.Random) -> bytes:
    """A line with a number, a name or its word another one, or another line."""
    words = line.split(b" ")
    at = rng.randrange(len(words))
    if words[at].isdigit() and rng.random() < 0.8:
        words[at] = b"%d" % max(0, int(words[at]) + rng.choice((-2, -1, 1, 2, 10)))
    elif words[at] in names:
        words[at] = rng.choice(names)
    else:
        words[at] = rng.choice((b"exhaust", b"idle", b"exit", b"start", b"plan", b"01", b"x"))
    return b" ".join(words)


def is_judged(words: list[bytes], servers: list[bytes]) -> bool:
    """Whether a line is about a server's schedule, or closes its thread."""
    return words[1] in JUDGED and words[2] in servers or words[0] == b"thread" and words[1] in servers


def changed(trace: bytes, servers: list[bytes], rng: random.Random) -> bytes:
    """A trace that is changed in one line, mostly in one about a server."""
    lines = trace.split(b"\n")[:-1]
    near = [place for place, line in enumerate(lines) if is_judged(line.split(b" "), servers)]
    place = rng.choice(near) if near and rng.random() < 0.9 else rng.randrange(len(lines))
    line, after = lines[place], lines[place + 1:]
    match rng.randrange(7):
        case 0 | 1:
            lines[place] = changed_line(line, servers, rng)
        case 2:
            lines[place:] = after
        case 3:
            lines[place:] = [line, line, *after]
        case 4:
            lines[place:] = [*after[:1], line, *after[1:]]
        case 5:
            words = line.split(b" ")
            lines[place:] = [b" ".join([b"%d" % (int(words[0]) + 1), *words[1:]]), *after] if words[0].isdigit() else after
        case _:
            return trace[:rng.randrange(len(trace) + 1)]
    return b"\n".join(lines) + rng.choice((b"\n", b"\n", b"\n", b""))


def inputs_of(seed: int, stage: Stage) -> tuple[bytes, bytes]:
    """An input in which budgets hold, and one of which only the reference says what it is."""
    rng = random.Random(seed)
    script, text, horizon = script_of(rng, seed, stage, False)
    servers = servers_of(script)
    trace = answer(text, horizon, stage)[1]
    right = head_of(servers) + b"%%\n" + trace
    names = [name.encode() for name in servers]
    chance = rng.random()
    if chance < 0.85:
        return right, head_of(servers) + b"%%\n" + changed(trace, names, rng)
    if chance < 0.93:
        script, text, horizon = script_of(rng, seed + 1, stage, True)
        return right, head_of(servers_of(script)) + b"%%\n" + answer(text, horizon, stage)[1]
    other = rng.choice((rng.choice(STRANGE_HEADS), re.sub(rb"\d+\n", b"1\n", head_of(servers)), head_of(servers) * 2))
    return right, other + rng.choice((b"%%\n", b"%%\n", b"%%\n", b"%% \n")) + trace


def verdict(status: int, text: bytes) -> str:
    """The verdict without the line that it names."""
    return re.sub(r"breach \d+ ", "breach of rule ", text.decode()).strip() if status in (DONE, BREACH) else text.decode().split()[0]


def program_differs(program: list[str], text: bytes, want: tuple[int, bytes]) -> str | None:
    done = subprocess.run([*program, "audit"], input=text, capture_output=True, timeout=SECONDS)
    return None if (done.returncode, done.stdout) == want else f"have {done.returncode} {done.stdout!r} want {want}"


def main() -> int:
    parser = argparse.ArgumentParser(description="Compares `audit` with the reference.")
    parser.add_argument("program", nargs="?")
    parser.add_argument("--stage", default="whole")
    parser.add_argument("--first", type=int, default=0)
    parser.add_argument("--count", type=int, default=500)
    args = parser.parse_args()
    stage, differ, verdicts = Stage.named(args.stage), 0, Counter()
    for seed in range(args.first, args.first + args.count):
        for text, is_right in zip(inputs_of(seed, stage), (True, False)):
            want = audit(text)
            verdicts[verdict(*want)] += not is_right
            found = None if not is_right or want[0] == DONE else f"a right trace gets {want}"
            if found is None and args.program:
                found = program_differs(shlex.split(args.program), text, want)
            if found is not None:
                differ += 1
                print(f"seed {seed} {'right' if is_right else 'changed'}: {found}")
    print(*[f"{count} times {said}" for said, count in sorted(verdicts.items())], sep="\n")
    print(f"{2 * args.count} compared, {differ} differ")
    return 1 if differ else 0


if __name__ == "__main__":
    sys.exit(main())
