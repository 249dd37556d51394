"""Holds `check N` of a built program against the reference, over generated scripts with traces that are right or were changed.

    python3 tools/reference/compare_checks.py PROGRAM [--stage STAGE] [--first N] [--count N]

PROGRAM is a command line that takes `check N` and a script, a line %% and a trace on standard input. What is due is the
reference's trace; where two traces differ is found here once more. Prints each difference and a last line 'N compared,
M differ'. Exit status 1 where something differs.
"""
from __future__ import annotations

import argparse
import os
import random
import re
import shlex
import subprocess
import sys

import generate
from forms import Stage
from simulate import GREATEST_TEXT, Status, answer

SECONDS = 120
DIFFERS, NO_TRACE = 7, 8
GREATEST = 3 * 10 ** 18
NAME = r"([a-z][a-z0-9_]{0,31})"
NUMBER = r"(0|[1-9][0-9]*)"
SIGNAL = r"rt(?:[0-9]|[12][0-9]|3[01])"
RESULT = r"(?:0|EAGAIN|EBUSY|EDEADLK|EINTR|EINVAL|EMSGSIZE|EOVERFLOW|EPERM|ESRCH|ETIMEDOUT)"
CALLS = (
    "yield create join cancel testcancel setcancel push pop exit setprio setsched lock timedlock trylock unlock wait timedwait signal"
    " broadcast sem_wait sem_timedwait sem_trywait sem_getvalue sem_post nanosleep clock_nanosleep gettime clock_settime real_gettime"
    " timer_settime timer_gettime timer_getoverrun kill tkill sigqueue sigmask sigwaitinfo sigtimedwait"
    " mq_send mq_timedsend mq_receive mq_timedreceive mq_notify").split()
FORMS = {
    "dispatch": f"{NAME} {NUMBER}", "idle": "", "start": NAME, "exhaust": NAME, "cancel": NAME, "exit": NAME, "end": "",
    "return": f"{NAME} (?:{'|'.join(CALLS)}) {RESULT} {NUMBER}", "deliver": f"{NAME} {SIGNAL} (?:USER|QUEUE|TIMER|MESGQ) {NUMBER}",
    "activate": f"{NAME} {NUMBER}", "plan": f"{NAME} {NUMBER} {NUMBER}", "refill": f"{NAME} {NUMBER} {NUMBER}", "killed": SIGNAL}
CLOSING = f"thread {NAME} ticks {NUMBER}(?: high {NUMBER} init {NUMBER} refilled {NUMBER} capacity {NUMBER})?"


def word_of(line: bytes) -> str:
    """The word of the form of a trace's line, or `text`."""
    shapes = [("thread", CLOSING), *((word, f"{NUMBER} {word}{' ' + rest if rest else ''}") for word, rest in FORMS.items())]
    text = line.decode("latin-1")
    for word, shape in shapes:
        match = re.fullmatch(shape, text)
        if match and all(int(n) <= GREATEST for n in match.groups() if n and n.isdigit()):
            return word
    return "text"


def line_at(text: bytes, number: int) -> bytes | None:
    lines = text.split(b"\n")
    lines = lines if lines[-1] else lines[:-1]
    return lines[number - 1] if number <= len(lines) else None


def compared(have: bytes, want: bytes) -> tuple[int, bytes]:
    """The status and the text of two traces."""
    if have == want:
        return Status.DONE, b"same\n"
    number = 1 + os.path.commonprefix([have, want]).count(b"\n")
    due, there = line_at(want, number), line_at(have, number)
    word = "nothing" if there is None else word_of(there)
    return DIFFERS, b"differs %d\nwant %s\nhave %s\n" % (number, b"nothing" if due is None else due, word.encode())


def checked(text: bytes, horizon: int, stage: Stage) -> tuple[int, bytes]:
    """The status and the text of `check N`."""
    match = re.search(rb"(?:^|\n)%%(?:\n|$)", text)
    if match is None:
        return NO_TRACE, b"no trace\n"
    head = text[: match.start() + match[0].startswith(b"\n")]
    if len(head) > GREATEST_TEXT:
        return Status.TOO_LONG, b"too long\n"
    status, want = answer(head, horizon, stage)
    return (status, want) if status != Status.DONE else compared(text[match.end():], want)


def changed(trace: bytes, rng: random.Random) -> bytes:
    """A trace with a line or a byte changed, taken out or put in, or cut off."""
    lines, at = trace.split(b"\n"), rng.randrange(len(trace))
    place = rng.randrange(len(lines))
    other = rng.choice([b"", b"%%", b" %%", b"0 idle", b"7 start a", b"x" * 300, b"4 return a yield 0 0", b"3000000000000000001 idle", b"\xff"])
    return rng.choice([
        trace, trace[:-1], trace[:at], trace + b"\n", trace + other, trace[:at] + trace[at + 1:], trace[:at] + b"1" + trace[at:],
        b"\n".join(lines[:place] + lines[place + 1:]), b"\n".join(lines[:place] + [other] + lines[place:]),
        b"\n".join(lines[:place] + [other] + lines[place + 1:])])


def generated(seed: int, stage: Stage) -> tuple[bytes, int]:
    """A script, a line that mostly is %%, and a trace; and a horizon."""
    rng = random.Random(seed)
    refused = rng.random() < 0.1
    script, horizon = (generate.refused(seed, stage), 1) if refused else generate.accepted(seed, stage)
    due = answer(script, horizon, stage)[1]
    divider = rng.choice([b"%%\n"] * 12 + [b"%% \n", b"\n%%\n", b"\n%%"])
    return script + divider + changed(due, rng), horizon


def main() -> int:
    parser = argparse.ArgumentParser(description="Compares `check N` with the reference.")
    parser.add_argument("program")
    parser.add_argument("--stage", default="whole")
    parser.add_argument("--first", type=int, default=0)
    parser.add_argument("--count", type=int, default=500)
    args = parser.parse_args()
    program, stage, differ = shlex.split(args.program), Stage.named(args.stage), 0
    for seed in range(args.first, args.first + args.count):
        text, horizon = generated(seed, stage)
        want = checked(text, horizon, stage)
        done = subprocess.run([*program, "check", str(horizon)], input=text, capture_output=True, timeout=SECONDS)
        if (done.returncode, done.stdout) != want:
            differ += 1
            print(f"seed {seed} horizon {horizon}: have {done.returncode} {done.stdout!r} want {want}")
    print(f"{args.count} compared, {differ} differ")
    return 1 if differ else 0


if __name__ == "__main__":
    sys.exit(main())
