"""Runs the worked examples and generated scripts against the reference.

    python3 tools/reference/selftest.py [--generated N]

Each example NAME of tests/worked has NAME.task and one of: NAME.trace, the
whole text of its run; NAME.has, lines that its run has; NAME.refused, the line
of its fault; NAME.show and NAME.detail, the whole text of that command;
NAME.canonical, its canonical text; NAME.upgrade, that of the script of version 2. NAME.horizon is the number of the command.
Examples whose horizon is too far for a machine that ticks are passed over. Where
the horizon is at most 10,000 each state of the run is checked too.
Each row of tests/refused/FAULTS.txt is a text that is refused, with the line and kind of its least fault. As many declarations
as docs/SCRIPT.md allows are taken, and one more is refused.
Each example of AUDITS.txt is an input of `audit`, NAME.audit, and its answer, NAME.verdict.
The facts of some generated scripts are held against their traces (check_facts.py). Generated scripts of the stage `clock` from
which the settings are taken out run as they do without the words of that stage.
With --generated, N generated scripts of each stage run with all checks on, and
their canonical texts are read again. Exit status 1 where something differs.
"""
from __future__ import annotations

import argparse
import pathlib
import re
import sys

import answers
import check_facts
import generate
from audits import audit
from forms import Stage
from reader import Fault, FaultKind, read
from script import canonical_text
from simulate import Status, answer, command_of, staged

TESTS = pathlib.Path(__file__).resolve().parents[2] / "tests"
WORKED = TESTS / "worked"
REFUSED = TESTS / "refused" / "FAULTS.txt"
FARTHEST = 1_000_000
CHECKED = 10_000
FACTS_OF = 40
UNSET_OF = 20


def examples() -> list[tuple[str, Stage]]:
    """The examples of the index with their stages."""
    lines = (WORKED / "INDEX.txt").read_text().splitlines()
    words = [line.split() for line in lines if not line.startswith("#")]
    return [(name, Stage.named(stage)) for name, stage, *_ in words]


def difference(name: str, stage: Stage) -> str | None:
    """What the reference gives where that is not the expected text; None where it agrees or is passed over."""
    path = WORKED / name
    text = path.with_suffix(".task").read_bytes()
    if path.with_suffix(".canonical").exists():
        script, fault = read(text, stage)
        have = f"{fault}" if script is None else canonical_text(script)
        return None if have == path.with_suffix(".canonical").read_text() else have
    if path.with_suffix(".upgrade").exists():
        have = answer(text, 0, stage, command="upgrade")[1].decode()
        return None if have == path.with_suffix(".upgrade").read_text() else have
    horizon = int(path.with_suffix(".horizon").read_text())
    if horizon > FARTHEST:
        return None
    command = next((word for word in ("show", "detail") if path.with_suffix(f".{word}").exists()), "run")
    status, have_bytes = answer(text, horizon, stage, horizon <= CHECKED, command)
    if path.with_suffix(".has").exists():
        wanted = path.with_suffix(".has").read_bytes().splitlines()
        return None if set(wanted) <= set(have_bytes.splitlines()) else have_bytes.decode()
    is_refused = path.with_suffix(".refused").exists()
    want = path.with_suffix(".refused" if is_refused else ".trace" if command == "run" else f".{command}").read_bytes()
    agrees = have_bytes == want and status is (Status.REFUSED if is_refused else Status.DONE)
    return None if agrees else have_bytes.decode()


def large_texts() -> list[tuple[str, bytes, Status, bytes]]:
    """Texts at the limits that are too large to be kept as files."""
    just_enough = b"thread a fifo 5 at 0\n" + b"yield\n" * 65_536 + b"end\n"
    one_more = b"thread a fifo 5 at 0\nloop 1\n" + b"yield\n" * 65_536 + b"end\nend\n"
    return [
        ("as many line ends as bytes may be", b"\n" * 1_048_576, Status.REFUSED, b"refused 1048577 14 NoThread\n"),
        ("one line end more", b"\n" * 1_048_577, Status.TOO_LONG, b"too long\n"),
        ("one step too many", one_more, Status.REFUSED, b"refused 65538 13 TooMany\n"),
        ("as many steps as may be", just_enough, Status.DONE,
         b"0 start a\n0 dispatch a 5\n1 return a yield 0 0\n1 end\nthread a ticks 1\n")]


AT_MOST: tuple[tuple[tuple[str, ...], int, int], ...] = (
    (("thread {} fifo 5 dormant\nend",), 64, 256), (("mutex {} none",), 64, 256), (("cond {}",), 64, 256), (("sem {} 0",), 64, 256),
    (("queue {} 1 8",), 16, 16), (("timer {} rt1 0",), 32, 32), (("handler {}\nend", "cleanup {}\nend"), 64, 64))
"""Declarations, in turn, with how many of them together a script of version 1 may have, and one of version 2 (docs/SCRIPT.md, Limits)."""


def limits_wrong() -> list[str]:
    """The declarations of which the reference refuses as many as may be, or takes one more."""
    wrong: list[str] = []
    for declarations, *limits in AT_MOST:
        for heading, limit in zip(("", "version 2\n"), limits):
            lines = [declarations[at % len(declarations)].format(f"n{at}") for at in range(limit + 1)]
            enough = heading + "".join(f"{line}\n" for line in lines[:-1])
            thread = "" if declarations[0].startswith("thread") else "thread a fifo 5 dormant\nend\n"
            taken = answer((enough + thread).encode(), 0)[0]
            refusal = f"refused {enough.count(chr(10)) + 1} 13 TooMany\n".encode()
            agrees = taken is Status.DONE and answer(f"{enough}{lines[-1]}\n{thread}".encode(), 0)[1] == refusal
            wrong += [] if agrees else [f"{heading}{declarations}: not {limit} at most"]
    return wrong


FAULTS_OF_STAGES: tuple[tuple[bytes, Stage, Fault], ...] = (
    (b"\nfrob\n", Stage.FIRST, Fault(1, 1, FaultKind.UnknownWord)), (b"", Stage.FIRST, Fault(1, 1, FaultKind.UnknownWord)),
    (b"\nversion 2\n", Stage.CLOCK, Fault(1, 2, FaultKind.UnknownWord)),
    (b"\nversion 3\n", Stage.WHOLE, Fault(1, 2, FaultKind.BadVersion)))
"""Texts that are refused at a stage: at the first each has one fault, and before the whole language there is no version."""


ESCAPES = {"n": b"\n", "t": b"\t", "\\": b"\\"}


def text_of(escaped: str) -> bytes:
    """The text that stands behind the columns of FAULTS.txt."""
    parts = re.split(r"\\(x[0-9a-f]{2}|.)", escaped)
    return b"".join(part.encode() if at % 2 == 0 else ESCAPES.get(part) or bytes.fromhex(part[1:]) for at, part in enumerate(parts))


def faults_wrong() -> tuple[int, list[str]]:
    """How many texts must be refused, and those that get another answer."""
    rows = [line.split(" ", 3) for line in REFUSED.read_text().splitlines() if not line.startswith("#")]
    wrong = []
    for line, number, kind, *escaped in rows:
        have = answer(text_of("".join(escaped)), 0)
        agrees = have == (Status.REFUSED, f"refused {line} {number} {kind}\n".encode())
        wrong += [] if agrees else [f"{line} {number} {kind} {''.join(escaped)}: the reference gives {have}"]
    return len(rows), wrong


LINES_OF_THE_CLOCK: tuple[tuple[str, str, str], ...] = (
    ("clock_settime 5", "UnknownWord", ""), ("clock_settime reg", "UnknownWord", ""), ("real_gettime", "UnknownWord", ""),
    ("clock_settime 1000000000000000000", "UnknownWord", ""), ("clock_settime 1000000000000000001", "UnknownWord", "NumberRange"),
    ("clock_settime", "UnknownWord", "WordCount"), ("clock_settime 5 real", "UnknownWord", "WordCount"),
    ("clock_settime now", "UnknownWord", "BadNumber"), ("real_gettime 5", "UnknownWord", "WordCount"),
    ("timedlock m 5 real", "WordCount", ""), ("timedwait c m 5 real", "WordCount", ""), ("sem_timedwait s 5 real", "WordCount", ""),
    ("clock_nanosleep 5 real", "WordCount", ""), ("mq_timedsend q 1 2 3 4 real", "WordCount", ""),
    ("mq_timedreceive q 5 real", "WordCount", ""), ("timedlock m reg real", "WordCount", ""),
    ("timedlock m 5 really", "WordCount", "WordCount"), ("timedlock m 5 real real", "WordCount", "WordCount"),
    ("timedlock m real", "BadNumber", "BadNumber"), ("clock_nanosleep real", "BadNumber", "BadNumber"),
    ("timedlock m 1000000000000000001 real", "WordCount", "NumberRange"), ("timedlock s 5 real", "WordCount", "WrongKind"),
    ("nanosleep 5 real", "WordCount", "WordCount"), ("sigtimedwait rt1 5 real", "WordCount", "WordCount"),
    ("timer_settime k abs 5 0 real", "WordCount", "WordCount"), ("timer_settime k real 5 0", "UnknownWord", "UnknownWord"),
    ("lock m real", "WordCount", "WordCount"), ("timer t rt1 5 real", "WordCount", "NotHere"), ("real", "UnknownWord", "UnknownWord"))
"""Lines of a thread's body: the fault of each at the stage before the clock that can be set, and at that stage, if any."""


def lines_wrong() -> list[str]:
    """The lines of the clock that have another fault, without it or with it."""
    objects = b"mutex m none\ncond c\nsem s 1\nqueue q 1 8\ntimer k rt1 0\n"
    wrong: list[str] = []
    for line, *wanted in LINES_OF_THE_CLOCK:
        text = objects + f"thread a fifo 5 at 0\n{line}\nend\n".encode()
        faults = [read(text, stage)[1] for stage in (Stage.QUEUES, Stage.CLOCK)]
        have = ["" if fault is None else fault.kind.name for fault in faults]
        wrong += [] if have == wanted else [f"{line}: the reference gives {have}"]
    return wrong


def words_wrong(count: int) -> list[str]:
    """The generated scripts without a setting that run otherwise without the words of the clock: until it is set it reads the ticks."""
    wrong: list[str] = []
    for seed in range(count):
        text, horizon = generate.accepted(seed, Stage.CLOCK)
        unset = re.sub(rb"clock_settime[^\n#]*", b"yield", text)
        plain = re.sub(rb"(?m)[ \t]+real(?=[ \t]*(#|$))", b"", unset.replace(b"real_gettime", b"gettime"))
        have = answer(unset, horizon, checked=True)[1].replace(b"real_gettime", b"gettime")
        wrong += [] if have == answer(plain, horizon)[1] else [f"generated script {seed} without a setting: the words change its run"]
    return wrong


def no_commands() -> list[list[str]]:
    return [[], ["run"], ["run", "1x"], ["run", "1000000000000000001"], ["run", "1", "2"], ["walk", "1"], ["--help"],
            ["show"], ["detail", "1", "2"], ["upgrade", "1"], ["show", "1000000000000000001"], ["detail", "-1"]]


STAGES: tuple[tuple[str, Stage | None], ...] = (
    ("run 5", Stage.WHOLE), ("run 5 --stage clock", Stage.CLOCK), ("--stage CLOCK run 5", Stage.CLOCK), ("run 5 --stage", None), ("run 5 --stage x", None))
"""Words of a command with its stage; None where there is no such stage."""


def generated_differ(count: int) -> int:
    """Runs generated scripts with all checks on; the number of those whose canonical text is not read as itself."""
    found = 0
    for stage in Stage:
        for seed in range(count):
            text, horizon = generate.accepted(seed, stage)
            answer(text, horizon, stage, checked=True)
            canonical = canonical_text(read(text, stage)[0])
            again, _ = read(canonical.encode(), max(stage, Stage.LANGUAGE))
            found += again is None or canonical_text(again) != canonical
            assert read(generate.refused(seed, stage), stage)[0] is None
    return found


def audits_wrong() -> list[str]:
    """The worked audits that get another answer."""
    lines = (WORKED / "AUDITS.txt").read_text().splitlines()
    names = [line.split()[0] for line in lines if not line.startswith("#")]
    answers = {name: audit((WORKED / f"{name}.audit").read_bytes())[1] for name in names}
    return [f"{name}: the reference gives {have!r}" for name, have in answers.items()
            if have != (WORKED / f"{name}.verdict").read_bytes()]


def facts_wrong(count: int) -> list[str]:
    """What is wrong with the facts of generated scripts; `show` is asked at each fifth instant."""
    found = []
    for seed, stage in [*((seed, Stage.WHOLE) for seed in range(count)), *((seed, Stage.CLOCK) for seed in range(count // 2))]:
        text, horizon = generate.accepted(seed, stage)
        fault = check_facts.fault_of(text, horizon, stage, range(0, horizon, 5))
        found += [] if fault is None else [f"the facts of generated script {seed} of {stage.name}: {fault}"]
    return found


def main() -> int:
    parser = argparse.ArgumentParser(description="Runs the worked examples against the reference.")
    parser.add_argument("--generated", type=int, default=0)
    arguments = parser.parse_args()
    wrong: list[str] = []
    compared = 0
    for name, stage in examples():
        compared += 1
        have = difference(name, stage)
        wrong += [f"{name}: the reference gives\n{have}"] if have is not None else []
    for name, text, want_status, want in large_texts():
        compared += 1
        wrong += [f"{name}: another answer"] if answer(text, 1) != (want_status, want) else []
    for words in no_commands():
        compared += 1
        wrong += [f"{words} is taken for a command"] if command_of(words) is not None else []
    compared += len(STAGES)
    wrong += [f"{words}: another stage" for words, stage in STAGES if staged(words.split())[1] is not stage]
    compared += len(AT_MOST) + len(FAULTS_OF_STAGES)
    wrong += [f"{text!r} has another fault at {stage.name}" for text, stage, fault in FAULTS_OF_STAGES if read(text, stage)[1] != fault]
    compared += FACTS_OF + FACTS_OF // 2 + len(list(WORKED.glob("*.audit"))) + len(LINES_OF_THE_CLOCK) + UNSET_OF
    refused, faults = faults_wrong()
    answered, others = answers.differences()
    compared += refused + answered
    wrong += faults + others
    wrong += audits_wrong()
    wrong += lines_wrong()
    wrong += limits_wrong()
    wrong += words_wrong(UNSET_OF)
    wrong += facts_wrong(FACTS_OF)
    wrong += ["a canonical text is not read as itself"] * generated_differ(arguments.generated)
    print(*wrong, f"{compared} compared, {len(wrong)} differ", sep="\n")
    return 1 if wrong else 0


if __name__ == "__main__":
    sys.exit(main())
