#!/usr/bin/env python3
"""What the gate costs, by processor time.

    gate_times.py -- COMMAND ..      runs the command, and then writes the page of what its checks took
    gate_times.py watch LOG          writes to LOG what every check on this machine takes, until it is interrupted
    gate_times.py page LOG [FOLDER]  the page of such a log; of proofs in a checkout's FOLDER alone, where one is named

The toolchain tells no times, so its checks are watched from outside: twice a second the process table is read, and each
process of `rattle` is told by its crate and by what it is for (a proof, a proof of tests, an edit). A check that begins and
ends between two looks is not seen; a library takes seconds to be read, so none does.
"""

import json
import os
import signal
import subprocess
import sys
import threading
import time
from dataclasses import asdict, dataclass
from pathlib import Path

LOOK_EVERY = 0.5  # seconds
TICKS_PER_SECOND = os.sysconf("SC_CLK_TCK")


@dataclass
class Check:
    """One process of the prover, as it was last seen: times are seconds since the first look, and of processor time."""

    crate: str
    kind: str
    room: str
    begun: float
    ended: float
    processor: float


def words_of(process: Path) -> list[str]:
    """The words that a process was started by; none where it has ended."""
    try:
        return process.joinpath("cmdline").read_bytes().decode(errors="replace").split("\0")
    except OSError:
        return []


def parent_and_time(process: Path) -> tuple[int, float]:
    """The parent of a process, and the seconds of processor time that it and its ended children have taken."""
    fields = process.joinpath("stat").read_text().rpartition(")")[2].split()
    return int(fields[1]), sum(map(int, fields[11:15])) / TICKS_PER_SECOND


def kind_of(room: str, words: list[str]) -> str:
    """What a check is for: edits are checked in folders of their own."""
    if "rt-edit-" in room or "/rt-plant" in room:
        return "edits"
    return "tests" if "--test" in words else "proof"


def look(seen: dict[tuple[int, str], Check], now: float) -> None:
    """Takes down what each process of the prover has taken by now."""
    for process in Path("/proc").iterdir():
        if not process.name.isdigit():
            continue
        words = words_of(process)
        if os.path.basename(words[0] if words else "") != "rattle" or "--crate-name" not in words:
            continue
        crate = words[words.index("--crate-name") + 1]
        try:
            (parent, taken), room = parent_and_time(process), os.readlink(process / "cwd")
        except (OSError, IndexError, ValueError):
            continue
        if crate in words_of(Path("/proc", str(parent))):
            continue  # a job of a check, whose time that check tells when it has ended
        kind = kind_of(room, words)
        check = seen.setdefault((int(process.name), crate), Check(crate, kind, room, now, now, 0.0))
        check.ended, check.processor = now, taken


def watch(log: Path, is_over: threading.Event) -> None:
    """Looks until it is over; the log always holds all checks that were seen."""
    seen: dict[tuple[int, str], Check] = {}
    start = written = time.monotonic()
    while not is_over.wait(LOOK_EVERY):
        now = time.monotonic()
        look(seen, now - start)
        if now - written > 10:
            write(log, seen)
            written = now
    write(log, seen)


def write(log: Path, seen: dict[tuple[int, str], Check]) -> None:
    text = "".join(json.dumps(asdict(check)) + "\n" for check in seen.values())
    part = log.with_name(log.name + ".part")
    part.write_text(text)
    part.replace(log)


def minutes(seconds: float) -> str:
    return f"{seconds / 60:.1f}"


def page(checks: list[Check]) -> str:
    """A table of the crates, the dearest first; minutes of processor time."""
    crates = sorted({it.crate for it in checks})
    taken = {
        crate: {
            kind: [it.processor for it in checks if (it.crate, it.kind) == (crate, kind)]
            for kind in ("proof", "tests", "edits")
        }
        for crate in crates
    }
    total = {crate: sum(map(sum, kinds.values())) for crate, kinds in taken.items()}
    lines = [
        "| crate | proof, min | tests, min | edits, min | checks of edits | dearest edit, s |",
        "|---|---|---|---|---|---|",
    ]
    for crate in sorted(crates, key=lambda it: -total[it]):
        proof, tests, edits = (taken[crate][kind] for kind in ("proof", "tests", "edits"))
        dearest = f"{max(edits):.0f}" if edits else ""
        lines.append(
            f"| {crate} | {minutes(sum(proof))} | {minutes(sum(tests)) if tests else ''} "
            f"| {minutes(sum(edits)) if edits else ''} | {len(edits) or ''} | {dearest} |"
        )
    sums = {kind: sum(it.processor for it in checks if it.kind == kind) for kind in ("proof", "tests", "edits")}
    span = max((it.ended for it in checks), default=0.0) - min((it.begun for it in checks), default=0.0)
    lines.append(f"| all | {minutes(sums['proof'])} | {minutes(sums['tests'])} | {minutes(sums['edits'])} | | |")
    lines += ["", f"From the first check to the last: {minutes(span)} minutes by the clock, {os.cpu_count()} processors."]
    return "\n".join(lines) + "\n"


def read(log: Path) -> list[Check]:
    return [Check(**json.loads(line)) for line in log.read_text().splitlines()]


def watched(log: Path, command: list[str]) -> int:
    """Runs a command and watches beside it; its status."""
    is_over = threading.Event()
    watcher = threading.Thread(target=watch, args=(log, is_over))
    watcher.start()
    try:
        return subprocess.run(command, check=False).returncode
    finally:
        is_over.set()
        watcher.join()


def main(words: list[str]) -> int:
    match words:
        case ["--", *command] if command:
            log = Path(f"gate_times.{os.getpid()}.log")
            status = watched(log, command)
            print(page(read(log)), end="")
            log.unlink()
            return status
        case ["watch", log]:
            is_over = threading.Event()
            for each in (signal.SIGINT, signal.SIGTERM):
                signal.signal(each, lambda *_: is_over.set())
            watch(Path(log), is_over)
            return 0
        case ["page", log, *folder] if len(folder) <= 1:
            checks = read(Path(log))
            print(page([it for it in checks if not folder or it.room.startswith(folder[0])]), end="")
            return 0
    print(__doc__, file=sys.stderr, end="")
    return 1


if __name__ == "__main__":
    sys.exit(main(sys.argv[1:]))
