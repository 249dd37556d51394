"""The reference for `pse52 run N`, for `show N`, `detail N` and `upgrade`: the same text and the same exit status.

    python3 tools/reference/simulate.py run N [--stage STAGE] [--check] < script
    python3 tools/reference/simulate.py show N [--stage STAGE] [--check] < script
    python3 tools/reference/simulate.py detail N [--stage STAGE] [--check] < script
    python3 tools/reference/simulate.py upgrade < script

Exit status: 0 Done, 1 Usage, 2 Refused, 3 TooLong, 4 ReadFault, 5 WriteFault; 70 where Python is older than 3.11.
"""
from __future__ import annotations

import sys

if sys.version_info < (3, 11):
    sys.stderr.write("simulate.py: Python 3.11 or later is needed, and this is %d.%d\n" % sys.version_info[:2])
    sys.exit(70)

import signal
from dataclasses import replace
from enum import IntEnum
from typing import Callable

from detail import detail, show
from forms import GREATEST_NUMBER, Stage
from machine import Machine
from reader import read
from script import Script, canonical_text
from trace import trace

GREATEST_TEXT = 1_048_576


class Status(IntEnum):
    DONE = 0
    USAGE = 1
    REFUSED = 2
    TOO_LONG = 3
    READ_FAULT = 4
    WRITE_FAULT = 5


def run(script: Script, horizon: int, checked: bool = False) -> str:
    machine = Machine(script, checked)
    machine.run_until(horizon)
    return trace(machine)


def upgrade(script: Script, horizon: int = 0, checked: bool = False) -> str:
    """The canonical text of the script as one of version 2."""
    return canonical_text(replace(script, version=2))


COMMANDS: dict[str, Callable[[Script, int, bool], str]] = {"run": run, "show": show, "detail": detail, "upgrade": upgrade}


def command_of(words: list[str]) -> tuple[str, int] | None:
    """The command that the words are, with its number; `upgrade` has none."""
    if words == ["upgrade"]:
        return "upgrade", 0
    if words[:1] == ["upgrade"] or len(words) != 2 or words[0] not in COMMANDS or not (words[1].isascii() and words[1].isdigit()):
        return None
    digits = words[1].lstrip("0") or "0"
    is_number = len(digits) <= 19 and int(digits) <= GREATEST_NUMBER
    return (words[0], int(digits)) if is_number else None


def answer(text: bytes, horizon: int, stage: Stage = Stage.WHOLE, checked: bool = False,
           command: str = "run") -> tuple[Status, bytes]:
    """The status and the text of a run, or of another command with that number."""
    if len(text) > GREATEST_TEXT:
        return Status.TOO_LONG, b"too long\n"
    script, fault = read(text, stage)
    if script is None:
        return Status.REFUSED, f"refused {fault.line} {fault.kind.value} {fault.kind.name}\n".encode()
    told = COMMANDS[command](script, horizon, checked).encode()
    if command == "upgrade" and len(told) > GREATEST_TEXT:
        return Status.TOO_LONG, b"too long\n"
    return Status.DONE, told


def staged(words: list[str]) -> tuple[list[str], Stage | None]:
    """The words without `--stage` and its value, and the stage; None where the value is missing or no stage."""
    if "--stage" not in words:
        return words, Stage.WHOLE
    at = words.index("--stage")
    name = "".join(words[at + 1:at + 2]).upper()
    return words[:at] + words[at + 2:], Stage[name] if name in Stage.__members__ else None


def main(words: list[str]) -> Status:
    checked = "--check" in words
    words, stage = staged([word for word in words if word != "--check"])
    if stage is None:
        print(f"simulate.py: --stage needs one of {', '.join(name.lower() for name in Stage.__members__)}", file=sys.stderr)
        return Status.USAGE
    command = command_of(words)
    if command is None:
        status, text = Status.USAGE, b"usage: pse52 COMMAND NUMBERS\n"
        print("simulate.py: a script comes on standard input; write: python3 tools/reference/simulate.py run N < SCRIPT, "
              "with show N, detail N or upgrade as well", file=sys.stderr)
    else:
        word, number = command
        try:
            source = read_source()
        except OSError:
            return Status.READ_FAULT
        status, text = answer(source, number, stage, checked, word)
    return status if written(text) else Status.WRITE_FAULT


def read_source() -> bytes:
    """The text on standard input, as much of it as tells whether it is too long. Raises OSError, where it is closed too."""
    with open(0, "rb", closefd=False) as source:
        return source.read(GREATEST_TEXT + 1)


def written(text: bytes) -> bool:
    """Writes to standard output, and tells whether that could be."""
    try:
        with open(1, "wb", closefd=False) as sink:
            sink.write(text)
    except OSError:
        return False
    return True


if __name__ == "__main__":
    signal.signal(signal.SIGINT, signal.SIG_DFL)
    sys.exit(main(sys.argv[1:]))
