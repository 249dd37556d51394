"""Where a detail comes from: the program of this repository, or the reference where the program is not built or has no `detail`."""
from __future__ import annotations

import contextlib
import io
import os
import re
import shlex
import subprocess
import sys
from collections.abc import Callable, Iterable
from pathlib import Path
from threading import Thread
from typing import IO, NamedTuple

from command import GREATEST_TICKS, Usage, standard_input, tell

from .lines import written_by

TOP = Path(__file__).resolve().parents[2]
REFERENCE = TOP / "tools" / "reference" / "simulate.py"
RESPONSE_TIMES = TOP / "tools" / "reference" / "response_times.py"
USAGE, REFUSED, TOO_LONG = 1, 2, 3
GREATEST_SCRIPT = 1_048_576  # bytes
# The reference takes one tick after another: what it would be asked for beyond that takes minutes.
MOST_TICKS = 10_000_000
HORIZON = re.compile(rb"\s*#\s*horizon 0*(\d{1,19})\b")
DIVIDER = re.compile(rb"(?m)^%%$")
REFUSAL = re.compile(r"refused (\d+) \d+ (\w+)")

_TOLD: set[str] = set()


class NoSource(Exception):
    """Why there is no detail of a script."""


class Given(NamedTuple):
    """What a command was given: the lines of a trace or of a detail, and the script that was run for them, where it was one."""

    lines: Iterable[bytes]
    script: bytes | None


def horizon_of(script: bytes) -> int | None:
    """The horizon that the first line of a script names, as `# horizon 40`; none where that is more than a run may have."""
    found = HORIZON.match(script)
    return int(found[1]) if found and int(found[1]) <= GREATEST_TICKS else None


def programs(reference: Path) -> list[list[str]]:
    """The programs that are asked, in their order: that of PSE52 in the environment or of bin/pse52, and a reference.

    Where no proved program is here, none is proved for a picture: that takes long. Raises NoSource.
    """
    said = _words_of(os.environ.get("PSE52", ""))
    if said:
        first = [said]
    else:
        which = subprocess.run(["sh", str(TOP / "bin" / "pse52"), "--which"], stdin=subprocess.DEVNULL, capture_output=True, text=True, check=False)
        first = [[which.stdout.rstrip("\n")]] if which.returncode == 0 else []
    return [*first, [sys.executable, str(reference)]]


def _words_of(said: str) -> list[str]:
    try:
        return shlex.split(said)
    except ValueError as wrong:
        raise NoSource(f"PSE52 of the environment is no program: {wrong}") from None


def answer(words: list[str], source: bytes, reference: Path, tool: str) -> bytes:
    """What the first program that knows the command writes. Says on standard error where it is not the first one.

    Raises NoSource where the command is refused or fails, and TooManyLines.
    """
    asked = programs(reference)
    if len(asked) == 1:
        _tell(f"{tool}: no proved program is here, so the reference answers")
    for number, program in enumerate(asked):
        if number + 1 == len(asked) and words[0] == "detail" and int(words[1]) > MOST_TICKS:
            raise NoSource(f"the reference takes a tick at a time, and {words[1]} ticks would take it too long; --horizon {MOST_TICKS} is the most")
        try:
            ended = _ended([*program, *words], source)
        except OSError as error:
            raise NoSource(f"{program[0]} cannot be started: {error.strerror}") from None
        if ended.returncode == 0:
            return ended.stdout
        if ended.returncode == USAGE and number + 1 < len(asked):
            _tell(f"{tool}: {Path(program[0]).name} does not know '{words[0]}'; the reference answers")
            continue
        raise NoSource(_why(ended))
    raise AssertionError(asked)


def _ended(words: list[str], source: bytes) -> subprocess.CompletedProcess[bytes]:
    """Runs a program to its end, or kills it as soon as it has written more lines than are read, and raises TooManyLines."""
    said: list[bytes] = []
    with subprocess.Popen(words, stdin=subprocess.PIPE, stdout=subprocess.PIPE, stderr=subprocess.PIPE) as process:
        hands = Thread(target=_hand, args=(process.stdin, source)), Thread(target=lambda: said.append(process.stderr.read()))
        for hand in hands:
            hand.start()
        try:
            told = written_by(process.stdout)
        except BaseException:
            process.kill()
            process.stdout.close()  # what the program has started writes no further either
            raise
        finally:
            for hand in hands:
                hand.join()
    return subprocess.CompletedProcess(words, process.returncode, told, said[0])


def _hand(pipe: IO[bytes], text: bytes) -> None:
    """Writes a text to a program, which may end before it has read all."""
    with contextlib.suppress(BrokenPipeError), pipe:
        pipe.write(text)


def _tell(line: str) -> None:
    """Says a line on standard error, once."""
    if line not in _TOLD:
        tell(line)
        _TOLD.add(line)


def _why(ended: subprocess.CompletedProcess[bytes]) -> str:
    said = (ended.stdout or ended.stderr).decode("ascii", "backslashreplace").strip().splitlines()
    refused = REFUSAL.fullmatch(said[0]) if said else None
    if ended.returncode == REFUSED and refused:
        return f"the script is refused at line {refused[1]}: {refused[2]}; 'pse52 explain SCRIPT' tells all its faults, and what to do"
    if ended.returncode == TOO_LONG:
        return f"the script has more than {GREATEST_SCRIPT} bytes; shorten it, for instance its comments, or say repeated steps with `loop`"
    return f"the program ended with the status {ended.returncode}" + (f": {said[-1]}" if said else "")


def detail_of(script: bytes, horizon: int | None, tool: str) -> Iterable[bytes]:
    """The lines of the detail of a script, for so many ticks, or as many as its first line says. Raises Usage, NoSource and TooManyLines."""
    if horizon is None:
        horizon = horizon_of(script)
    if horizon is None:
        raise Usage("--horizon N says for how many ticks the script is run, where its first line does not: # horizon N, from 0 to "
                    f"{GREATEST_TICKS}")
    return io.BytesIO(answer(["detail", str(horizon)], script, REFERENCE, tool))


def given(path: Path | None, is_script: bool, horizon: int | None, tool: str, running: Callable[[], None] = lambda: None) -> Given:
    """A trace, a detail or a script: that of a file, or of standard input where it is None or `-`. A script is run for its detail,
    once `running` has heard of it. What its first byte does not tell to be a script is one where `is_script` says so.

    Raises Usage, NoSource, TooManyLines and OSError.
    """
    source = path.open("rb") if path and path != Path("-") else standard_input(tool, "a script is" if is_script else "a trace or a script is")
    first = source.peek(1)[:1]
    if not is_script and (not first or first.isdigit() or first == b"r"):
        if horizon is not None and first:
            raise Usage("--horizon is for a script, and this is none")
        return Given(source, None)
    running()
    script = source.read(GREATEST_SCRIPT + 1)
    if DIVIDER.search(script):
        raise NoSource("a line is %%, so this is the input of audit or check, and the trace stands behind that line; take it alone by "
                       "'pse52-from-ftrace --trace MAP < LOG', or by: sed '1,/^%%$/d' FILE")
    return Given(detail_of(script, horizon, tool), script)
