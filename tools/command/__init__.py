"""What the commands beside the program have in common: their words, their exit statuses, and what they say where something is wrong."""
from __future__ import annotations

import argparse
import contextlib
import os
import signal
import sys
from collections.abc import Callable, Mapping
from enum import IntEnum
from pathlib import Path
from typing import NoReturn, TextIO

if sys.stderr is None:  # it was closed, and what asks or writes there finds a stream all the same
    sys.stderr = open(os.devnull, "w", encoding="utf-8")
VERSION = Path(__file__).resolve().parents[2] / "VERSION"
GREATEST_TICKS = 10**18


class Status(IntEnum):
    """The exit statuses that several commands have, those of pse52 where they mean the same."""

    DONE = 0
    USAGE = 1
    REFUSED = 2
    READ_FAULT = 4
    WRITE_FAULT = 5


class Usage(Exception):
    """What is wrong with the words of the command."""


class Words(argparse.ArgumentParser):
    """The words that a command takes, options before, between and behind the others. Those that are wrong are a Usage."""

    def __init__(self, tool: str, description: str) -> None:
        super().__init__(prog=tool, description=description, formatter_class=argparse.RawDescriptionHelpFormatter, allow_abbrev=False)
        self.add_argument("--version", action="version", version=f"{tool} {VERSION.read_text().strip()}")

    def error(self, message: str) -> None:
        raise Usage(message)

    def _print_message(self, message: str, file: object = None) -> None:
        """Help and the version: where they are not written the status tells it, as that of any other output."""
        self._written = write(self.prog, message)

    def exit(self, status: int = 0, message: str | None = None) -> NoReturn:
        raise SystemExit(self._written)

    def read(self, words: list[str]) -> argparse.Namespace:
        return self.parse_intermixed_args(words)


def number_of_ticks(word: str) -> int:
    """A number as the program takes it: decimal digits, at most 10^18."""
    if not (word.isascii() and word.isdigit()) or len(word) > 19 or int(word) > GREATEST_TICKS:
        raise argparse.ArgumentTypeError(f"'{word}' is no number of ticks from 0 to {GREATEST_TICKS}")
    return int(word)


def tell(line: str, end: str = "\n") -> None:
    """Writes a line to standard error. Where that cannot be, the exit status alone tells what it does."""
    try:
        print(line, end=end, file=sys.stderr, flush=True)
    except OSError:
        _forget(sys.stderr)


def overwrites() -> bool:
    """Whether standard error is a terminal on which a line can be written over."""
    return sys.stderr.isatty() and os.environ.get("TERM", "dumb") != "dumb"


def _forget(stream: TextIO) -> None:
    """What is left in the stream must not be written, and complained about, at the end of the process."""
    with contextlib.suppress(OSError, ValueError):
        os.dup2(os.open(os.devnull, os.O_WRONLY), stream.fileno())


def say(tool: str, text: str) -> None:
    tell(f"{tool}: {text}")


def told(wrong: Exception) -> str:
    """What is wrong; of a file its name and why, without the number of the error."""
    return f"{wrong.filename}: {wrong.strerror}" if isinstance(wrong, OSError) and wrong.filename else str(wrong)


def end_by(number: signal.Signals) -> int:
    """Ends by a signal, so that a shell's loop over commands ends too."""
    signal.signal(number, signal.SIG_DFL)
    os.kill(os.getpid(), number)
    return 128 + number


def carried_out(tool: str, work: Callable[[], int], statuses: Mapping[type[Exception], int]) -> int:
    """Does the work of a command. Of an exception it is said what is wrong; `statuses` has what is returned then."""
    try:
        return work()
    except SystemExit as ended:  # --help and --version, written or not
        return Status(ended.code)
    except KeyboardInterrupt:
        return end_by(signal.SIGINT)
    except Usage as wrong:
        say(tool, f"{wrong}; --help tells all")
        return Status.USAGE
    except tuple(statuses) as wrong:
        say(tool, told(wrong))
        return next(status for kind, status in statuses.items() if isinstance(wrong, kind))
    except OSError as error:
        say(tool, f"{error.filename or 'the trace'} was not read: {error.strerror}")
        return Status.READ_FAULT


def standard_input(tool: str = "", what: str = ""):
    """The bytes of standard input. Where that is a terminal it is told what is read there. Raises OSError where it is closed."""
    if sys.stdin is None:
        raise OSError(9, os.strerror(9))
    if what and sys.stdin.isatty() and sys.stderr.isatty():
        say(tool, f"{what} read from this terminal, up to Ctrl-D at a line's beginning; --help tells more")
    return sys.stdin.buffer


def encoded(text: str) -> bytes:
    """A text in UTF-8. Bytes of a word or of a file's name that Python could not decode stand there as they came where they are UTF-8."""
    return text.encode(errors="surrogateescape").decode(errors="replace").encode()


def write(tool: str, text: str | bytes) -> Status:
    """Writes to standard output, and says where that fails; not of a pipe whose reader had enough."""
    try:
        if sys.stdout is None:
            raise OSError(9, os.strerror(9))
        sys.stdout.buffer.write(text if isinstance(text, bytes) else encoded(text))
        sys.stdout.buffer.flush()
    except OSError as error:
        if not isinstance(error, BrokenPipeError):
            say(tool, f"the output was not written: {error.strerror}")
        if sys.stdout is not None:
            _forget(sys.stdout)
        return Status.WRITE_FAULT
    return Status.DONE
