"""One job of the engine: carries out some runs and tells each as a line of JSON.

    python3 worker.py SWEEP.toml PROGRAM.. -- < numbers        (the engine gives the numbers of runs as lines)
    python3 worker.py SWEEP.toml PROGRAM.. -- FILE             (or the name of a file that has them)

It stands alone, so that an engine can start it on another machine.
"""
from __future__ import annotations

import json
import os
import signal
import sys
from dataclasses import dataclass, field
from pathlib import Path
from tempfile import TemporaryFile

sys.path.insert(0, str(Path(__file__).resolve().parents[1]))

from measure.jobs import NamesNothing  # noqa: E402
from measure.measures import filled  # noqa: E402
from measure.notes import ends_behind_a_release, later_in_many, told_of_many  # noqa: E402
from measure.seen import Seen  # noqa: E402
from sweep.plan import Run, Sweep, read_sweep  # noqa: E402
from view.lines import NotATraceLine, TooManyLines, read_trace, written_by  # noqa: E402

NOT_STARTED = 127
LONGEST_FAULT = 200


class Streams:
    """The standard streams of the runs: two files, each run's in turn, and a pipe, so that a run that writes too much is ended early.

    A short run costs less so than with three pipes, where somebody has to wait at all ends.
    """

    def __init__(self) -> None:
        self._source, self._said = (TemporaryFile(buffering=0) for _ in range(2))
        self._environment = dict(os.environb)

    def __enter__(self) -> Streams:
        return self

    def __exit__(self, *_: object) -> None:
        self._source.close()
        self._said.close()

    def run(self, words: list[str], script: bytes) -> tuple[int, bytes, bytes]:
        """The exit status of a program, less than 0 where a signal killed it, what it wrote, and what it wrote as errors.

        Raises TooManyLines, and OSError where it cannot be started.
        """
        for file in (self._source, self._said):
            file.seek(0)
            file.truncate()
        self._source.write(script)
        self._source.seek(0)
        process, pipe = self._started(words)
        try:
            with open(pipe, "rb", buffering=0) as told:
                text = written_by(told)
        except TooManyLines:
            os.kill(process, signal.SIGKILL)
            raise
        finally:
            status = os.waitstatus_to_exitcode(os.waitpid(process, 0)[1])
        return status, text, os.pread(self._said.fileno(), os.fstat(self._said.fileno()).st_size, 0)

    def _started(self, words: list[str]) -> tuple[int, int]:
        """The number of a process that runs these words, and the end of the pipe that has what it writes."""
        reads, writes = os.pipe()
        streams = self._source.fileno(), writes, self._said.fileno()
        actions = [(os.POSIX_SPAWN_DUP2, stream, number) for number, stream in enumerate(streams)]
        try:
            return os.posix_spawnp(words[0], words, self._environment, file_actions=actions), reads
        except OSError:
            os.close(reads)
            raise
        finally:
            os.close(writes)


def row_of(sweep: Sweep, run: Run, program: list[str], streams: Streams) -> tuple[list[str], list[str], list[str]]:
    """The row of a run: its values, the exit status, its fault, and the figures; the measures whose thread ended behind a release; and
    what else is told of the run."""
    try:
        status, told, said = streams.run([*program, sweep.command, str(sweep.horizon_of(run))], sweep.script(run).encode())
    except TooManyLines as wrong:
        return [*map(str, run.values), "0", str(wrong), *[""] * sweep.figures], [], []
    except OSError as error:
        status, told, said = NOT_STARTED, b"", f"{program[0]}: {error.strerror}".encode()
    found = Measured([""] * sweep.figures, [fault_of(status, told, said)])
    if status == 0:
        try:
            found = measured(sweep, Seen(read_trace(told.splitlines(keepends=True)), sweep.command == "detail"), sweep.values_of(run))
        except NotATraceLine as wrong:
            found.faults.append(str(wrong))
    return [*map(str, run.values), str(status), "; ".join(filter(None, found.faults)), *found.figures], found.ended, found.told


@dataclass
class Measured:
    """What is measured of a run: the figures of all measures, and why some have none; the measures whose thread ended behind a release;
    and what a reader of the figures must know."""

    figures: list[str] = field(default_factory=list)
    faults: list[str] = field(default_factory=list)
    ended: list[str] = field(default_factory=list)
    told: list[str] = field(default_factory=list)


def measured(sweep: Sweep, seen: Seen, values: dict[str, int]) -> Measured:
    """The cells of a measure that has no figures are empty, and those of the others stand."""
    found = Measured(told=told_of_many(seen))
    for measure in sweep.measures:
        words = filled(measure.words, values)
        try:
            found.figures += measure.figures(seen, values)
        except NamesNothing as wrong:
            found.figures += [""] * len(measure.columns)
            found.faults.append(str(wrong))
        else:
            found.ended += [measure.name] if ends_behind_a_release(seen, words) else []
            found.told += later_in_many(seen, words)
    return found


def fault_of(status: int, told: bytes, said: bytes) -> str:
    """What a run has to say of its end; nothing where all is well."""
    if status == 0:
        return ""
    if status < 0:
        return f"killed by signal {-status}"
    return _first_line(told) or _first_line(said) or "it wrote nothing"


def _first_line(text: bytes) -> str:
    return text.partition(b"\n")[0].decode("ascii", "backslashreplace")[:LONGEST_FAULT]


def main(words: list[str]) -> int:
    # Where nobody takes the rows any more, as after the end of the sweep, the job ends without a word.
    signal.signal(signal.SIGPIPE, signal.SIG_DFL)
    at = words.index("--")
    sweep, program, files = read_sweep(Path(words[0])), words[1:at], words[at + 1:]
    text = Path(files[0]).read_text() if files else sys.stdin.read()
    with Streams() as streams:
        for number in map(int, text.split()):
            # One write a line, so that lines of jobs that share an output never mix.
            sys.stdout.write(json.dumps([number, *row_of(sweep, sweep.run(number), program, streams)]) + "\n")
            sys.stdout.flush()
    return 0


if __name__ == "__main__":
    sys.exit(main(sys.argv[1:]))
