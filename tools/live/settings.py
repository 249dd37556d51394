"""The settings of the kernel that a run needs, and that are put back afterwards, also where the run is interrupted."""
from __future__ import annotations

import fcntl
import os
import signal
import tempfile
from collections.abc import Iterator
from contextlib import contextmanager
from pathlib import Path
from types import FrameType

RUNTIME = Path("/proc/sys/kernel/sched_rt_runtime_us")
TIMESLICE = Path("/proc/sys/kernel/sched_rr_timeslice_ms")
DEPTH = Path("/proc/sys/fs/mqueue/msg_max")
#: whoever holds it runs; the others wait, since they would disturb one another and put back what is not theirs
LOCK = (Path("/run") if Path("/run").is_dir() else Path(tempfile.gettempdir())) / "pse52-live.lock"
ENDING = (signal.SIGINT, signal.SIGTERM, signal.SIGHUP)


class Interrupted(BaseException):
    """A signal asks the command to end. It is no error, and no `except Exception` takes it."""

    def __init__(self, number: int) -> None:
        super().__init__(number)
        self.number = number


class NotAllowed(Exception):
    """This process may not run realtime threads, or the machine has too little for it."""


def why_not(cores: set[int] | None = None, user: int | None = None) -> str | None:
    """Why nothing can be run here, or None."""
    if not hasattr(os, "SCHED_FIFO") or not RUNTIME.exists():
        return "this system has no SCHED_FIFO of Linux"
    if (os.geteuid() if user is None else user) != 0:
        return "SCHED_FIFO and the settings of the kernel need root: sudo bin/pse52-live SCRIPT N"
    if len(os.sched_getaffinity(0) if cores is None else cores) < 2:
        return "two cores are needed: one for the threads of the script, one for what watches them"
    return None


def refused_by_kernel() -> str | None:
    """Why the kernel refuses this process a realtime policy, though it is root's; None where it does not."""
    child = os.fork()
    if child == 0:
        try:
            os.sched_setscheduler(0, os.SCHED_FIFO, os.sched_param(1))
        except OSError:
            os._exit(1)
        os._exit(0)
    refused = os.waitstatus_to_exitcode(os.waitpid(child, 0)[1]) != 0
    return "the kernel refuses SCHED_FIFO here, as in a container without CAP_SYS_NICE" if refused else None


def _interrupt(number: int, _frame: FrameType | None) -> None:
    for each in ENDING:
        signal.signal(each, signal.SIG_IGN)
    raise Interrupted(number)


@contextmanager
def _alone() -> Iterator[None]:
    """Nobody else is inside at the same time, on this machine."""
    file = os.open(LOCK, os.O_CREAT | os.O_RDWR | os.O_NOFOLLOW | os.O_CLOEXEC, 0o600)
    try:
        fcntl.flock(file, fcntl.LOCK_EX)
        yield
    finally:
        os.close(file)


@contextmanager
def realtime(timeslice: int | None = None, depth: int = 0) -> Iterator[None]:
    """Realtime threads may use all of a core inside, a round robin interval has so many milliseconds, and a queue this depth.

    What the settings were is put back at the end, whatever ends it; a signal that asks for the end becomes `Interrupted`.
    """
    with _alone():
        wanted = _wanted(timeslice, depth)
        kept = {path: path.read_text().strip() for path in wanted}
        handlers = {number: signal.signal(number, _interrupt) for number in ENDING}
        try:
            for path, value in wanted.items():
                _set(path, value)
            yield
        finally:
            for number in ENDING:
                signal.signal(number, signal.SIG_IGN)
            for path, value in kept.items():
                _set(path, value)
            for number, handler in handlers.items():
                signal.signal(number, handler)


def _wanted(timeslice: int | None, depth: int) -> dict[Path, str]:
    wanted = {RUNTIME: "-1"}
    if timeslice is not None:
        wanted[TIMESLICE] = str(timeslice)
    if DEPTH.exists() and int(DEPTH.read_text()) < depth:
        wanted[DEPTH] = str(depth)
    return wanted


def _set(path: Path, value: str) -> None:
    try:
        path.write_text(value + "\n")
    except OSError as error:
        raise NotAllowed(f"{path} cannot be set: {error.strerror}") from error
