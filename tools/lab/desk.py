"""Where runs are asked for: workers, which are as many as there are runs at a time, and a limit on the time of each run."""
from __future__ import annotations

import json
import os
import signal
import subprocess
import sys
import threading
from dataclasses import dataclass
from pathlib import Path

WORKER = Path(__file__).with_name("worker.py")
PANES = ("a", "b", "export")
MOST_RUNS = 4  # at a time; another one waits for its turn
CLOSED = "the page is closed"
NEWER = "a newer run took its place; change something here to run this one again"


class Stopped(Exception):
    """Why a run has no answer."""


@dataclass(frozen=True)
class Request:
    """A script, for how many ticks it is run, what is wanted of the run, and its title."""

    script: bytes
    horizon: int
    form: str
    title: str


class Worker:
    """A process that runs scripts, in a group of its own, so that the program that it started ends with it."""

    def __init__(self) -> None:
        self._process = subprocess.Popen([sys.executable, str(WORKER)], stdin=subprocess.PIPE, stdout=subprocess.PIPE, start_new_session=True)
        self._why = ""
        self._is_ready = False

    @property
    def is_stopped(self) -> bool:
        return self._why != ""

    def stop(self, why: str) -> None:
        self._why = self._why or why
        try:
            os.killpg(self._process.pid, signal.SIGKILL)
        except ProcessLookupError:
            pass

    def close(self) -> None:
        """Ends the process, and takes its end."""
        self.stop(CLOSED)
        self._process.wait()
        for pipe in (self._process.stdin, self._process.stdout):
            try:
                pipe.close()
            except BrokenPipeError:
                pass

    def ask(self, request: Request, seconds: float) -> bytes:
        """The answer, as JSON. The time of the run counts, and not that of the worker's start. Raises Stopped; the worker is of no more use then."""
        self._is_ready = self._is_ready or self._process.stdout.readline() == b"ready\n"
        head = {"size": len(request.script), "horizon": request.horizon, "form": request.form, "title": request.title}
        clock = threading.Timer(seconds, self.stop, [f"the run took longer than {seconds:g} s and was ended; take a smaller horizon"])
        clock.daemon = True
        clock.start()
        try:
            self._process.stdin.write(json.dumps(head).encode() + b"\n" + request.script)
            self._process.stdin.flush()
            size = self._process.stdout.readline()
            text = self._process.stdout.read(int(size)) if size else b""
        except BrokenPipeError:
            size, text = b"", b""
        finally:
            clock.cancel()
        if self._why or not size or len(text) != int(size):
            raise Stopped(self._why or "the run failed; the terminal of pse52-lab says more")
        return text


class Desk:
    """The workers. A pane of a tab has one run at a time: a newer one, as of the page loaded again, ends the one before. A free worker serves
    whichever pane asks next.
    """

    def __init__(self, seconds: float) -> None:
        self._seconds = seconds
        self._guard = threading.Lock()
        self._places = threading.BoundedSemaphore(MOST_RUNS)
        self._free: list[Worker] = []
        self._busy: dict[tuple[str, str], Worker] = {}
        self._is_closed = False

    def prepare(self) -> None:
        """Starts a worker before one is asked."""
        with self._guard:
            if not self._is_closed:
                self._free.append(Worker())

    def ask(self, tab: str, pane: str, request: Request) -> bytes:
        """The answer, as JSON. Raises Stopped."""
        with self._guard:
            self._end_run((tab, pane))
        with self._places:
            worker = self._take((tab, pane))
            try:
                text = worker.ask(request, self._seconds)
            except Stopped:
                self._leave((tab, pane), worker, is_well=False)
                raise
            self._leave((tab, pane), worker, is_well=True)
            return text

    def close(self) -> None:
        """Ends the workers. No other one begins from then on."""
        with self._guard:
            self._is_closed = True
            for worker in [*self._busy.values(), *self._free]:
                worker.close()

    def _end_run(self, place: tuple[str, str]) -> None:
        if place in self._busy:
            self._busy[place].stop(NEWER)

    def _take(self, place: tuple[str, str]) -> Worker:
        with self._guard:
            if self._is_closed:
                raise Stopped(CLOSED)
            self._end_run(place)
            worker = self._free.pop() if self._free else Worker()
            self._busy[place] = worker
            return worker

    def _leave(self, place: tuple[str, str], worker: Worker, is_well: bool) -> None:
        """The run of a place is over. Its worker is free, or ends where it is of no more use."""
        with self._guard:
            if self._busy.get(place) is worker:
                del self._busy[place]
            if is_well and not worker.is_stopped:
                self._free.append(worker)
                return
        worker.close()
