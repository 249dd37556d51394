"""A pse52-lab that runs for a test, and what a client may send to it."""
from __future__ import annotations

import contextlib
import http.client
import os
import signal
import subprocess
import sys
import time
from pathlib import Path
from urllib.parse import urlsplit

from .waiting import LONGEST

TOP = Path(__file__).resolve().parents[3]


class Served:
    """A server of the page in a process of its own, with its address, token and port. A run may take long, where the words do not say otherwise."""

    def __init__(self, *words: str) -> None:
        # It has no stream of the test's: one that was left behind would keep whoever reads the test's output waiting.
        self._process = subprocess.Popen([sys.executable, str(TOP / "bin" / "pse52-lab"), "--seconds", "600", *words],
                                         stdout=subprocess.PIPE, stderr=subprocess.DEVNULL, text=True)
        self.link = self._process.stdout.readline().strip()
        self.address = self.link.split("#")[0]
        parts = urlsplit(self.address)
        self.port, self.token = parts.port, parts.path.strip("/")

    def end(self) -> int:
        if self._process.poll() is None:
            self._process.send_signal(signal.SIGINT)
        self._process.stdout.close()
        return self._process.wait(LONGEST)

    def end_by_many(self) -> int:
        """Ends it by signal upon signal."""
        while self._process.poll() is None:
            self._process.send_signal(signal.SIGINT)
            time.sleep(0.001)
        return self.end()

    @property
    def children(self) -> list[int]:
        """The workers, by their process ids."""
        return children_of(self._process.pid)

    def ask(self, method: str, path: str, body: bytes | None = None, **headers: str) -> tuple[int, bytes, dict[str, str]]:
        """The status, the text and the headers of an answer. A header None is not sent."""
        there = http.client.HTTPConnection("127.0.0.1", self.port, timeout=LONGEST)
        try:
            there.putrequest(method, path, skip_host="Host" in headers, skip_accept_encoding=True)
            if body is not None and "Content_Length" not in headers:
                headers["Content_Length"] = str(len(body))
            for name, value in headers.items():
                there.putheader(name.replace("_", "-"), value)
            there.endheaders()
            try:
                if body:
                    there.send(body)
            except (BrokenPipeError, ConnectionResetError):
                pass  # the server has answered before it had all
            answer = there.getresponse()
            return answer.status, answer.read(), dict(answer.getheaders())
        finally:
            there.close()

    def run(self, script: bytes, horizon: int = 20, pane: str = "a", form: str = "picture", tab: str = "", **headers: str) -> tuple[int, bytes, dict[str, str]]:
        return self.ask("POST", f"/{self.token}/run?horizon={horizon}&pane={pane}&form={form}&tab={tab}", script, **headers)


def children_of(process: int) -> list[int]:
    """The process ids of those that a process started, in whichever of its threads."""
    found: list[int] = []
    for task in Path(f"/proc/{process}/task").iterdir():
        with contextlib.suppress(FileNotFoundError, ProcessLookupError):  # a thread that has ended since
            found += map(int, (task / "children").read_text().split())
    return found


def alive(process: int) -> bool:
    try:
        os.kill(process, 0)
    except ProcessLookupError:
        return False
    return True
