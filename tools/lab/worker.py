"""The process that runs scripts for the page, one after another. The server ends it where a run takes too long.

It says `ready` once it is. Each request is a line of JSON and then the bytes of the script; each answer is a line with the number of
its bytes, and the bytes.
"""
from __future__ import annotations

import json
import resource
import sys
from pathlib import Path

TOOLS = Path(__file__).resolve().parents[1]
sys.path[:0] = [str(TOOLS), str(TOOLS / "reference")]

from lab.runs import Sources, answer  # noqa: E402

MOST_MEMORY = 3 * 1024 ** 3


def answered(request: dict[str, object], script: bytes, sources: Sources) -> bytes:
    try:
        told = answer(script, int(str(request["horizon"])), str(request["form"]), str(request["title"]), sources)
    except MemoryError:
        told = {"why": "the run needs too much memory; take a smaller horizon"}
    return json.dumps(told, separators=(",", ":")).encode()


def main() -> None:
    resource.setrlimit(resource.RLIMIT_AS, (MOST_MEMORY, MOST_MEMORY))
    sources = Sources.found()
    # One run, so that what the first one loads and prepares is there before a user waits for it.
    answer(b"thread a fifo 1 at 0\nrun 1\nend\n", 3, "picture", "", sources)
    sys.stdout.buffer.write(b"ready\n")
    sys.stdout.buffer.flush()
    while line := sys.stdin.buffer.readline():
        request = json.loads(line)
        script = sys.stdin.buffer.read(request["size"])
        text = answered(request, script, sources)
        sys.stdout.buffer.write(b"%d\n" % len(text))
        sys.stdout.buffer.write(text)
        sys.stdout.buffer.flush()


if __name__ == "__main__":
    main()
