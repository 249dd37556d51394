"""The command `pse52-lab [LINK | SCRIPT]`."""
from __future__ import annotations

import argparse
import errno
import math
import re
import secrets
import signal
import threading
import webbrowser
from pathlib import Path
from urllib.parse import quote

from command import Status, Words, carried_out, write
from view.source import GREATEST_SCRIPT, horizon_of

from .desk import Desk
from .gallery import gallery
from .parts import parts
from .server import Lab

TOOL = "pse52-lab"
ENDING = (signal.SIGINT, signal.SIGTERM)
LINK = re.compile(r"(?:https?://[^#]*)?#(.*)")
ADDRESS = re.compile(r"https?://.*")


class NoPort(Exception):
    """Why the port cannot be had."""


def seconds_of(word: str) -> float:
    """How long a run may take."""
    try:
        seconds = float(word)
    except ValueError:
        seconds = 0.0
    if not 0 < seconds < math.inf:
        raise argparse.ArgumentTypeError(f"'{word}' gives no run the time to end: a number of seconds above 0 is meant")
    return seconds


def command_of(words: list[str]) -> argparse.Namespace:
    """What the words ask for."""
    parser = Words(TOOL, "Serves a page on this machine, to write a script in and see what it does. Ctrl-C ends it.")
    parser.add_argument("link", nargs="?", metavar="LINK|SCRIPT", help="a link of a lesson, or a script, to begin with")
    parser.add_argument("--port", type=int, default=0, metavar="N", help="the port; without it a free one")
    parser.add_argument("--seconds", type=seconds_of, default=10.0, metavar="S", help="how long a run may take; without it 10")
    parser.add_argument("--plain", action="store_true", help="a plain text area, also where CodeMirror is installed")
    parser.add_argument("--open", action="store_true", help="open the page in a browser")
    return parser.read(words)


def fragment_of(said: str | None) -> str:
    """What stands behind the address to begin with: that of a link, or a script, one of the course by its name. Raises OSError."""
    if said is None:
        return ""
    link = LINK.fullmatch(said)
    if link is not None:
        return "#" + link[1]
    if ADDRESS.fullmatch(said):
        raise OSError(errno.EINVAL, "the link has no #, behind which its script stands; a shell needs a link in quotes", said)
    with open(said, "rb") as file:
        script = file.read(GREATEST_SCRIPT + 1)
    if len(script) > GREATEST_SCRIPT:
        raise OSError(errno.EFBIG, f"a script has at most {GREATEST_SCRIPT} bytes", said)
    if Path(said).stem in (example.name for example in gallery() if example.script.encode() == script):
        return f"#example={Path(said).stem}"
    horizon = horizon_of(script)
    return f"#script={quote(script.decode('utf-8', 'replace'), safe='')}" + (f"&horizon={horizon}" if horizon is not None else "")


def end(*_: object) -> None:
    """Ends the server. A second signal, as of a Ctrl-C that is pressed twice, does not come between."""
    for asked in ENDING:
        signal.signal(asked, signal.SIG_IGN)
    raise KeyboardInterrupt


def served(words: list[str]) -> int:
    """Serves the page until it is ended."""
    said = command_of(words)
    fragment = fragment_of(said.link)
    desk = Desk(said.seconds)
    try:
        lab = Lab(said.port, secrets.token_urlsafe(24), parts(said.plain), desk)
    except (OSError, OverflowError) as error:
        raise NoPort(f"the port {said.port} cannot be had: {getattr(error, 'strerror', None) or error}") from None
    for asked in ENDING:  # SIGINT too: a shell without a terminal has it ignored in the background
        signal.signal(asked, end)
    try:
        if write(TOOL, f"{lab.address}{fragment}\n") != Status.DONE:
            return Status.WRITE_FAULT
        for _ in ("a", "b"):
            threading.Thread(target=desk.prepare, daemon=True).start()
        if said.open:
            webbrowser.open(lab.address + fragment)
        lab.serve_forever()
    except KeyboardInterrupt:
        pass
    finally:
        desk.close()
    return Status.DONE


def main(words: list[str]) -> int:
    return carried_out(TOOL, lambda: served(words), {NoPort: Status.WRITE_FAULT})
