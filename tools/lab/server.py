"""The server of the page: on this machine alone, for who has the token, and with nothing but the parts of the page and runs of scripts."""
from __future__ import annotations

import hmac
import json
import sys
from http import HTTPStatus
from http.server import BaseHTTPRequestHandler, ThreadingHTTPServer
from urllib.parse import parse_qs, urlsplit

from command import GREATEST_TICKS
from view.source import GREATEST_SCRIPT

from .desk import PANES, Desk, Request, Stopped
from .parts import Part

ADDRESS = "127.0.0.1"
LONGEST_TAB = 40
LONGEST_TITLE = 200
FORMS = ("picture", "svg", "trace", "detail")
# Nothing is loaded from anywhere else, no script stands in a page, and no other page can hold this one.
POLICY = ("default-src 'none'; script-src 'self'; style-src 'self' 'unsafe-inline'; img-src 'self' data:; connect-src 'self'; "
          "frame-src 'self'; frame-ancestors 'self'; base-uri 'none'; form-action 'none'")
ANOTHER_TOKEN = b"The token in this address is not that of the pse52-lab that runs now. Give it the link: bin/pse52-lab 'LINK'\n"


class Lab(ThreadingHTTPServer):
    """The server, with its parts, its token and the desk where runs are asked for."""

    daemon_threads = True
    allow_reuse_address = True
    request_queue_size = 64  # connections that may wait to be taken

    def __init__(self, port: int, token: str, said: dict[str, Part], desk: Desk) -> None:
        super().__init__((ADDRESS, port), Handler)
        self.token, self.parts, self.desk = token, said, desk
        self.hosts = {f"{name}:{self.server_port}" for name in (ADDRESS, "localhost")}

    @property
    def address(self) -> str:
        return f"http://{ADDRESS}:{self.server_port}/{self.token}/"


class Handler(BaseHTTPRequestHandler):
    server: Lab
    protocol_version = "HTTP/1.1"
    server_version, sys_version = "pse52-lab", ""
    timeout = 60

    def do_GET(self) -> None:
        name = self._name()
        if name is None:
            return
        part = self.server.parts.get(name)
        if part is None:
            self._say(HTTPStatus.NOT_FOUND, b"There is no such part.\n")
        else:
            self._send(HTTPStatus.OK, part.text, part.kind)

    def do_POST(self) -> None:
        """run?horizon=N&pane=PANE&form=FORM&title=TEXT&tab=WORD with the script as its body."""
        name = self._name()
        if name is None:
            return
        if name != "run":
            self._say(HTTPStatus.NOT_FOUND, b"There is no such part.\n")
            return
        script = self._body()
        if script is None:
            return
        said = {word: values[0] for word, values in parse_qs(urlsplit(self.path).query).items()}
        horizon, pane, form, tab = said.get("horizon", ""), said.get("pane", ""), said.get("form", "picture"), said.get("tab", "")[:LONGEST_TAB]
        right = horizon.isascii() and horizon.isdigit() and len(horizon) <= 19 and int(horizon) <= GREATEST_TICKS
        if not right or pane not in PANES or form not in FORMS:
            self._say(HTTPStatus.BAD_REQUEST, b"The horizon, the pane or the form is none.\n")
            return
        try:
            text = self.server.desk.ask(tab, pane, Request(script, int(horizon), form, said.get("title", "")[:LONGEST_TITLE]))
        except Stopped as stopped:
            text = json.dumps({"why": str(stopped)}).encode()
        self._send(HTTPStatus.OK, text, "application/json")

    def _name(self) -> str | None:
        """The part that is asked for, where the request comes from this page. Else the request is answered, and this is None."""
        if self.headers.get("Host") not in self.server.hosts:
            self._say(HTTPStatus.MISDIRECTED_REQUEST, b"This server has another name.\n")
            return None
        origin = self.headers.get("Origin")
        if origin is not None and origin.removeprefix("http://") not in self.server.hosts:
            self._say(HTTPStatus.FORBIDDEN, b"Another page may not ask.\n")
            return None
        token, _, name = urlsplit(self.path).path.lstrip("/").partition("/")
        if not hmac.compare_digest(token.encode(), self.server.token.encode()):
            self._say(HTTPStatus.FORBIDDEN, ANOTHER_TOKEN)
            return None
        return name

    def _body(self) -> bytes | None:
        """The script, where it is not too long; it is not read where it is."""
        size = self.headers.get("Content-Length", "")
        if not (size.isascii() and size.isdigit()) or self.headers.get("Transfer-Encoding"):
            self._say(HTTPStatus.LENGTH_REQUIRED, b"A script comes with its length.\n")
            return None
        if len(size) > 8 or int(size) > GREATEST_SCRIPT:
            self._say(HTTPStatus.REQUEST_ENTITY_TOO_LARGE, b"A script has at most %d bytes.\n" % GREATEST_SCRIPT)
            return None
        text = self.rfile.read(int(size))
        return text if len(text) == int(size) else None

    def _say(self, status: HTTPStatus, text: bytes) -> None:
        """Answers with a sentence, and ends the connection: what was sent behind it is not read."""
        self.close_connection = True
        self._send(status, text, "text/plain; charset=utf-8")

    def _send(self, status: HTTPStatus, text: bytes, kind: str) -> None:
        self.send_response(status)
        for name, value in (
                ("Content-Type", kind), ("Content-Length", str(len(text))), ("Cache-Control", "no-store"), ("Content-Security-Policy", POLICY),
                ("X-Content-Type-Options", "nosniff"), ("Referrer-Policy", "no-referrer"), ("Cross-Origin-Resource-Policy", "same-origin")):
            self.send_header(name, value)
        if self.close_connection:
            self.send_header("Connection", "close")
        self.end_headers()
        try:
            self.wfile.write(text)
        except (BrokenPipeError, ConnectionResetError):
            self.close_connection = True

    def log_message(self, *words: object) -> None:
        """Requests are not told: their paths have the token."""

    def handle(self) -> None:
        try:
            super().handle()
        except (BrokenPipeError, ConnectionResetError):
            print("pse52-lab: the browser went away", file=sys.stderr)
