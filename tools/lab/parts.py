"""What the server gives: each part by its name. A name that is not here has no file, so no path leads out of these."""
from __future__ import annotations

import json
from dataclasses import dataclass
from pathlib import Path

from .gallery import gallery

TOP = Path(__file__).resolve().parents[2]
PAGE, VIEW = Path(__file__).with_name("page"), TOP / "tools" / "view" / "page"
CODEMIRROR = Path("/usr/share/javascript/codemirror/lib")
OF_VIEW = ("page.css", "model.js", "draw.js", "servers.js", "objects.js", "tell.js", "overview.js", "more.js", "input.js")
OF_CODEMIRROR = ("codemirror.css", "codemirror.js")
KINDS = {".html": "text/html; charset=utf-8", ".css": "text/css; charset=utf-8", ".js": "text/javascript; charset=utf-8"}


@dataclass(frozen=True)
class Part:
    """A part of the page and its media type."""

    text: bytes
    kind: str


def _of(path: Path) -> Part:
    return Part(path.read_bytes(), KINDS[path.suffix])


def parts(plain: bool) -> dict[str, Part]:
    """All parts, read once. With `plain`, or where CodeMirror is not installed, the editor is a text area."""
    said = {path.name: _of(path) for path in sorted(PAGE.iterdir()) if path.suffix in KINDS}
    said |= {f"view/{name}": _of(VIEW / name) for name in OF_VIEW}
    has_editor = not plain and all((CODEMIRROR / name).is_file() for name in OF_CODEMIRROR)
    if has_editor:
        said |= {f"codemirror/{name}": _of(CODEMIRROR / name) for name in OF_CODEMIRROR}
    about = {"codemirror": has_editor, "gallery": [example.told for example in gallery()]}
    said["about.json"] = Part(json.dumps(about).encode(), "application/json")
    said[""] = said.pop("index.html")
    return said
