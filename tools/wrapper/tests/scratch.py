"""A checkout in a scratch folder: two small crates, the wrapper, and a program that tells how it was called."""
from __future__ import annotations

import hashlib
import os
import platform
import shutil
import subprocess
from dataclasses import dataclass
from pathlib import Path

TOP = Path(__file__).resolve().parents[3]
PROGRAM = "#!/bin/sh\necho {name}: \"$@\"\n[ \"$1\" = gen ] || cat\n[ \"$1\" != soak ] || exit 5\n"
SCRIPT = "thread a fifo 5 at 0\nrun 3\nend\n"


@dataclass(frozen=True)
class Ended:
    status: int
    out: str
    err: str


@dataclass
class Checkout:
    """The folder of a checkout."""

    top: Path

    @classmethod
    def make(cls, top: Path) -> Checkout:
        for name in ("wrapper", "command", "explain", "reference"):
            shutil.copytree(TOP / "tools" / name, top / "tools" / name, ignore=shutil.ignore_patterns("tests", "__pycache__"))
        for name in ("make_release.sh", "install.sh"):
            shutil.copy(TOP / "tools" / name, top / "tools" / name)
        (top / "bin").mkdir()
        shutil.copy(TOP / "bin" / "pse52", top / "bin" / "pse52")
        for path, text in {"VERSION": "1.2.3\n", "HANDLES": "none\n", "crates.txt": "# two\nlow:\npse52: low\nother:\n", "s.task": SCRIPT,
                           "crates/low/src/lib.rt": "low\n", "crates/low/specs/Lib.antt": "low\n", "crates/low/proofs/Lib.antt": "proof\n",
                           "crates/pse52/src/main.rt": "main\n", "crates/other/src/lib.rt": "other\n"}.items():
            (top / path).parent.mkdir(parents=True, exist_ok=True)
            (top / path).write_text(text)
        return cls(top)

    def run(self, *words: str, text: str = "", path: Path | None = None, cwd: Path | None = None, **environment: str) -> Ended:
        ended = subprocess.run([str(path or self.top / "bin" / "pse52"), *words], input=text, capture_output=True, text=True,
                               cwd=cwd or self.top, env=dict(os.environ, HOME=str(self.top / "home"), **environment), check=False)
        return Ended(ended.returncode, ended.stdout, ended.stderr)

    def sum(self, what: str) -> str:
        return subprocess.run(["sh", str(self.top / "tools/wrapper/sum.sh"), what], capture_output=True, text=True, check=True).stdout.strip()

    def write(self, path: str, text: str) -> None:
        (self.top / path).parent.mkdir(parents=True, exist_ok=True)
        (self.top / path).write_text(text)

    def put_release(self) -> None:
        """A release of the code that stands here."""
        program = PROGRAM.format(name="release")
        self.write("release/pse52", program)
        (self.top / "release/pse52").chmod(0o755)
        self.write("release/MANIFEST", f"version 1.2.3\ndate 2026-01-02\nmachine {platform.system()} {platform.machine()}\nglibc 2.34\ntoolchain t\n"
                   f"code {self.sum('code')}\nsources {self.sum('sources')}\nprogram {digest(program)}\n")

    def put_built(self) -> None:
        """A program that was proved here, with its record."""
        self.write("crates/pse52/out/pse52", PROGRAM.format(name="built"))
        (self.top / "crates/pse52/out/pse52").chmod(0o755)
        subprocess.run(["sh", str(self.top / "tools/wrapper/record.sh"), self.sum("sources")], check=True)


def digest(text: str) -> str:
    return hashlib.sha256(text.encode()).hexdigest()
