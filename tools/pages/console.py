"""Runs what a page tells its reader to type, and compares what is printed with what the page says.

In a block that begins with ```console a line with `$ ` is a command, and the lines up to the next one are what it prints. A line
of three points stands for any lines. A block that begins with ```task or ```toml, after a sentence that names a file in back quotes, is
the content of that file.
"""
from __future__ import annotations

import os
import re
import shutil
import subprocess
import sys
from collections.abc import Iterator
from dataclasses import dataclass, field
from pathlib import Path

TOP = Path(__file__).resolve().parents[2]
ANY = "..."


@dataclass
class Command:
    line: int
    words: str
    printed: list[str] = field(default_factory=list)


@dataclass
class File:
    line: int
    name: str
    text: str


def parts_of(page: str) -> Iterator[Command | File]:
    """The commands and files of a page, in its order."""
    kind, named, start = None, None, 0
    block: list[str] = []
    for number, line in enumerate(page.splitlines(), 1):
        if kind is None:
            opened = re.fullmatch(r"```(\w*)", line)
            if opened:
                kind, start, block = opened[1] or "plain", number, []
            else:
                named = (re.findall(r"`([\w./]+\.(?:task|toml))`", line) or [named])[-1]
        elif line == "```":
            if kind == "console":
                yield from _commands(block, start)
            elif kind in ("task", "toml") and named:
                yield File(start, named, "\n".join(block) + "\n")
            kind = None
        else:
            block.append(line)


def _commands(block: list[str], start: int) -> Iterator[Command]:
    command = None
    for number, line in enumerate(block, start + 1):
        if line.startswith("$ "):
            if command:
                yield command
            command = Command(number, line[2:])
        elif command:
            command.printed.append(line)
    if command:
        yield command


def clone(folder: Path) -> None:
    """A folder that looks like an installed release, whose program is that of PSE52_PROGRAM, or else the reference: nothing is built."""
    for name in ("docs", "tools", "tests", "editors", "completions"):
        (folder / name).symlink_to(TOP / name)
    shutil.copytree(TOP / "examples", folder / "examples", ignore=shutil.ignore_patterns("*.rows"))
    shutil.copy(TOP / "VERSION", folder / "VERSION")
    (folder / "bin").mkdir()
    shutil.copy(TOP / "bin" / "pse52", folder / "bin" / "pse52")
    for path in (TOP / "bin").iterdir():
        if path.name != "pse52":
            (folder / "bin" / path.name).symlink_to(path)
    (folder / "release").mkdir()
    program = folder / "release" / "pse52"
    named = os.environ.get("PSE52_PROGRAM")
    if named:
        shutil.copy(named, program)
        return
    program.write_text(f'#!/bin/sh\nexec python3 {TOP}/tools/pages/stand_in.py "$@"\n')
    program.chmod(0o755)


def agrees(printed: list[str], told: list[str]) -> bool:
    """Whether the lines are those of the page, where a line of points stands for any lines."""
    if ANY not in told:
        return printed == told
    at = told.index(ANY)
    rest = told[at + 1:]
    return printed[:at] == told[:at] and any(agrees(printed[k:], rest) for k in range(at, len(printed) + 1))


def faults_of(page: Path, folder: Path) -> list[str]:
    """Types the page along, in one shell, and says where it does not do what the page tells."""
    clone(folder)
    faults = []
    environment = dict(os.environ, PSE52=str(folder / "bin" / "pse52"))
    last = 0
    for part in parts_of(page.read_text()):
        if isinstance(part, File):
            (folder / part.name).parent.mkdir(parents=True, exist_ok=True)
            (folder / part.name).write_text(part.text)
            continue
        if "--plot" in part.words and shutil.which("gnuplot") is None:
            print(f"skipped: '{part.words}' of {page.name}, since gnuplot is not here", file=sys.stderr)
            continue
        ended = subprocess.run(["bash", "-c", f"(exit {last}); {part.words}"], cwd=folder, env=environment, capture_output=True,
                               text=True, check=False, timeout=600)
        last = ended.returncode
        if not agrees(ended.stdout.splitlines(), part.printed):
            faults.append(f"{page.name}:{part.line}: $ {part.words}\nprinted:\n{ended.stdout}{ended.stderr}")
    return faults
