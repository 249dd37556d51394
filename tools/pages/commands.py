"""Runs each command that a page names and that needs no build of an hour, in a folder that looks like an installed release.

    python3 tools/pages/commands.py

A number, a seed, a script or a program stands where a page has N, SEED, SCRIPT or PROGRAM. With PSE52_PROGRAM in the environment the
commands run that program, and those that need one are run too; else the reference stands in.
"""
from __future__ import annotations

import os
import re
import subprocess
import sys
import tempfile
from collections.abc import Iterator
from pathlib import Path

TOP = Path(__file__).resolve().parents[2]
sys.path.insert(0, str(TOP / "tools"))

from pages.console import clone  # noqa: E402

FIRST_WORDS = ("python3 ", "bash ", "sh ", "bin/", "make ", "cp ", "mkdir ")
PLACES = {"SEED": "7", "S": "7", "N": "10", "script": "examples/one_thread.task", "SCRIPT": "examples/one_thread.task",
          "TRACE": "examples/one_thread.trace", "TASKS": "examples/21_response_times.rta"}

# What is not run here, and why.
LEFT_OUT = {
    ".ci/run": "it is the gate", "--prove": "it proves", "tools/machine_rows": "it proves",
    "tools/bench": "it measures for minutes",
    "tools/check_": "the gate runs it by itself", "tools/documents.py": "so this", "tools/turned_rules.py": "and this",
    "tools/reference/selftest.py": "and this", "check_opens": "it takes hours", "make_release.sh": "it changes the release",
    "--sshlogin": "it needs other machines", "pse52-live": "it needs root, and two cores that are free",
    "pse52-lab": "it serves until it is ended, and tools/lab/tests starts it",
    "make install": "tools/wrapper/tests installs", "make check": "this is part of it", "PAGE..": "it changes pages"}


def named() -> Iterator[str]:
    """The commands that the pages name: between back quotes, or a line of a block that has no kind."""
    pages = [*TOP.glob("*.md"), *TOP.glob("docs/*.md"), *TOP.glob("examples/*.md"), *TOP.glob("editors/*.md"), *TOP.glob("tools/*/*.md")]
    for page in sorted(pages):
        if page.name == "CHANGELOG.md":
            continue
        kind = None
        for line in page.read_text().splitlines():
            if line.startswith("```"):
                kind = line if kind is None else None
            elif kind == "```" and line.removeprefix("$ ").startswith(FIRST_WORDS):
                yield line.removeprefix("$ ")
            elif kind is None:
                yield from filter(is_command, re.findall(r"`([^`]*)`", line))


def is_command(words: str) -> bool:
    """Whether words between back quotes are a whole command: more than a name, and of bin/pse52 one with a command of its own."""
    if words.startswith("bin/pse52 "):
        return re.match(r"bin/pse52 (--\w+ )?(run|show|detail|check|rta|gen|soak|explain|--help|--version|--which)\b", words) is not None
    return words.startswith(FIRST_WORDS) and " " in words


def is_left_out(words: str) -> bool:
    return words == "python3 tools/make_examples.py" or any(part in words for part in LEFT_OUT)  # which writes the examples anew


def filled(words: str, program: str | None) -> str | None:
    """The command with its places filled and without what it may also be given, or None where it needs a program and there is none."""
    if "PROGRAM" in words and program is None:
        return None
    words = re.sub(r" \[[^]]*\]", "", words.replace("\\|", "|")).replace("--count 2000", "--count 20")
    if "tools/reference/compare" in words and "--count" not in words:
        words += " --count 20"
    return " ".join(PLACES.get(word, word) for word in words.replace("PROGRAM", program or "").split())


def main() -> int:
    program = os.environ.get("PSE52_PROGRAM")
    passed, failed = 0, 0
    commands = {words: filled(words, program) for words in set(named())}
    kept = {command for words, command in commands.items() if command is not None and not is_left_out(words)}
    for command in sorted(kept):
        with tempfile.TemporaryDirectory() as folder:
            clone(Path(folder))
            environment = dict(os.environ, HOME=folder, PSE52=f"{folder}/bin/pse52")
            ended = subprocess.run(["bash", "-o", "pipefail", "-c", command], cwd=folder, env=environment, stdin=subprocess.DEVNULL,
                                   capture_output=True, text=True, check=False, timeout=900)
        if ended.returncode == 0:
            passed += 1
        else:
            failed += 1
            print(f"{command}: failed with {ended.returncode}", *ended.stderr.splitlines()[-3:], sep="\n")
    left = sum(command not in kept for command in commands.values())
    print(f"commands: {passed} run, {failed} failed, {left} left out")
    return 1 if failed or not passed else 0


if __name__ == "__main__":
    sys.exit(main())
