"""Traces and details of scripts, by the reference."""
from __future__ import annotations

import os
import shlex
import subprocess
import sys
from functools import cache

from .worked import TOP

REFERENCE = [sys.executable, str(TOP / "tools" / "reference" / "simulate.py")]


@cache
def _answer(command: str, script: bytes, horizon: int) -> bytes:
    words = shlex.split(os.environ["PSE52"]) if "PSE52" in os.environ else REFERENCE
    ended = subprocess.run([*words, command, str(horizon)], input=script, capture_output=True, check=False)
    if ended.returncode != 0:
        raise AssertionError((command, ended.returncode, ended.stdout[:200], ended.stderr[-500:]))
    return ended.stdout


def trace_of(script: bytes, horizon: int) -> bytes:
    return _answer("run", script, horizon)


def detail_of(script: bytes, horizon: int) -> bytes:
    return _answer("detail", script, horizon)
