"""The rules that are turned one at a time, each with the worked example that notices; see tools/turned_rules.py."""
from __future__ import annotations

from . import clock, facts, lives, messages, moves, servers, signals, strict, sync, timers
from .rule import Turned

RULES: list[Turned] = [
    rule for subject in (moves, servers, strict, sync, lives, signals, timers, messages, facts, clock) for rule in subject.RULES]

__all__ = ["RULES", "Turned"]
