"""Scripts of a seed, of the forms that this kernel has: those of the reference's generator that fit.

The generator's scripts are drawn at the stages in turn, so that each subject comes up often. A script that asks for what the kernel has
not got, that has too little to tell, or that comes to a limit of the rig itself, is drawn again with the seed's next number.
"""
from __future__ import annotations

from forms import Stage
from generate import accepted
from reader import read
from script import Script

from .flatten import TooMany, flatten
from .known import limits_of_the_rig
from .unfit import unfit_lines
from .watched import watched

STAGES = (
    Stage.LANGUAGE, Stage.THREADS, Stage.MUTEXES, Stage.SEMAPHORES, Stage.WAITING, Stage.LIVES, Stage.SIGNALS, Stage.TIMERS, Stage.QUEUES,
    Stage.WHOLE)
FARTHEST = 60
LEAST_EVENTS = 8
#: the numbers of a seed's draws
DRAWS = 10_000


def made(seed: int, is_plain: bool = False) -> tuple[bytes, int]:
    """The script of a seed and its horizon; a plain one comes to no known difference."""
    stage = STAGES[seed % len(STAGES)]
    for draw in range(DRAWS):
        text, horizon = accepted(seed * DRAWS + draw, stage)
        horizon = min(horizon, FARTHEST)
        script = fitting(text)
        if script is not None and tells(script, horizon, is_plain):
            return text, horizon
    raise LookupError(f"no draw of seed {seed} fits")


def fitting(text: bytes) -> Script | None:
    """The script of a text that the kernel has the forms for."""
    script, _ = read(text)
    if script is None or unfit_lines(text):
        return None
    try:
        flatten(script)
    except TooMany:
        return None
    return script


def tells(script: Script, horizon: int, is_plain: bool) -> bool:
    """Whether a run has enough events, and nothing in it that would hide what the kernel does."""
    machine = watched(script, horizon)
    if len(machine.events) < LEAST_EVENTS or limits_of_the_rig() & set(machine.noted):
        return False
    return not (is_plain and machine.noted)
