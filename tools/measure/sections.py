"""The sections of mutexes in the bodies of threads: which mutexes a thread owns in each tick of its body, at most.

Each lock is taken to come true, so what a thread owns is never more than is told.
"""
from __future__ import annotations

from dataclasses import dataclass

from .tasks import (
    LOCKS, WAITING, Block, Call, Costs, Guard, Loop, MutexKind, NoTask, ObjectKind, Script, Step, Test, handler_of, mutex_calls)

# How often a thread has locked each mutex that it owns.
Owned = dict[int, int]


@dataclass(frozen=True)
class Stretch:
    """Ticks that a thread runs, and the mutexes that it owns there."""

    ticks: int
    owned: frozenset[int]


@dataclass(frozen=True)
class Perhaps:
    """What a test leaves out where it does not come true: then the thread keeps what it owned in front of it."""

    found: list[Stretch | Perhaps]


Stretches = list[Stretch | Perhaps]


def mutexes(script: Script) -> list[tuple[str, MutexKind]]:
    return [(named.name, named.kind) for named in script.objects(ObjectKind.MUTEX)]


def stretches_of(script: Script, name: str, shared: frozenset[int]) -> Stretches:
    """The ticks of a thread's body with the mutexes that it owns in each. `shared` are those that others lock too.

    Raises NoTask where they cannot be told, or where the thread may wait while it owns one.
    """
    kind = next(named.kind for named in script.objects(ObjectKind.THREAD) if named.name == name)
    found, owned = _Sections(script, shared).block(kind.body, {})
    if owned:
        raise NoTask("it ends while it owns a mutex")
    return found


def ticks_of(part: Stretch | Perhaps) -> int:
    """The ticks of a part, where each test comes true."""
    return part.ticks if isinstance(part, Stretch) else sum(map(ticks_of, part.found))


class _Sections:
    """Goes over the steps of one body."""

    def __init__(self, script: Script, shared: frozenset[int]) -> None:
        self._script, self._shared = script, shared
        self._kinds = [kind for _, kind in mutexes(script)]
        self._costs = Costs(script)

    def block(self, block: Block, owned: Owned) -> tuple[Stretches, Owned]:
        """The stretches of a block that begins with these mutexes, and what is owned behind it."""
        found: Stretches = []
        for step in block:
            more, owned = self._step(step, owned)
            found += more
        return found, owned

    def _step(self, step: Step, owned: Owned) -> tuple[Stretches, Owned]:
        if isinstance(step, Call):
            return self._plain(1, owned), self._behind(step, owned)
        if isinstance(step, Guard):
            return self._guard(step, owned)
        if not isinstance(step, (Test, Loop)):
            return self._plain(self._costs.step(step), owned), owned
        if not owned and not any(mutex_calls(self._script, step.body)):
            return [], owned
        found, behind = self.block(step.body, owned)
        if behind != owned:
            raise NoTask("a section of a mutex does not end in the block in which it begins")
        return self._passes(step, found, owned), owned

    def _passes(self, step: Test | Loop, found: Stretches, owned: Owned) -> Stretches:
        """All passes of a block: the first, those between with the jumps as one stretch of what is owned all the time, and the last."""
        if isinstance(step, Test):
            return [Perhaps(found)]
        if step.times == 1:
            return found
        if step.times is None and owned:
            raise NoTask("a loop has no end while it owns a mutex")
        if not owned:
            return found
        ticks = sum(map(ticks_of, found))
        return [*found, *self._plain(step.times - 1 + (step.times - 2) * ticks, owned), *found]

    def _guard(self, step: Guard, owned: Owned) -> tuple[Stretches, Owned]:
        """The push, the block, the pop, and the cleanup handler with its end where the pop runs it."""
        found, behind = self.block(step.body, owned)
        found = [*self._plain(1, owned), *found, *self._plain(1, behind)]
        handler = handler_of(self._script, step)
        if handler is None:
            return found, behind
        more, behind = self.block(handler, behind)
        return [*found, *more, *self._plain(1, behind)], behind

    def _plain(self, ticks: int, owned: Owned) -> Stretches:
        return [Stretch(ticks, frozenset(owned))]

    def _behind(self, call: Call, owned: Owned) -> Owned:
        """What is owned behind a call."""
        if call.word in LOCKS:
            mutex = call.operands[0]
            if call.word != "trylock" and mutex in self._shared and self._kinds[mutex].ceiling is None and self._ceilings(owned):
                raise NoTask(f"it may wait in '{call.word}' while it owns a mutex with a ceiling")
            return {**owned, mutex: owned.get(mutex, 0) + 1 if self._kinds[mutex].recursive else 1}
        if call.word == "unlock":
            mutex, count = call.operands[0], owned.get(call.operands[0], 0) - 1
            return {number: times for number, times in (owned | {mutex: count}).items() if times > 0}
        if call.word in WAITING and owned:
            raise NoTask(f"it waits in '{call.word}' while it owns a mutex")
        return owned

    def _ceilings(self, owned: Owned) -> bool:
        return any(self._kinds[mutex].ceiling is not None for mutex in owned)
