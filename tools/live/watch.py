"""The reference, run once more with watchers: each knows places where the rules and this kernel are known to part.

What a watcher notes is the name of a known difference (known.py) and the tick from which on it may show. Nothing of the run is changed.
"""
from __future__ import annotations

from collections.abc import Callable
from contextlib import contextmanager
from typing import Any, Iterator

import machine as machine_module
import message_calls
import signals as signals_module
import time_calls
from kernel import Kernel
from machine import CANCELLATION_POINTS, Machine
from script import Call, Res, Script
from state import Record, Thread, Wait


class Watcher:
    """What happens in a run. Each method is called just before it happens, unless its name says otherwise."""

    def __init__(self, machine: Watched) -> None:
        self.machine = machine

    def note(self, name: str, at: int | None = None) -> None:
        self.machine.note(name, at)

    def before_run(self, thread: Thread) -> None:
        """The thread runs a tick."""

    def before_unit(self, thread: Thread) -> None:
        """A unit of the thread is complete, and takes effect."""

    def before_call(self, thread: Thread, call: Call) -> None:
        """A call takes effect."""

    def before_cancelled(self, thread: Thread, call: Call) -> None:
        """A request acts in the place of a call."""

    def after_call(self, thread: Thread, call: Call, answer: str | None) -> None:
        """A call has taken effect; None where it has blocked."""

    def before_block(self, thread: Thread, wait: Wait) -> None: ...

    def before_wake(self, thread: Thread, result: Res | None) -> None:
        """A call that blocked ends, with this result, or None where it is cancelled."""

    def before_timeout(self, thread: Thread) -> None: ...

    def before_contention(self, thread: Thread) -> None:
        """A thread leaves its condition and asks for its mutex."""

    def after_contention(self, thread: Thread, mutex: int) -> None: ...

    def after_release(self, mutex: int) -> None: ...

    def before_end(self, thread: Thread) -> None:
        """The thread ends."""

    def before_start(self, thread: Thread) -> None: ...

    def before_expiry(self, timer: int) -> None: ...

    def before_generation(self, record: Record) -> None: ...

    def before_delivery(self, thread: Thread) -> None:
        """A sweep comes to the thread."""

    def before_sweep(self) -> None: ...

    def after_sweep(self) -> None: ...


class Watched(Machine):
    """A machine that tells its watchers what happens."""

    def __init__(self, script: Script, kinds: list[type[Watcher]]) -> None:
        super().__init__(script)
        self.noted: dict[str, int] = {}  #: the known differences that may show, and from which tick on
        self.watchers = [kind(self) for kind in kinds]

    def note(self, name: str, at: int | None = None) -> None:
        self.noted.setdefault(name, self.time if at is None else at)

    def tell(self, what: str, *words: Any) -> None:
        for watcher in self.watchers:
            getattr(watcher, what)(*words)

    def run_until(self, horizon: int) -> None:
        with _signals_watched():
            super().run_until(horizon)

    def run_head(self, thread: Thread) -> None:
        self.tell("before_run", thread)
        super().run_head(thread)

    def complete(self, thread: Thread, unit: object) -> None:
        is_call = isinstance(unit, Call)
        cancels = is_call and unit.word in CANCELLATION_POINTS and self.cancel_acts(thread)
        seen = len(self.events)
        if is_call:
            self.tell("before_cancelled" if cancels else "before_call", thread, unit)
        self.tell("before_unit", thread)
        super().complete(thread, unit)
        if is_call and not cancels:
            self.tell("after_call", thread, unit, self.answer_since(seen, thread))

    def answer_since(self, seen: int, thread: Thread) -> str | None:
        words = [event.words for event in self.events[seen:] if event.words[:2] == ("return", thread.name)]
        return str(words[0][3]) if words else None

    def block(self, thread: Thread, wait: Wait) -> None:
        self.tell("before_block", thread, wait)
        super().block(thread, wait)

    def wake(self, thread: Thread, res: Res = Res.ZERO, value: int = 0) -> None:
        self.tell("before_wake", thread, res)
        super().wake(thread, res, value)

    def wake_cancelled(self, thread: Thread) -> None:
        self.tell("before_wake", thread, None)
        super().wake_cancelled(thread)

    def time_out(self, thread: Thread) -> None:
        self.tell("before_timeout", thread)
        super().time_out(thread)

    def contend(self, thread: Thread, end: object) -> None:
        mutex = thread.wait.mutex
        self.tell("before_contention", thread)
        super().contend(thread, end)
        self.tell("after_contention", thread, mutex)

    def release(self, number: int) -> None:
        super().release(number)
        self.tell("after_release", number)

    def start(self, thread: Thread, mask: int) -> None:
        self.tell("before_start", thread)
        super().start(thread, mask)

    def finish(self, thread: Thread) -> None:
        self.tell("before_end", thread)
        super().finish(thread)

    def expire(self, number: int) -> None:
        self.tell("before_expiry", number)
        super().expire(number)


def _told(name: str, before: str, after: str | None = None) -> Callable:
    """What stands in the place of a function of the reference while a machine is watched."""
    original = getattr(signals_module, name)

    def watched(kernel: Kernel, *words: Any) -> None:
        kernel.tell(before, *words)
        original(kernel, *words)
        if after is not None:
            kernel.tell(after)

    return watched


@contextmanager
def _signals_watched() -> Iterator[None]:
    """Signals are functions of modules, and no methods: they are replaced while a run is watched, and put back."""
    places = {
        ("generate", "before_generation", None): (signals_module, machine_module, time_calls, message_calls),
        ("sweep_thread", "before_delivery", None): (signals_module,),
        ("sweep", "before_sweep", "after_sweep"): (signals_module, machine_module)}
    kept = [(module, name, getattr(module, name)) for (name, _, _), modules in places.items() for module in modules]
    for (name, before, after), modules in places.items():
        watched = _told(name, before, after)
        for module in modules:
            setattr(module, name, watched)
    try:
        yield
    finally:
        for module, name, original in kept:
            setattr(module, name, original)
