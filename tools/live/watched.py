"""The reference's run with all watchers: which known differences a script comes to, and when."""
from __future__ import annotations

from script import Script

from .watch import Watched, Watcher
from .watch_mutexes import ConditionWatcher, MutexWatcher, SemaphoreWatcher
from .watch_signals import DeferredWatcher, QueueWatcher, SignalWatcher, TimerWatcher
from .watch_threads import LifeWatcher, PlaceWatcher, SchedulingWatcher, WakeWatcher

WATCHERS: list[type[Watcher]] = [
    MutexWatcher, ConditionWatcher, SemaphoreWatcher, WakeWatcher, SchedulingWatcher, PlaceWatcher, LifeWatcher, SignalWatcher, TimerWatcher,
    QueueWatcher]


def watched(script: Script, horizon: int, handlers_in_waits: bool = False) -> Watched:
    """The reference's run to the horizon, with all that is known noted."""
    machine = Watched(script, [*WATCHERS, DeferredWatcher] if handlers_in_waits else WATCHERS)
    machine.run_until(horizon)
    return machine
