"""Where mutexes, conditions and semaphores are known to part."""
from __future__ import annotations

from state import Mutex, Thread, Wait, WaitKind
from script import Call, Res
from sync_calls import above_ceiling, closes_cycle

from .watch import Watched, Watcher

FOR_MUTEX = (WaitKind.MUTEX, WaitKind.CONTENTION)


class MutexWatcher(Watcher):
    """Locks, unlocks, and mutexes whose owner has changed and has not run since."""

    def __init__(self, machine: Watched) -> None:
        super().__init__(machine)
        self.handed: dict[int, tuple[int, str]] = {}  #: mutexes whose new owner has not run yet, and what a use of them shows

    def before_run(self, thread: Thread) -> None:
        self.handed = {mutex: (owner, name) for mutex, (owner, name) in self.handed.items() if owner != thread.number}

    def before_call(self, thread: Thread, call: Call) -> None:
        if call.word not in ("lock", "timedlock", "trylock"):
            return
        number = call.operands[0]
        mutex = self.machine.mutexes[number]
        self.touch(number)
        owned = mutex.owner == thread.number
        if call.word == "trylock":
            if owned and mutex.kind.boosting and not mutex.kind.recursive:
                self.note("trylock-of-own")
            return
        if not owned and mutex.owner is not None:
            self.at_wait(thread, call, mutex)
        if owned and above_ceiling(self.machine, thread, mutex):
            self.note("ceiling-of-own")

    def at_wait(self, thread: Thread, call: Call, mutex: Mutex) -> None:
        """The mutex is another thread's."""
        if closes_cycle(self.machine, thread, mutex):
            self.note("closed-cycle")
        if not self.machine.threads[mutex.owner].is_live:
            self.note("dead-owner")
        if call.word == "timedlock" and mutex.kind.ceiling is not None:
            self.note("ceiling-after-timeout")

    def touch(self, number: int) -> None:
        """Somebody asks for a mutex that its new owner would still have to take."""
        if number in self.handed:
            self.note(self.handed[number][1])

    def after_release(self, mutex: int) -> None:
        owner = self.machine.mutexes[mutex].owner
        if owner is not None:
            self.handed[mutex] = (owner, "no-hand-over")

    def before_contention(self, thread: Thread) -> None:
        number = thread.wait.mutex
        mutex = self.machine.mutexes[number]
        self.touch(number)
        priorities = self.machine.exec_priorities()
        above = max([priorities[other.number] for other in self.machine.threads if other.is_ready], default=0)
        if priorities[thread.number] <= above and (mutex.owner is not None or mutex.kind.ceiling is not None):
            self.note("mutex-after-condition")
        if mutex.kind.ceiling is not None and self.others_for(thread, number):
            self.note("ceiling-waiters-by-age")

    def after_contention(self, thread: Thread, mutex: int) -> None:
        if self.machine.mutexes[mutex].owner == thread.number:
            self.handed[mutex] = (thread.number, "mutex-after-condition")

    def others_for(self, thread: Thread, number: int) -> bool:
        """Whether other threads wait for the mutex."""
        return any(other is not thread and other.waits_in(*FOR_MUTEX) and other.wait.target == number
                   for other in self.machine.threads)

    def before_block(self, thread: Thread, wait: Wait) -> None:
        mutex = self.machine.mutexes[wait.target] if wait.kind is WaitKind.MUTEX else None
        orders_by_own_priority = wait.kind is WaitKind.SEM or mutex is not None and not mutex.kind.inherit
        if orders_by_own_priority and self.machine.exec(thread) != self.machine.assigned(thread):
            self.note("boost-not-counted")
        if mutex is not None and mutex.kind.ceiling is not None and self.others_for(thread, wait.target):
            self.note("ceiling-waiters-by-age")

    def before_timeout(self, thread: Thread) -> None:
        if thread.waits_in(WaitKind.MUTEX) and self.machine.mutexes[thread.wait.target].kind.inherit:
            self.note("boost-after-timeout")

    def before_end(self, thread: Thread) -> None:
        if any(mutex.owner == thread.number and self.others_for(thread, number)
               for number, mutex in enumerate(self.machine.mutexes)):
            self.note("dead-owner")


class ConditionWatcher(Watcher):
    """Conditions, and the two groups of waiters in which glibc keeps them."""

    def __init__(self, machine: Watched) -> None:
        super().__init__(machine)
        self.older: dict[int, set[int]] = {}  #: of each condition the group of waiters that glibc serves first
        self.past: set[int] = set()  #: threads in a timed wait whose time had passed when it was called

    def before_call(self, thread: Thread, call: Call) -> None:
        match call.word:
            case "signal":
                self.at_signal(call.operands[0])
            case "timedwait":
                if self.machine.value_of(thread, call.operands[2]) <= self.machine.time:
                    self.past.add(thread.number)
            case "cancel":
                self.at_cancel(self.machine.threads[call.operands[0]])

    def before_contention(self, thread: Thread) -> None:
        """Equals that are ready by now, also those that woke in the same instant, run before a thread that blocked."""
        if thread.number in self.past and self.machine.lists[self.machine.exec(thread)]:
            self.note("past-timedwait")
        self.past.discard(thread.number)

    def before_cancelled(self, thread: Thread, call: Call) -> None:
        if call.word in ("wait", "timedwait"):
            self.note("cancel-at-wait")

    def after_call(self, thread: Thread, call: Call, answer: str | None) -> None:
        if call.word in ("wait", "timedwait") and answer in ("EINVAL", "EDEADLK"):
            self.note("wait-unchecked")

    def waiters(self, cond: int) -> set[int]:
        return {thread.number for thread in self.machine.threads if thread.waits_in(WaitKind.COND) and thread.wait.target == cond}

    def at_signal(self, cond: int) -> None:
        waiting = self.waiters(cond)
        if not self.older.get(cond, set()) & waiting:
            self.older[cond] = waiting
        best = self.machine.best_waiter(cond, WaitKind.COND)
        if best is not None and best.number not in self.older[cond]:
            self.note("signal-to-older-group")

    def at_cancel(self, other: Thread) -> None:
        acts = other.waits_in(WaitKind.COND) and other.enabled and not other.ending
        if acts and len(self.waiters(other.wait.target)) > 1:
            self.note("cancel-reorders-waiters")


class SemaphoreWatcher(Watcher):
    """Semaphores, and the posts that nobody has taken yet."""

    def __init__(self, machine: Watched) -> None:
        super().__init__(machine)
        self.posted: dict[int, set[int]] = {}  #: of each semaphore the threads that a post woke and that have not run yet

    def before_run(self, thread: Thread) -> None:
        for woken in self.posted.values():
            woken.discard(thread.number)

    def before_call(self, thread: Thread, call: Call) -> None:
        if call.word in ("sem_wait", "sem_timedwait", "sem_trywait", "sem_getvalue") and self.posted.get(call.operands[0]):
            self.note("posted-value")

    def after_call(self, thread: Thread, call: Call, answer: str | None) -> None:
        if call.word == "sem_post" and answer == Res.OVERFLOW.value:
            self.note("semaphore-limit")

    def before_wake(self, thread: Thread, result: Res | None) -> None:
        if thread.waits_in(WaitKind.SEM) and result is Res.ZERO:
            self.posted.setdefault(thread.wait.target, set()).add(thread.number)
