"""Where scheduling, waking, cancellation and joins are known to part."""
from __future__ import annotations

from reader import policy_of
from script import Call, Res, Rr
from state import Thread, ThreadState, Wait, WaitKind

from .watch import Watched, Watcher

FOR_MUTEX = (WaitKind.MUTEX, WaitKind.CONTENTION)
ORDERED = (*FOR_MUTEX, WaitKind.COND, WaitKind.SEM, WaitKind.SEND, WaitKind.RECEIVE)


class WakeWatcher(Watcher):
    """What the rules settle as a thread wakes, this kernel settles as it runs."""

    LATE = {"timed out": "success-after-timeout", "interrupted": "interruption-seen-late"}

    def __init__(self, machine: Watched) -> None:
        super().__init__(machine)
        self.woken: dict[int, str] = {}  #: threads that woke and have not run since, and how

    def before_run(self, thread: Thread) -> None:
        self.woken.pop(thread.number, None)
        for how in self.woken.values():
            if how in self.LATE:
                self.note(self.LATE[how], self.machine.now)

    def before_wake(self, thread: Thread, result: Res | None) -> None:
        timed = result in (Res.TIMEDOUT, Res.AGAIN) and thread.wait.call.word != "timedwait"
        self.woken[thread.number] = "timed out" if timed else "interrupted" if result is Res.INTR else ""

    def before_call(self, thread: Thread, call: Call) -> None:
        if call.word == "cancel" and call.operands[0] in self.woken:
            self.note("cancel-of-woken")


class SchedulingWatcher(Watcher):
    """Priorities, policies, round robin intervals, and new threads."""

    def __init__(self, machine: Watched) -> None:
        super().__init__(machine)
        self.inside: dict[int, int] = {}  #: threads whose priority was changed, and the caller that may still stand in that call

    def before_run(self, thread: Thread) -> None:
        self.inside = {other: caller for other, caller in self.inside.items() if caller != thread.number}

    def before_unit(self, thread: Thread) -> None:
        if isinstance(thread.policy, Rr) and thread.slice == self.machine.quantum:
            self.note("slice-ends-with-a-unit")

    def before_call(self, thread: Thread, call: Call) -> None:
        match call.word:
            case "setprio":
                self.at_change(thread, self.machine.threads[call.operands[0]])
            case "setsched":
                self.at_setsched(thread, call)
            case "create":
                self.at_create(thread, self.machine.threads[call.operands[0]])
            case "lock" | "timedlock" | "trylock":
                mutex = self.machine.mutexes[call.operands[0]]
                if mutex.kind.ceiling is not None and self.inside.get(thread.number, thread.number) != thread.number:
                    self.note("ceiling-inside-setprio")

    def before_wake(self, thread: Thread, result: Res | None) -> None:
        if isinstance(thread.policy, Rr) and thread.slice > 0:
            self.note("slice-over-a-wait")

    def at_change(self, thread: Thread, other: Thread) -> None:
        """A thread gives another one a priority, from which that may run on before the call has returned."""
        if self.inside.get(other.number, thread.number) != thread.number:
            self.note("setprio-inside-setprio")
        self.inside[other.number] = thread.number
        if other.waits_in(*ORDERED):
            kinds = FOR_MUTEX if other.waits_in(*FOR_MUTEX) else (other.wait.kind,)
            if sum(one.waits_in(*kinds) and one.wait.target == other.wait.target for one in self.machine.threads) > 1:
                self.note("waiter-keeps-its-place")

    def at_setsched(self, thread: Thread, call: Call) -> None:
        other, policy = self.machine.threads[call.operands[0]], policy_of(call.choice, call.operands[1:])
        self.at_change(thread, other)
        if isinstance(other.policy, Rr) and other.slice > 0:
            self.note("setsched-keeps-the-slice")
        if not other.is_ready or self.machine.owns_boosting(other):
            return
        equals = [number for number in self.machine.lists[policy.priority] if number != other.number]
        if policy.priority == self.machine.exec(other) and equals:
            self.note("setsched-moves-nothing")
        elif policy.priority < self.machine.exec(other) and equals:
            self.note("setsched-to-the-head")

    def at_create(self, thread: Thread, created: Thread) -> None:
        """A new thread first has its creator's priority."""
        priority = self.machine.assigned(created)
        equals = self.machine.lists[priority]
        if created.state is ThreadState.DORMANT and priority < self.machine.assigned(thread) and equals:
            self.note("created-at-the-head")


class PlaceWatcher(Watcher):
    """Waiters whose priority is another one than that by which this kernel put them in a line, while others stand there too."""

    QUEUES = (WaitKind.SEND, WaitKind.RECEIVE)  #: whoever comes to one is put before all that are less urgent just then
    OTHERS = (WaitKind.MUTEX, WaitKind.COND, WaitKind.SEM)

    def __init__(self, machine: Watched) -> None:
        super().__init__(machine)
        self.places: dict[int, int] = {}  #: of each waiter the priority by which it stands

    def before_block(self, thread: Thread, wait: Wait) -> None:
        self.places[thread.number] = self.machine.exec(thread) if wait.kind in self.QUEUES else self.machine.assigned(thread)

    def before_run(self, thread: Thread) -> None:
        for waiter in self.machine.threads:
            if waiter.waits_in(*self.QUEUES):
                self.at_queue(waiter)
            elif waiter.waits_in(*self.OTHERS) and self.is_in_line(waiter) and not self.is_sorted_anew(waiter):
                self.at_line(waiter)

    def at_queue(self, waiter: Thread) -> None:
        priority = self.machine.exec(waiter)
        if not self.is_in_line(waiter):
            self.places[waiter.number] = priority
        elif priority != self.places[waiter.number]:
            self.note("waiter-keeps-its-place")

    def at_line(self, waiter: Thread) -> None:
        if self.machine.assigned(waiter) != self.places[waiter.number]:
            self.note("waiter-keeps-its-place")
        if self.machine.exec(waiter) != self.machine.base(waiter) and not waiter.waits_in(WaitKind.COND):
            self.note("boost-not-counted")

    def is_in_line(self, waiter: Thread) -> bool:
        """Whether others wait where it waits."""
        return any(other is not waiter and other.waits_in(waiter.wait.kind) and other.wait.target == waiter.wait.target
                   for other in self.machine.threads)

    def is_sorted_anew(self, waiter: Thread) -> bool:
        return waiter.waits_in(WaitKind.MUTEX) and self.machine.mutexes[waiter.wait.target].kind.inherit


class LifeWatcher(Watcher):
    """Joins."""

    def before_cancelled(self, thread: Thread, call: Call) -> None:
        if call.word == "join" and self.machine.threads[call.operands[0]].state is ThreadState.ENDED:
            self.note("join-of-ended")

    def before_call(self, thread: Thread, call: Call) -> None:
        if call.word != "join":
            return
        other = self.machine.threads[call.operands[0]]
        if other.joiner.waiting is not None and other is not thread:
            self.note("second-joiner")
