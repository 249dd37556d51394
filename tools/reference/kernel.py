"""The state of the machine, and the changes of which the effects of calls and due items are made."""
from __future__ import annotations

from dataclasses import replace

from forms import ObjectKind
from script import Call, Fifo, Operand, Res, Rr, Script, Sporadic
from state import (
    CANCELED, CondEnd, Due, Event, FrameKind, Mutex, Queue, Reading, Record, Server, Thread, ThreadState, Timer, Wait, WaitKind)
from units import new_frame

Snapshot = list[tuple[bool, int]]


class Kernel:
    """The state: plain lists of threads, objects and pending signals, and what happened so far.

    `now` is the instant; `time` is the time of what happens, which within a
    tick is the instant that ends it. CLOCK_REALTIME reads `shift` more than that.
    """

    def __init__(self, script: Script) -> None:
        self.now = 0
        self.time = 0
        self.shift = 0
        self.last_dispatch: int | str | None = None
        self.next_serial = 0
        self.killed: int | None = None
        self.quantum = script.quantum
        self.lists: dict[int, list[int]] = {priority: [] for priority in range(1, 256)}
        self.threads = [Thread(number, named.name, named.kind.policy, named.kind.start, named.kind.body)
                        for number, named in enumerate(script.objects(ObjectKind.THREAD))]
        self.handlers = [named.kind.body for named in script.objects(ObjectKind.HANDLER)]
        self.cleanups = [named.kind.body for named in script.objects(ObjectKind.CLEANUP)]
        self.mutexes = [Mutex(named.kind) for named in script.objects(ObjectKind.MUTEX)]
        self.protecting = [mutex for mutex in self.mutexes if mutex.kind.ceiling is not None]
        self.sems = [named.kind.value for named in script.objects(ObjectKind.SEM)]
        self.queues = [Queue(named.kind) for named in script.objects(ObjectKind.QUEUE)]
        self.timers = [Timer(named.kind) for named in script.objects(ObjectKind.TIMER)]
        self.actions = script.actions()
        self.records: list[Record] = []
        self.events: list[Event] = []
        self.direct: list[int] = []

    # What happened

    def emit(self, *words: str | int) -> None:
        self.events.append(Event(self.time, words))

    def take_serial(self) -> int:
        self.next_serial += 1
        return self.next_serial - 1

    # Clocks

    def real(self) -> int:
        """What CLOCK_REALTIME reads."""
        return self.time + self.shift

    def due_tick(self, due: Due) -> int:
        """When something is due as the clocks stand; what is due at a reading that has come is due now."""
        if not isinstance(due, Reading):
            return due
        return self.time if self.real() >= due.value else self.time + due.value - self.real()

    def absolute_time(self, thread: Thread, call: Call, operand: Operand) -> Due:
        """A time of the call on its clock."""
        value = self.value_of(thread, operand)
        return Reading(value) if call.is_real else value

    def has_passed(self, due: Due) -> bool:
        """Whether the clock of a time reads at least that time."""
        return self.due_tick(due) <= self.time

    # Priorities

    def assigned(self, thread: Thread) -> int:
        """The priority of the thread itself: for one with a server high or low, by that."""
        if not isinstance(thread.policy, Sporadic):
            return thread.policy.priority
        if thread.is_live and thread.server.is_high:
            return thread.server.high
        return thread.policy.low

    def base(self, thread: Thread) -> int:
        """The greatest of the assigned priority and the ceilings of the mutexes that the thread owns."""
        ceilings = [mutex.kind.ceiling for mutex in self.protecting if mutex.owner == thread.number]
        return max([self.assigned(thread), *ceilings])

    def exec(self, thread: Thread) -> int:
        """The execution priority of one thread."""
        return self.exec_priorities()[thread.number]

    def exec_priorities(self) -> list[int]:
        """Of each thread the greatest base of itself and of all that wait, along inherit mutexes, for it."""
        bases = [self.base(thread) for thread in self.threads]
        found = list(bases)
        for thread in self.threads:
            if thread.wait is not None:
                for number in self.lends_to(thread):
                    found[number] = max(found[number], bases[thread.number])
        return found

    def lends_to(self, thread: Thread) -> list[int]:
        """The thread, the owner of the inherit mutex for which it waits, and so on from owner to owner."""
        path: list[int] = []
        at: int | None = thread.number
        while at is not None and at not in path:
            path.append(at)
            mutex = self.awaited_mutex(self.threads[at])
            at = mutex.owner if mutex is not None and mutex.kind.inherit else None
        return path

    def awaited_mutex(self, thread: Thread) -> Mutex | None:
        """The mutex that the thread waits or contends for."""
        if thread.waits_in(WaitKind.MUTEX, WaitKind.CONTENTION):
            return self.mutexes[thread.wait.target]
        return None

    def owns_boosting(self, thread: Thread) -> bool:
        return any(mutex.owner == thread.number and mutex.kind.boosting for mutex in self.mutexes)

    # The lists

    def snapshot(self) -> Snapshot:
        """Of each thread whether it is runnable, and its execution priority."""
        return [(thread.is_ready, priority) for thread, priority in zip(self.threads, self.exec_priorities())]

    def move_later(self, thread: Thread) -> None:
        """A direct move: the thread goes to the tail of its list when the effect is whole."""
        if thread.number in self.direct:
            self.direct.remove(thread.number)
        self.direct.append(thread.number)

    def settle(self, before: Snapshot) -> Snapshot:
        """Carries out the moves of what happened since `before`: direct ones, then those whose priority changed."""
        after = self.snapshot()
        if after == before and not self.direct:
            return after
        for members in filter(None, self.lists.values()):
            members[:] = [number for number in members if after[number][0]]
        direct = [number for number in self.direct if after[number][0]]
        for number in direct:
            self.take_from_lists(number)
            self.lists[after[number][1]].append(number)
        for number, ((was_ready, old), (is_ready, new)) in enumerate(zip(before, after)):
            if was_ready and is_ready and old != new and number not in direct:
                self.take_from_lists(number)
                self.lists[new].insert(len(self.lists[new]) if new > old else 0, number)
        self.direct = []
        return after

    def take_from_lists(self, number: int) -> None:
        for members in self.lists.values():
            if number in members:
                members.remove(number)

    def head(self) -> int | None:
        """The first thread of the highest list that is not empty."""
        return next((self.lists[priority][0] for priority in range(255, 0, -1) if self.lists[priority]), None)

    # Waiting

    def best_waiter(self, target: int | None, *kinds: WaitKind) -> Thread | None:
        """Of the threads that wait for an object, the one of greatest priority and, among equals, least serial."""
        waiters = [thread for thread in self.threads if thread.waits_in(*kinds) and thread.wait.target == target]
        return self.best_of(waiters)

    def best_of(self, waiters: list[Thread]) -> Thread | None:
        exec_priorities = self.exec_priorities()
        return min(waiters, key=lambda thread: (-exec_priorities[thread.number], thread.wait.serial), default=None)

    def block(self, thread: Thread, wait: Wait) -> None:
        """The thread waits; a wait for an object takes a serial, a sleep and a join take none."""
        if wait.kind not in (WaitKind.SLEEP, WaitKind.JOIN):
            wait.serial = self.take_serial()
        thread.state = ThreadState.BLOCKED
        thread.wait = wait

    def returns(self, thread: Thread, call: Call, res: Res = Res.ZERO, value: int = 0) -> None:
        """The call ends with this result and value."""
        thread.frame.result = res
        thread.frame.value = value
        self.emit("return", thread.name, call.word, res.value, value)

    def wake(self, thread: Thread, res: Res = Res.ZERO, value: int = 0) -> None:
        """A blocked thread becomes runnable, and its call ends."""
        call = thread.wait.call
        self.make_ready(thread)
        self.returns(thread, call, res, value)
        self.activate_ready(thread)

    def wake_cancelled(self, thread: Thread) -> None:
        """A blocked thread becomes runnable and begins to end."""
        self.make_ready(thread)
        self.begin_ending(thread)
        self.activate_ready(thread)

    def make_ready(self, thread: Thread) -> None:
        thread.state = ThreadState.READY
        thread.wait = None
        thread.slice = 0
        self.move_later(thread)

    def activate_ready(self, thread: Thread) -> None:
        """A sporadic server whose thread is ready at high priority is activated; a strict one is when its thread runs."""
        if thread.server is not None and thread.server.is_high and not thread.server.is_strict:
            self.activate(thread)

    def activate(self, thread: Thread) -> None:
        """The present instant is the activation time of the thread's server."""
        thread.server.activate(self.time)
        self.emit("activate", thread.name, thread.server.capacity)

    # Mutexes

    def acquire(self, thread: Thread, mutex: Mutex) -> None:
        mutex.owner = thread.number
        mutex.count = 1

    def release(self, number: int) -> None:
        """The mutex goes to its best waiter, or is free."""
        mutex = self.mutexes[number]
        best = self.best_waiter(number, WaitKind.MUTEX, WaitKind.CONTENTION)
        if best is None:
            mutex.owner, mutex.count = None, 0
        else:
            self.acquire(best, mutex)
            self.end_mutex_wait(best)

    def contend(self, thread: Thread, end: CondEnd) -> None:
        """A thread leaves its condition and asks for its mutex again."""
        number, call = thread.wait.mutex, thread.wait.call
        mutex = self.mutexes[number]
        thread.wait = Wait(WaitKind.CONTENTION, call, target=number, end=end)
        if mutex.owner is None:
            self.acquire(thread, mutex)
            self.end_mutex_wait(thread)
        else:
            thread.wait.serial = self.take_serial()

    def end_mutex_wait(self, thread: Thread) -> None:
        """A thread that now owns the mutex for which it waited or contended wakes."""
        if thread.wait.end is CondEnd.CANCELLED:
            self.wake_cancelled(thread)
        else:
            self.wake(thread, Res.TIMEDOUT if thread.wait.end is CondEnd.TIMEDOUT else Res.ZERO)

    # Threads

    def value_of(self, thread: Thread, operand: Operand) -> int:
        return thread.frame.register if operand.number is None else operand.number

    def start(self, thread: Thread, mask: int) -> None:
        """A dormant thread begins with its main frame and, where its policy has one, a new server."""
        thread.state = ThreadState.READY
        thread.start = None
        thread.slice = 0
        thread.mask = mask
        thread.frames = [new_frame(FrameKind.MAIN, thread.body)]
        self.move_later(thread)
        self.emit("start", thread.name)
        if isinstance(thread.policy, Sporadic):
            thread.server = Server(thread.policy, self.time)
            self.activate_ready(thread)

    def cancel_acts(self, thread: Thread) -> bool:
        """Whether a request would act in this thread at a cancellation point."""
        return thread.requested and thread.enabled and not thread.ending

    def begin_ending(self, thread: Thread) -> None:
        """A cancellation request acts: the thread is ending."""
        self.emit("cancel", thread.name)
        thread.ending = True
        thread.exit_value = CANCELED

    def finish(self, thread: Thread) -> None:
        """The main frame is done: the thread is ended. Mutexes that it owns stay owned."""
        thread.state = ThreadState.ENDED
        thread.frames = []
        thread.server = None
        self.emit("exit", thread.name)
        self.records = [record for record in self.records if record.target != thread.number]
        if thread.joiner.waiting is not None:
            joiner = self.threads[thread.joiner.waiting]
            thread.joiner.waiting, thread.joiner.joined = None, True
            self.wake(joiner, Res.ZERO, thread.exit_value)

    def set_priority(self, thread: Thread, priority: int) -> None:
        """A new priority for the thread; for one with a server it is the high one, and its server goes on."""
        match thread.policy:
            case Fifo():
                thread.policy = Fifo(priority)
            case Rr():
                thread.policy = Rr(priority)
            case Sporadic() as parameters:
                thread.policy = replace(parameters, high=priority)
                thread.server.high = priority
