"""The facts of one instant: the lists, who waits for what, owners, messages, timers, and all that a trace does not tell.

A fact has a subject, as `list 5` or `waiters m`, and words behind it; one without words is empty. The facts of a state
stand in rows, and each state of a run has the same subjects in the same order, so that two states are compared fact by
fact. A row of a state is the words of its facts; the subjects are made once.
"""
from __future__ import annotations

from itertools import groupby

from forms import ObjectKind
from kernel import Kernel
from script import Rr, Script, set_text, signal_text
from state import Frame, FrameKind, Record, Thread, ThreadState, WaitKind


Rows = list[list[str]]
PRIORITIES = range(255, 0, -1)
WAITED = ((ObjectKind.MUTEX, (WaitKind.MUTEX, WaitKind.CONTENTION)), (ObjectKind.COND, (WaitKind.COND,)),
          (ObjectKind.SEM, (WaitKind.SEM,)))
THREAD_ROWS = ("thread", "frames", "mask", "cancelability", "cleanups", "pending")


class Facts:
    """Tells the facts of the states of one run. The names are those of the script."""

    def __init__(self, script: Script, kernel: Kernel) -> None:
        self.kernel = kernel
        self.names = {kind: [named.name for named in script.objects(kind)] for kind in ObjectKind}
        self.exec_priorities: list[int] = []
        self.subjects = self.all_subjects()

    def all_subjects(self) -> Rows:
        def of(kind: ObjectKind, *words: str) -> list[str]:
            return [f"{word} {name}" for name in self.names[kind] for word in words]

        return [
            [f"list {priority}" for priority in PRIORITIES],
            *[of(ObjectKind.THREAD, word) for word in THREAD_ROWS],
            of(ObjectKind.MUTEX, "mutex"),
            *[of(kind, "waiters") for kind, _ in WAITED],
            of(ObjectKind.SEM, "sem"),
            of(ObjectKind.QUEUE, "messages"), of(ObjectKind.QUEUE, "senders", "receivers"), of(ObjectKind.QUEUE, "notify"),
            of(ObjectKind.TIMER, "timer"),
            [f"signal {signal_text(signal)}" for signal in range(32)]]

    def rows(self) -> Rows:
        """The words of all facts of the state as it is now, in the order of their subjects."""
        kernel, threads = self.kernel, self.kernel.threads
        self.exec_priorities = kernel.exec_priorities()
        queues = range(len(kernel.queues))
        return [
            [self.told(kernel.lists[priority]) if kernel.lists[priority] else "" for priority in PRIORITIES],
            [self.standing(thread) for thread in threads],
            [self.frames(thread) for thread in threads],
            [self.mask(thread) for thread in threads],
            [self.cancelability(thread) for thread in threads],
            [self.cleanups(thread) for thread in threads],
            [self.pending(thread) for thread in threads],
            [self.owner(number) for number in range(len(kernel.mutexes))],
            *[[self.waiters(number, *waits) for number in range(len(self.names[kind]))] for kind, waits in WAITED],
            [str(value) for value in kernel.sems],
            [self.messages(number) for number in queues],
            [self.waiters(number, wait) for number in queues for wait in (WaitKind.SEND, WaitKind.RECEIVE)],
            [self.notify(number) for number in queues],
            [self.timer(number) for number in range(len(kernel.timers))],
            self.signals()]

    def texts(self) -> list[str]:
        """The facts that are not empty, in order."""
        return [fact_text(subject, words) for subjects, row in zip(self.subjects, self.rows())
                for subject, words in zip(subjects, row) if words]

    def changes(self, before: Rows, after: Rows) -> list[str]:
        """The facts that differ between two states, in order."""
        return [fact_text(subject, new) for subjects, old_row, new_row in zip(self.subjects, before, after)
                if old_row != new_row for subject, old, new in zip(subjects, old_row, new_row) if old != new]

    # Threads

    def told(self, numbers: list[int]) -> str:
        """The names of threads in a given order."""
        return " ".join(self.kernel.threads[number].name for number in numbers)

    def standing(self, thread: Thread) -> str:
        """Dormant, ended, or ready or blocked with its assigned and its execution priority."""
        if not thread.is_live:
            return thread.state.value
        words = f"{thread.state.value} {self.kernel.assigned(thread)} {self.exec_priorities[thread.number]}"
        return words if thread.state is ThreadState.READY else f"{words} {self.waiting(thread)}"

    def waiting(self, thread: Thread) -> str:
        """The call in which a thread is blocked, what it waits for now, and until when where there is an end."""
        wait = thread.wait
        words = [wait.call.word, *self.awaited(thread)]
        return " ".join(words if wait.due is None else [*words, "until", str(self.kernel.due_tick(wait.due))])

    def awaited(self, thread: Thread) -> list[str]:
        wait = thread.wait
        match wait.kind:
            case WaitKind.SLEEP:
                return []
            case WaitKind.SIGNAL:
                return [set_text(wait.signals)]
            case WaitKind.MUTEX | WaitKind.CONTENTION:
                return [self.names[ObjectKind.MUTEX][wait.target]]
            case WaitKind.COND:
                return [self.names[ObjectKind.COND][wait.target]]
            case WaitKind.SEM:
                return [self.names[ObjectKind.SEM][wait.target]]
            case WaitKind.JOIN:
                return [self.kernel.threads[wait.target].name]
            case WaitKind.SEND | WaitKind.RECEIVE:
                return [self.names[ObjectKind.QUEUE][wait.target]]
        raise AssertionError(wait)

    def frames(self, thread: Thread) -> str:
        """The bodies above the main one, innermost first."""
        return " ".join(self.body_name(frame) for frame in reversed(thread.frames[1:]))

    def body_name(self, frame: Frame) -> str:
        is_signal = frame.kind is FrameKind.SIGNAL
        bodies = self.kernel.handlers if is_signal else self.kernel.cleanups
        names = self.names[ObjectKind.HANDLER if is_signal else ObjectKind.CLEANUP]
        return next(name for name, body in zip(names, bodies) if body is frame.levels[0].block)

    def mask(self, thread: Thread) -> str:
        return set_text(thread.mask) if thread.is_live and thread.mask else ""

    def cancelability(self, thread: Thread) -> str:
        if not thread.is_live:
            return ""
        held = (("requested", thread.requested), ("disabled", not thread.enabled), ("ending", thread.ending))
        return " ".join(word for word, holds in held if holds)

    def cleanups(self, thread: Thread) -> str:
        if not thread.is_live:
            return ""
        return " ".join(self.names[ObjectKind.CLEANUP][number] for number in reversed(thread.cleanups))

    def pending(self, thread: Thread) -> str:
        """Amount and due tick of each pending replenishment."""
        if thread.server is None:
            return ""
        return " ".join(f"{planned.amount} {planned.due}" for planned in thread.server.pending)

    # Objects

    def owner(self, number: int) -> str:
        mutex = self.kernel.mutexes[number]
        return "" if mutex.owner is None else f"{self.kernel.threads[mutex.owner].name} {mutex.count}"

    def waiters(self, target: int, *kinds: WaitKind) -> str:
        """Those that wait for an object, in the order of service."""
        waiting = [thread for thread in self.kernel.threads if thread.waits_in(*kinds) and thread.wait.target == target]
        waiting.sort(key=lambda thread: (-self.exec_priorities[thread.number], thread.wait.serial))
        return self.told([thread.number for thread in waiting])

    def messages(self, number: int) -> str:
        """Message priority and value of each message, the one that is received next first."""
        held = sorted(self.kernel.queues[number].messages, key=lambda message: -message.urgency)
        return " ".join(f"{message.urgency} {message.value}" for message in held)

    def notify(self, number: int) -> str:
        registration = self.kernel.queues[number].registration
        return "" if registration is None else f"{signal_text(registration[0])} {registration[1]}"

    def timer(self, number: int) -> str:
        timer = self.kernel.timers[number]
        return "" if timer.due is None else f"{self.kernel.due_tick(timer.due)} {timer.interval}"

    def signals(self) -> list[str]:
        """Of each signal code, value and target of each pending record; a record for the process has the target `*`."""
        records = sorted(self.kernel.records, key=lambda record: (record.signal, record.serial))
        found = {signal: " ".join(self.record(record) for record in some)
                 for signal, some in groupby(records, key=lambda record: record.signal)}
        return [found.get(signal, "") for signal in range(32)]

    def record(self, record: Record) -> str:
        target = "*" if record.target is None else self.kernel.threads[record.target].name
        return f"{record.code.value} {record.value} {target}"


def fact_text(subject: str, words: str) -> str:
    return f"{subject} {words}" if words else subject


def number_lines(thread: Thread) -> list[str]:
    """The numbers of a live thread: its ticks and its top frame, the rest of its unit, its slice, its server."""
    if not thread.is_live:
        return []
    frame, name = thread.frame, thread.name
    lines = [f"now {name} {thread.ticks} {frame.register} {frame.result.value} {frame.value}"]
    if frame.left >= 1:
        lines.append(f"left {name} {frame.left}")
    if isinstance(thread.policy, Rr):
        lines.append(f"slice {name} {thread.slice}")
    if thread.server is not None:
        server = thread.server
        lines.append(f"budget {name} {server.capacity} {server.consumed} {server.activation}"
                     f" {server.high_total} {server.refilled_total}")
    return lines
