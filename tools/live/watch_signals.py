"""Where signals, timers and message queues are known to part."""
from __future__ import annotations

from script import Call
from signals import Fate, acceptor, action_of, records_for, select
from state import Record, Thread, WaitKind

from .watch import Watched, Watcher

DEFERRING = (WaitKind.MUTEX, WaitKind.CONTENTION, WaitKind.COND, WaitKind.JOIN)


class SignalWatcher(Watcher):
    """Which thread takes which signal, and when that is settled."""

    def __init__(self, machine: Watched) -> None:
        super().__init__(machine)
        self.accepting: dict[int, int] = {}  #: threads that accepted a signal of the process and have not run since
        self.delivered: dict[int, int] = {}  #: threads whose handler of such a signal has begun and that have not run since
        self.handling: set[int] = set()  #: threads whose handler has begun and that have not run since
        self.before: set[int] = set()

    def before_run(self, thread: Thread) -> None:
        self.accepting.pop(thread.number, None)
        self.delivered.pop(thread.number, None)
        self.handling.discard(thread.number)

    def before_call(self, thread: Thread, call: Call) -> None:
        if call.word in ("sigwaitinfo", "sigtimedwait"):
            self.at_wait(thread, call.operands[0])

    def after_call(self, thread: Thread, call: Call, answer: str | None) -> None:
        if call.word in ("kill", "tkill", "sigqueue") and answer == "EAGAIN":
            self.note("record-limit")

    def at_wait(self, thread: Thread, wanted: int) -> None:
        if len({record.target for record in records_for(self.machine, thread) if wanted >> record.signal & 1}) > 1:
            self.note("own-records-first")
        for taken, name in ((self.accepting, "acceptor-not-run"), (self.delivered, "handler-not-run")):
            if any(wanted >> signal & 1 and number != thread.number for number, signal in taken.items()):
                self.note(name)

    def is_open(self, thread: Thread, signal: int) -> bool:
        """Whether the thread would take the signal in a handler now."""
        return thread.is_live and not thread.in_signal_frame and not thread.mask >> signal & 1

    def before_generation(self, record: Record) -> None:
        taker = acceptor(self.machine, record)
        if record.target is None:
            waiting = [thread for thread in self.machine.threads
                       if thread.waits_in(WaitKind.SIGNAL) and thread.wait.signals >> record.signal & 1]
            takers = {thread.number for thread in self.machine.threads if self.is_open(thread, record.signal) or thread in waiting}
            if len(waiting) > 1:
                self.note("second-waiter-interrupted")
            kills = action_of(self.machine, record.signal) is Fate.KILL and taker is None
            if len(takers) > 1 and not kills:
                self.note("choice-of-thread")
            if taker is not None:
                self.accepting[taker.number] = record.signal
        if action_of(self.machine, record.signal) is Fate.IGNORE:
            self.note("ignored-stays")

    def before_delivery(self, thread: Thread) -> None:
        found = [record for record in records_for(self.machine, thread) if not thread.mask >> record.signal & 1]
        deferred = thread.waits_in(*DEFERRING)
        record = select([one for one in found if not deferred or action_of(self.machine, one.signal) is Fate.KILL])
        if record is None:
            return
        if thread.ticks == 0:
            self.note("new-thread-takes-none")
        if len({one.target for one in found}) > 1:
            self.note("own-records-first")
        if record.target is None and action_of(self.machine, record.signal) is not Fate.KILL:
            self.delivered[thread.number] = record.signal

    def in_handlers(self) -> set[int]:
        return {thread.number for thread in self.machine.threads if thread.is_live and thread.in_signal_frame}

    def before_sweep(self) -> None:
        self.before = self.in_handlers()

    def after_sweep(self) -> None:
        handling = self.in_handlers()
        self.handling |= handling - self.before
        for number, signal in self.delivered.items():
            if any(other.number != number and self.is_open(other, signal) for other in self.machine.threads):
                self.note("choice-of-thread")
        for number in handling & self.handling:
            thread = self.machine.threads[number]
            if any(not thread.mask >> record.signal & 1 for record in records_for(self.machine, thread)):
                self.note("handler-chosen-late")


class DeferredWatcher(Watcher):
    """Handlers that the rules hold back, which the runner does too unless it is told not to."""

    def before_delivery(self, thread: Thread) -> None:
        if thread.waits_in(*DEFERRING) and any(
                not thread.mask >> record.signal & 1 and action_of(self.machine, record.signal) is not Fate.KILL
                for record in records_for(self.machine, thread)):
            self.note("handler-in-a-wait")


class TimerWatcher(Watcher):
    """Timers that are set anew, or for a time that has passed."""

    def before_call(self, thread: Thread, call: Call) -> None:
        if call.word != "timer_settime":
            return
        number, first, interval = call.operands
        if any(record.timer == number for record in self.machine.records):
            self.note("settime-drops-the-signal")
        if call.choice == "abs" and 0 < self.machine.value_of(thread, first) <= self.machine.time and interval > 0:
            self.note("past-expiry-counts")


class QueueWatcher(Watcher):
    """Notifications of queues."""

    def before_call(self, thread: Thread, call: Call) -> None:
        match call.word:
            case "mq_receive" | "mq_timedreceive":
                queue = self.machine.queues[call.operands[0]]
                waits = self.machine.best_waiter(call.operands[0], WaitKind.SEND) is not None
                if len(queue.messages) == 1 and waits and queue.registration is not None:
                    self.note("notify-by-waiting-sender")
            case "mq_notify":
                number = call.operands[0]
                pending = any(record.queue == number for record in self.machine.records)
                if self.machine.queues[number].registration is None and pending:
                    self.note("notify-while-pending")
