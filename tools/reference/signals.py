"""Signals: generation, acceptance, selection, and the sweep that delivers them."""
from __future__ import annotations

from enum import Enum

from kernel import Kernel
from script import ALL_SIGNALS, Res
from state import GREATEST_PENDING, FrameKind, Record, SigCode, Thread, WaitKind
from units import new_frame

_DEFERRING = (WaitKind.MUTEX, WaitKind.CONTENTION, WaitKind.COND, WaitKind.JOIN)


class Fate(Enum):
    """The actions of a signal beside a handler."""

    KILL = "the process ends"
    IGNORE = "nothing"


class Outcome(Enum):
    """What becomes of a record that is generated."""

    ACCEPTED = "accepted"
    DISCARDED = "discarded"
    FULL = "full"
    QUEUED = "queued"


def action_of(kernel: Kernel, signal: int) -> int | Fate:
    """The number of the signal's handler, or its fate where it has none."""
    if signal not in kernel.actions:
        return Fate.KILL
    handler = kernel.actions[signal]
    return Fate.IGNORE if handler is None else handler


def acceptor(kernel: Kernel, record: Record) -> Thread | None:
    """The thread that waits for the signal and takes it."""
    waiters = [thread for thread in kernel.threads
               if thread.waits_in(WaitKind.SIGNAL) and thread.wait.signals >> record.signal & 1
               and record.target in (None, thread.number)]
    return kernel.best_of(waiters)


def outcome_of(kernel: Kernel, record: Record) -> Outcome:
    if acceptor(kernel, record) is not None:
        return Outcome.ACCEPTED
    if action_of(kernel, record.signal) is Fate.IGNORE:
        return Outcome.DISCARDED
    users = [pending for pending in kernel.records if pending.code in (SigCode.USER, SigCode.QUEUE)]
    if record.code in (SigCode.USER, SigCode.QUEUE) and len(users) >= GREATEST_PENDING:
        return Outcome.FULL
    return Outcome.QUEUED


def generate(kernel: Kernel, record: Record) -> None:
    """The record is accepted, discarded, or becomes pending; one that finds no room is dropped."""
    match outcome_of(kernel, record):
        case Outcome.ACCEPTED:
            thread = acceptor(kernel, record)
            emit_delivery(kernel, thread, record)
            kernel.wake(thread, Res.ZERO, record.signal)
        case Outcome.QUEUED:
            record.serial = kernel.take_serial()
            kernel.records.append(record)


def emit_delivery(kernel: Kernel, thread: Thread, record: Record) -> None:
    """A record is accepted by or delivered to a thread; its timer's overruns are those until now."""
    if record.timer is not None:
        timer = kernel.timers[record.timer]
        timer.overrun, timer.extra = timer.extra, 0
    kernel.emit("deliver", thread.name, f"rt{record.signal}", record.code.value, record.value)


def select(records: list[Record]) -> Record | None:
    """The record of the lowest signal and, among equals, the least serial."""
    return min(records, key=lambda record: (record.signal, record.serial), default=None)


def take_pending(kernel: Kernel, thread: Thread, signals: int) -> Record | None:
    """Takes out the selected record for the thread or the process whose signal is in the set."""
    found = select([record for record in records_for(kernel, thread) if signals >> record.signal & 1])
    if found is not None:
        kernel.records.remove(found)
    return found


def records_for(kernel: Kernel, thread: Thread) -> list[Record]:
    return [record for record in kernel.records if record.target in (None, thread.number)]


def sweep(kernel: Kernel) -> None:
    """Delivers to each thread, by number, the record that its mask lets through; settles once."""
    if not kernel.records:
        return
    before = kernel.snapshot()
    for thread in kernel.threads:
        if thread.is_live and not thread.in_signal_frame and kernel.killed is None:
            sweep_thread(kernel, thread)
    kernel.settle(before)


def sweep_thread(kernel: Kernel, thread: Thread) -> None:
    open_records = [record for record in records_for(kernel, thread) if not thread.mask >> record.signal & 1]
    if thread.waits_in(*_DEFERRING):
        open_records = [record for record in open_records if action_of(kernel, record.signal) is Fate.KILL]
    record = select(open_records)
    if record is None:
        return
    kernel.records.remove(record)
    action = action_of(kernel, record.signal)
    if action is Fate.KILL:
        kernel.killed = record.signal
        kernel.emit("killed", f"rt{record.signal}")
        return
    if thread.wait is not None:
        interrupt(kernel, thread)
    emit_delivery(kernel, thread, record)
    thread.frames.append(new_frame(FrameKind.SIGNAL, kernel.handlers[action], record.value))


def interrupt(kernel: Kernel, thread: Thread) -> None:
    """A signal ends the wait; nanosleep tells the ticks that were left."""
    left = 0
    if thread.wait.call.word == "nanosleep":
        left = max(thread.wait.due - kernel.time, 0)
    kernel.wake(thread, Res.INTR, left)


def mask_of(thread: Thread) -> int:
    """The signals that the thread masks now: all of them in a signal frame."""
    return ALL_SIGNALS if thread.in_signal_frame else thread.mask
