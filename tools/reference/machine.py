"""The machine: due items, dispatch, and one tick of the head of the highest list, again and again."""
from __future__ import annotations

from typing import Callable

import message_calls
import sync_calls
import thread_calls
import time_calls
from invariants import check
from kernel import Kernel
from script import Call, Res, Rr, Script
from signals import generate, sweep
from state import (
    GREATEST_OVERRUN, CondEnd, FrameKind, Plain, Record, Server, SigCode, Thread, ThreadState, WaitKind)
from units import new_frame, take_next_unit

CALLS: dict[str, Callable[[Kernel, Thread, Call], None]] = {
    **thread_calls.CALLS, **sync_calls.CALLS, **time_calls.CALLS, **message_calls.CALLS}
CANCELLATION_POINTS = frozenset((
    "join", "testcancel", "wait", "timedwait", "sem_wait", "sem_timedwait", "nanosleep", "clock_nanosleep",
    "sigwaitinfo", "sigtimedwait", "mq_send", "mq_timedsend", "mq_receive", "mq_timedreceive"))
IDLE = "idle"
Item = tuple[int, Callable[[], None]]


class Machine(Kernel):
    """The kernel together with its clock. With `checked` each state is checked for what always holds."""

    def __init__(self, script: Script, checked: bool = False) -> None:
        super().__init__(script)
        self.checked = checked

    def run_until(self, horizon: int) -> None:
        """Ticks to the horizon, or to the end of the process where that comes before it."""
        while self.now < horizon and self.killed is None:
            self.tick()

    def tick(self) -> None:
        self.handle_due_items()
        if self.killed is None:
            self.end_instant()

    def end_instant(self) -> None:
        """What follows the due items of an instant: Close, the dispatch, Open, and one tick of the head."""
        self.close_runs()
        head = self.dispatch()
        if head is not None:
            self.open_run(self.threads[head])
        self.time = self.now + 1
        if head is not None:
            self.run_head(self.threads[head])
        self.now = self.time
        self.check()

    def check(self) -> None:
        if self.checked:
            check(self)

    # Due items

    def handle_due_items(self) -> None:
        """Due items one at a time, the least number first, each with its moves and its sweep."""
        while self.killed is None:
            due = self.due_items()
            if not due:
                return
            _, handle = min(due, key=lambda item: item[0])
            before = self.snapshot()
            handle()
            self.settle(before)
            sweep(self)
            self.check()

    def due_items(self) -> list[Item]:
        """The items due by now: refills, starts and timeouts by thread, then timers."""
        found: list[tuple[int, int, Callable[[], None]]] = []
        for thread in self.threads:
            number = thread.number
            if thread.server is not None and thread.server.pending:
                found.append((thread.server.pending[0].due, number, lambda t=thread: self.refill(t)))
            if thread.start is not None:
                found.append((thread.start, 256 + number, lambda t=thread: self.start(t, 0)))
            if thread.wait is not None and thread.wait.due is not None:
                found.append((self.due_tick(thread.wait.due), 512 + number, lambda t=thread: self.time_out(t)))
        for number, timer in enumerate(self.timers):
            if timer.due is not None:
                found.append((self.due_tick(timer.due), 768 + number, lambda k=number: self.expire(k)))
        return [(number, handle) for due, number, handle in found if due <= self.now]

    def refill(self, thread: Thread) -> None:
        server = thread.server
        was_high = server.is_high
        done = server.refill(self.now)
        self.emit("refill", thread.name, done.amount, server.capacity)
        if server.is_high and not was_high and thread.is_ready:
            self.activate_ready(thread)

    def time_out(self, thread: Thread) -> None:
        """The timeout of a wait, or the end of a sleep."""
        match thread.wait.kind:
            case WaitKind.COND:
                self.contend(thread, CondEnd.TIMEDOUT)
            case WaitKind.SLEEP:
                self.wake(thread)
            case WaitKind.SIGNAL:
                self.wake(thread, Res.AGAIN)
            case _:
                self.wake(thread, Res.TIMEDOUT)

    def expire(self, number: int) -> None:
        """A timer's signal is generated, or counted where the last one is still pending; then the next is due."""
        timer = self.timers[number]
        timer.due = self.now + timer.interval if timer.interval > 0 else None
        if any(record.timer == number for record in self.records):
            timer.extra = min(timer.extra + 1, GREATEST_OVERRUN)
        else:
            generate(self, Record(timer.kind.signal, SigCode.TIMER, timer.kind.value, timer=number))

    # Dispatch and one tick

    def close_runs(self) -> None:
        """Close: a strict server whose thread ran, and is not the head any more, plans what that run used."""
        head = self.head()
        for thread in self.threads:
            if thread.server is not None and thread.server.is_strict and thread.server.consumed > 0 and thread.number != head:
                self.plan(thread)

    def open_run(self, thread: Thread) -> None:
        """Open: a strict server at high priority whose thread begins to run is activated."""
        server = thread.server
        if server is not None and server.is_strict and server.is_high and server.consumed == 0:
            self.activate(thread)

    def dispatch(self) -> int | None:
        """The head of the highest list, with a line where it is another than before."""
        head = self.head()
        now_runs = IDLE if head is None else head
        if now_runs != self.last_dispatch:
            if head is None:
                self.emit("idle")
            else:
                self.emit("dispatch", self.threads[head].name, self.exec(self.threads[head]))
        self.last_dispatch = now_runs
        return head

    def run_head(self, thread: Thread) -> None:
        """One tick of the thread: charge, unit, moves, the rule of the tick's end, moves, sweep."""
        before = self.snapshot()
        charged = self.charge(thread)
        self.run_unit(thread)
        before = self.settle(before)
        self.end_tick(thread, charged)
        self.settle(before)
        sweep(self)

    def charge(self, thread: Thread) -> Server | None:
        """Counts the tick; the answer is the server whose capacity it made less."""
        thread.ticks += 1
        if isinstance(thread.policy, Rr):
            thread.slice += 1
        if thread.server is not None and thread.server.is_high:
            thread.server.charge(self.now)
            return thread.server
        return None

    def run_unit(self, thread: Thread) -> None:
        """One tick of the thread's unit, and its effect where that completes it."""
        if thread.frame.left == 0:
            self.take_unit(thread)
        frame = thread.frame
        frame.left -= 1
        if frame.left == 0:
            self.complete(thread, frame.unit)

    def take_unit(self, thread: Thread) -> None:
        """The next unit; an ending thread in its main frame begins its cleanups instead, or finishes."""
        if thread.ending and thread.frame.kind is FrameKind.MAIN:
            if not thread.cleanups:
                thread.frame.unit, thread.frame.left = Plain.FINISH, 1
                return
            thread.frames.append(new_frame(FrameKind.CLEANUP, self.cleanups[thread.cleanups.pop()]))
        take_next_unit(thread.frame)

    def complete(self, thread: Thread, unit: object) -> None:
        if isinstance(unit, Call):
            if unit.word in CANCELLATION_POINTS and self.cancel_acts(thread):
                self.begin_ending(thread)
            else:
                CALLS[unit.word](self, thread, unit)
        elif unit is Plain.FINISH:
            if thread.frame.kind is FrameKind.MAIN:
                self.finish(thread)
            else:
                thread.frames.pop()

    def end_tick(self, thread: Thread, charged: Server | None) -> None:
        """A charged server plans where its thread blocked or used it up; a used up slice ends."""
        if charged is not None and thread.server is charged and thread.state is ThreadState.BLOCKED:
            self.plan(thread)
        elif charged is not None and thread.server is charged and thread.is_ready and charged.capacity == 0:
            self.emit("exhaust", thread.name)
            self.plan(thread)
            if not self.owns_boosting(thread):
                self.move_later(thread)
        elif isinstance(thread.policy, Rr) and thread.slice == self.quantum:
            thread.slice = 0
            if thread.is_ready:
                self.move_later(thread)

    def plan(self, thread: Thread) -> None:
        planned = thread.server.plan(self.time)
        self.emit("plan", thread.name, planned.amount, planned.due)
