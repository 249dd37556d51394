"""What holds of each state of the machine between two ticks."""
from __future__ import annotations

from typing import TYPE_CHECKING

from forms import GREATEST_NUMBER
from script import Guard, Rr, Sporadic
from state import (
    CANCELED, GREATEST_REGISTER, FrameKind, Plain, Reading, Replenishment, Server, SigCode, Thread, ThreadState, WaitKind)

if TYPE_CHECKING:
    from kernel import Kernel


def check(kernel: "Kernel") -> None:
    """Raises AssertionError where something that always holds does not."""
    check_clock(kernel)
    check_lists(kernel)
    check_mutexes(kernel)
    for thread in kernel.threads:
        check_server(kernel, thread)
        check_thread(kernel, thread)
    check_waits(kernel)
    check_records(kernel)


def check_clock(kernel: "Kernel") -> None:
    """CLOCK_REALTIME reads at least 0 and at most 10^18 more than the ticks; readings stand where the word `real` does."""
    assert 0 <= kernel.real() <= kernel.time + GREATEST_NUMBER, kernel.time
    held = [(wait.due, wait.call.is_real) for wait in (thread.wait for thread in kernel.threads) if wait is not None]
    held += [(timer.due, timer.kind.real) for timer in kernel.timers]
    for due, is_real in held:
        if due is not None:
            assert kernel.due_tick(due) <= CANCELED, kernel.time
        if isinstance(due, Reading):
            assert is_real and due.value <= GREATEST_REGISTER, kernel.time


def check_lists(kernel: "Kernel") -> None:
    """A runnable thread stands once, on the list of its execution priority; no other stands on any."""
    exec_priorities = kernel.exec_priorities()
    for thread in kernel.threads:
        places = [priority for priority, members in kernel.lists.items() if members
                  for _ in range(members.count(thread.number))]
        wanted = [exec_priorities[thread.number]] if thread.is_ready else []
        assert places == wanted, (kernel.now, thread.name, places)


def check_mutexes(kernel: "Kernel") -> None:
    """A free mutex is counted 0 and awaited by nobody; following waits and owners never comes back."""
    for number, mutex in enumerate(kernel.mutexes):
        waiters = [thread for thread in kernel.threads if kernel.awaited_mutex(thread) is mutex]
        assert (mutex.count == 0) == (mutex.owner is None), (kernel.now, number)
        assert mutex.owner is not None or not waiters, (kernel.now, number)
    for thread in kernel.threads:
        seen, mutex = {thread.number}, kernel.awaited_mutex(thread)
        while mutex is not None:
            assert mutex.owner not in seen, (kernel.now, thread.name)
            seen.add(mutex.owner)
            mutex = kernel.awaited_mutex(kernel.threads[mutex.owner])
        if thread.waits_in(WaitKind.COND, WaitKind.CONTENTION):
            assert all(mutex.owner != thread.number for mutex in kernel.mutexes), (kernel.now, thread.name)


def check_server(kernel: "Kernel", thread: Thread) -> None:
    """Capacity, what is pending and what is consumed add up to the budget; the due ticks rise."""
    server = thread.server
    assert (server is not None) == (thread.is_live and isinstance(thread.policy, Sporadic)), (kernel.now, thread.name)
    if server is None:
        return
    budget, period = server.parameters.budget, server.parameters.period
    dues = [planned.due for planned in server.pending]
    amounts = [planned.amount for planned in server.pending]
    assert server.capacity >= 0, (kernel.now, thread.name)
    assert server.capacity + sum(amounts) + server.consumed == budget, (kernel.now, thread.name)
    assert server.high_total == budget + server.refilled_total - server.capacity, (kernel.now, thread.name)
    assert keeps_budget(server), (kernel.now, thread.name)
    assert min(amounts, default=1) >= 1 and len(amounts) <= server.parameters.limit, (kernel.now, thread.name)
    assert dues == sorted(set(dues)) and all(due < kernel.time + period for due in dues), (kernel.now, thread.name)
    assert server.activation <= kernel.time and server.high == thread.policy.high, (kernel.now, thread.name)
    if server.consumed > 0:
        assert thread.is_ready and server.is_high and server.activation < kernel.time, (kernel.now, thread.name)
    if server.is_strict:
        assert server.consumed in (0, kernel.time - server.activation), (kernel.now, thread.name)
        assert keeps_window(server, kernel.time), (kernel.now, thread.name)


def keeps_window(server: Server, now: int) -> bool:
    """The window of one period that ends now has at most a budget of high ticks."""
    since = now - server.parameters.period
    return sum(1 for tick in server.history.high_ticks if tick >= since) <= server.parameters.budget


def keeps_budget(server: Server) -> bool:
    """The budget law over all that happened to the server since it was new.

    A plan has the high ticks since the last activation, and is due one period
    after it. What is refilled or pending is what was planned, in order.
    """
    history = server.history
    in_order = has_groups(server) if server.is_strict else has_each_plan(server)
    counted = len(history.high_ticks) == server.high_total
    return in_order and counted and all(is_due_to_activation(server, made, plan) for made, plan in history.plans)


def has_each_plan(server: Server) -> bool:
    """Each plan has its refill, at the later of the plan's due tick and its time, or is pending."""
    history = server.history
    planned = [plan for _, plan in history.plans]
    refilled = [refill for _, refill in history.refills]
    in_time = all(at == max(plan.due, made) for (at, _), (made, plan) in zip(history.refills, history.plans))
    return refilled + server.pending == planned and in_time


def has_groups(server: Server) -> bool:
    """The plans fall into groups of neighbours, one for each refill and then one for each pending replenishment.

    Each has the sum of its group's amounts, and the due tick of its last plan, at which it is refilled.
    """
    history = server.history
    plans = [plan for _, plan in history.plans]
    if any(at != refill.due for at, refill in history.refills):
        return False
    for record in [*(refill for _, refill in history.refills), *server.pending]:
        amount = 0
        while plans and amount < record.amount:
            last = plans.pop(0)
            amount += last.amount
        if amount != record.amount or last.due != record.due:
            return False
    return not plans


def is_due_to_activation(server: Server, made: int, plan: Replenishment) -> bool:
    """Whether the plan has the high ticks since the last activation before it, and its due tick."""
    activation = max(at for at in server.history.activations if at < made)
    used = sum(1 for tick in server.history.high_ticks if activation <= tick < made)
    return plan.amount == used >= 1 and plan.due == activation + server.parameters.period


def check_thread(kernel: "Kernel", thread: Thread) -> None:
    """A blocked thread waits for one thing; frames stand in their order; slices are below the quantum."""
    at = (kernel.now, thread.name)
    assert (thread.wait is not None) == (thread.state is ThreadState.BLOCKED), at
    assert not isinstance(thread.policy, Rr) or thread.slice < kernel.quantum, at
    kinds = [frame.kind for frame in thread.frames]
    order = [kind for kind in FrameKind if kind in kinds]
    assert kinds == order and (kinds[:1] == [FrameKind.MAIN]) == thread.is_live, at
    assert len(thread.cleanups) <= 8, at
    if thread.is_live and not thread.ending and thread.frames[0].unit is not Plain.FINISH:
        pushed = sum(1 for level in thread.frames[0].levels if isinstance(level.opener, Guard))
        assert len(thread.cleanups) == pushed, at


def check_waits(kernel: "Kernel") -> None:
    """Nobody waits for what is there."""
    for thread in kernel.threads:
        at = (kernel.now, thread.name)
        if thread.waits_in(WaitKind.SEM):
            assert kernel.sems[thread.wait.target] == 0, at
        if thread.waits_in(WaitKind.RECEIVE):
            assert not kernel.queues[thread.wait.target].messages, at
        if thread.waits_in(WaitKind.SEND):
            queue = kernel.queues[thread.wait.target]
            assert len(queue.messages) == queue.kind.depth, at
    bound = {(thread.wait.target, thread.wait.mutex) for thread in kernel.threads if thread.waits_in(WaitKind.COND)}
    assert len({cond for cond, _ in bound}) == len(bound), kernel.now


def check_records(kernel: "Kernel") -> None:
    """At most 64 sent signals, one per timer and one per queue are pending; serials are distinct and few."""
    sent = [record for record in kernel.records if record.code in (SigCode.USER, SigCode.QUEUE)]
    assert len(sent) <= 64, kernel.now
    for source in ("timer", "queue"):
        sources = [getattr(record, source) for record in kernel.records if getattr(record, source) is not None]
        assert len(sources) == len(set(sources)), (kernel.now, source)
    for record in kernel.records:
        assert record.queue is None or kernel.queues[record.queue].registration is None, kernel.now
    serials = [record.serial for record in kernel.records]
    waits = [thread.wait for thread in kernel.threads if thread.wait is not None]
    serials += [wait.serial for wait in waits if wait.serial is not None]
    assert len(serials) == len(set(serials)) and all(serial < kernel.next_serial for serial in serials), kernel.now
    waiting = sum(1 for thread in kernel.threads if thread.waits_in(WaitKind.COND))
    frames = sum(1 for thread in kernel.threads if thread.in_signal_frame)
    paid = 2 * kernel.time + len(kernel.records) - len(sent) + frames + 1
    assert kernel.next_serial + waiting <= paid, kernel.now
