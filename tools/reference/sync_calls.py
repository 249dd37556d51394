"""The calls on mutexes, conditions and semaphores."""
from __future__ import annotations

from kernel import Kernel
from script import Call, Res
from state import GREATEST_COUNT, GREATEST_SEM, CondEnd, Mutex, Thread, Wait, WaitKind


def above_ceiling(kernel: Kernel, thread: Thread, mutex: Mutex) -> bool:
    return mutex.kind.ceiling is not None and kernel.assigned(thread) > mutex.kind.ceiling


def closes_cycle(kernel: Kernel, thread: Thread, mutex: Mutex) -> bool:
    """Whether following owners and the mutexes they wait for leads from the mutex to the thread."""
    at: Mutex | None = mutex
    while at is not None and at.owner is not None:
        if at.owner == thread.number:
            return True
        at = kernel.awaited_mutex(kernel.threads[at.owner])
    return False


def acquired(kernel: Kernel, thread: Thread, mutex: Mutex, owned_already: Res) -> Res | None:
    """The answer of a lock that need not wait; None where another thread owns the mutex."""
    if above_ceiling(kernel, thread, mutex):
        return Res.INVAL
    if mutex.owner == thread.number:
        if not mutex.kind.recursive:
            return owned_already
        if mutex.count >= GREATEST_COUNT:
            return Res.AGAIN
        mutex.count += 1
        return Res.ZERO
    if mutex.owner is None:
        kernel.acquire(thread, mutex)
        return Res.ZERO
    return None


def lock(kernel: Kernel, thread: Thread, call: Call) -> None:
    """Also with a timeout, an absolute time."""
    number = call.operands[0]
    mutex = kernel.mutexes[number]
    due = kernel.absolute_time(thread, call, call.operands[1]) if call.word == "timedlock" else None
    answer = acquired(kernel, thread, mutex, Res.DEADLK)
    if answer is None and closes_cycle(kernel, thread, mutex):
        answer = Res.DEADLK
    if answer is None and due is not None and kernel.has_passed(due):
        answer = Res.TIMEDOUT
    if answer is not None:
        return kernel.returns(thread, call, answer)
    kernel.block(thread, Wait(WaitKind.MUTEX, call, target=number, due=due))


def trylock(kernel: Kernel, thread: Thread, call: Call) -> None:
    answer = acquired(kernel, thread, kernel.mutexes[call.operands[0]], Res.BUSY)
    kernel.returns(thread, call, Res.BUSY if answer is None else answer)


def unlock(kernel: Kernel, thread: Thread, call: Call) -> None:
    number = call.operands[0]
    mutex = kernel.mutexes[number]
    if mutex.owner != thread.number:
        return kernel.returns(thread, call, Res.PERM)
    kernel.returns(thread, call)
    if mutex.count > 1:
        mutex.count -= 1
    else:
        kernel.release(number)


def wait(kernel: Kernel, thread: Thread, call: Call) -> None:
    """Also with a timeout: one that has passed is due at the instant that ends this tick."""
    cond, number = call.operands[:2]
    mutex = kernel.mutexes[number]
    if mutex.owner != thread.number:
        return kernel.returns(thread, call, Res.PERM)
    others = [other for other in kernel.threads if other.waits_in(WaitKind.COND) and other.wait.target == cond]
    if mutex.count > 1 or any(other.wait.mutex != number for other in others):
        return kernel.returns(thread, call, Res.INVAL)
    if any(other.owner == thread.number for other in kernel.mutexes if other is not mutex):
        return kernel.returns(thread, call, Res.DEADLK)
    due = kernel.absolute_time(thread, call, call.operands[2]) if call.word == "timedwait" else None
    kernel.block(thread, Wait(WaitKind.COND, call, target=cond, mutex=number, due=due))
    kernel.release(number)


def signal(kernel: Kernel, thread: Thread, call: Call) -> None:
    kernel.returns(thread, call)
    best = kernel.best_waiter(call.operands[0], WaitKind.COND)
    if best is not None:
        kernel.contend(best, CondEnd.SIGNALLED)


def broadcast(kernel: Kernel, thread: Thread, call: Call) -> None:
    """The best waiter contends, again and again until nobody waits."""
    kernel.returns(thread, call)
    while (best := kernel.best_waiter(call.operands[0], WaitKind.COND)) is not None:
        kernel.contend(best, CondEnd.SIGNALLED)


def sem_wait(kernel: Kernel, thread: Thread, call: Call) -> None:
    """Also with a timeout, an absolute time."""
    number = call.operands[0]
    due = kernel.absolute_time(thread, call, call.operands[1]) if call.word == "sem_timedwait" else None
    if kernel.sems[number] > 0:
        kernel.sems[number] -= 1
        return kernel.returns(thread, call)
    if due is not None and kernel.has_passed(due):
        return kernel.returns(thread, call, Res.TIMEDOUT)
    kernel.block(thread, Wait(WaitKind.SEM, call, target=number, due=due))


def sem_trywait(kernel: Kernel, thread: Thread, call: Call) -> None:
    number = call.operands[0]
    if kernel.sems[number] == 0:
        return kernel.returns(thread, call, Res.AGAIN)
    kernel.sems[number] -= 1
    kernel.returns(thread, call)


def sem_getvalue(kernel: Kernel, thread: Thread, call: Call) -> None:
    kernel.returns(thread, call, Res.ZERO, kernel.sems[call.operands[0]])


def sem_post(kernel: Kernel, thread: Thread, call: Call) -> None:
    number = call.operands[0]
    best = kernel.best_waiter(number, WaitKind.SEM)
    if best is not None:
        kernel.returns(thread, call)
        return kernel.wake(best)
    if kernel.sems[number] >= GREATEST_SEM:
        return kernel.returns(thread, call, Res.OVERFLOW)
    kernel.sems[number] += 1
    kernel.returns(thread, call)


CALLS = {
    "lock": lock, "timedlock": lock, "trylock": trylock, "unlock": unlock, "wait": wait, "timedwait": wait,
    "signal": signal, "broadcast": broadcast, "sem_wait": sem_wait, "sem_timedwait": sem_wait,
    "sem_trywait": sem_trywait, "sem_getvalue": sem_getvalue, "sem_post": sem_post}
