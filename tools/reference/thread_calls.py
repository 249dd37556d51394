"""The calls on threads: scheduling, creation, cancellation, joins."""
from __future__ import annotations

from kernel import Kernel
from reader import policy_of
from script import Call, Res, Sporadic
from signals import mask_of
from state import CondEnd, FrameKind, Server, Thread, ThreadState, Wait, WaitKind
from units import new_frame


def yield_(kernel: Kernel, thread: Thread, call: Call) -> None:
    kernel.returns(thread, call)
    kernel.move_later(thread)


def create(kernel: Kernel, thread: Thread, call: Call) -> None:
    target = kernel.threads[call.operands[0]]
    if target.state is not ThreadState.DORMANT:
        return kernel.returns(thread, call, Res.AGAIN)
    kernel.returns(thread, call)
    kernel.start(target, mask_of(thread))


def join(kernel: Kernel, thread: Thread, call: Call) -> None:
    target = kernel.threads[call.operands[0]]
    if target is thread:
        return kernel.returns(thread, call, Res.DEADLK)
    if target.state is ThreadState.DORMANT:
        return kernel.returns(thread, call, Res.SRCH)
    if target.joiner.joined or target.joiner.waiting is not None:
        return kernel.returns(thread, call, Res.INVAL)
    if target.state is ThreadState.ENDED:
        target.joiner.joined = True
        return kernel.returns(thread, call, Res.ZERO, target.exit_value)
    target.joiner.waiting = thread.number
    kernel.block(thread, Wait(WaitKind.JOIN, call, target=target.number))


def cancel(kernel: Kernel, thread: Thread, call: Call) -> None:
    target = kernel.threads[call.operands[0]]
    if not target.is_live:
        return kernel.returns(thread, call, Res.SRCH)
    kernel.returns(thread, call)
    target.requested = True
    if not kernel.cancel_acts(target) or target.wait is None:
        return
    match target.wait.kind:
        case WaitKind.MUTEX | WaitKind.CONTENTION:
            return
        case WaitKind.COND:
            kernel.contend(target, CondEnd.CANCELLED)
        case WaitKind.JOIN:
            kernel.threads[target.wait.target].joiner.waiting = None
            kernel.wake_cancelled(target)
        case _:
            kernel.wake_cancelled(target)


def testcancel(kernel: Kernel, thread: Thread, call: Call) -> None:
    kernel.returns(thread, call)


def setcancel(kernel: Kernel, thread: Thread, call: Call) -> None:
    thread.enabled = call.choice == "enable"
    kernel.returns(thread, call)


def push(kernel: Kernel, thread: Thread, call: Call) -> None:
    thread.cleanups.append(call.operands[0])
    kernel.returns(thread, call)


def pop(kernel: Kernel, thread: Thread, call: Call) -> None:
    cleanup = thread.cleanups.pop()
    kernel.returns(thread, call)
    if call.choice == "1":
        thread.frames.append(new_frame(FrameKind.CLEANUP, kernel.cleanups[cleanup]))


def exit_(kernel: Kernel, thread: Thread, call: Call) -> None:
    thread.ending = True
    thread.exit_value = kernel.value_of(thread, call.operands[0])


def setprio(kernel: Kernel, thread: Thread, call: Call) -> None:
    target, priority = kernel.threads[call.operands[0]], call.operands[1]
    if not target.is_live:
        return kernel.returns(thread, call, Res.SRCH)
    if isinstance(target.policy, Sporadic) and priority <= target.policy.low:
        return kernel.returns(thread, call, Res.INVAL)
    kernel.set_priority(target, priority)
    kernel.returns(thread, call)


def setsched(kernel: Kernel, thread: Thread, call: Call) -> None:
    target = kernel.threads[call.operands[0]]
    if not target.is_live:
        return kernel.returns(thread, call, Res.SRCH)
    target.policy = policy_of(call.choice, call.operands[1:])
    target.slice = 0
    is_server = isinstance(target.policy, Sporadic)
    target.server = Server(target.policy, kernel.time) if is_server else None
    kernel.returns(thread, call)
    if target.is_ready and is_server:
        kernel.activate_ready(target)
    if target.is_ready and not kernel.owns_boosting(target):
        kernel.move_later(target)


CALLS = {
    "yield": yield_, "create": create, "join": join, "cancel": cancel, "testcancel": testcancel,
    "setcancel": setcancel, "push": push, "pop": pop, "exit": exit_, "setprio": setprio, "setsched": setsched}
