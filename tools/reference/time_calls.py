"""The calls on time, timers and signals."""
from __future__ import annotations

from forms import GREATEST_NUMBER
from kernel import Kernel
from script import Call, Res
from signals import Outcome, emit_delivery, generate, outcome_of, take_pending
from state import Due, Reading, Record, SigCode, Thread, Wait, WaitKind


def nanosleep(kernel: Kernel, thread: Thread, call: Call) -> None:
    ticks = call.operands[0]
    if ticks == 0:
        return kernel.returns(thread, call)
    kernel.block(thread, Wait(WaitKind.SLEEP, call, due=kernel.time + ticks))


def clock_nanosleep(kernel: Kernel, thread: Thread, call: Call) -> None:
    due = kernel.absolute_time(thread, call, call.operands[0])
    if kernel.has_passed(due):
        return kernel.returns(thread, call)
    kernel.block(thread, Wait(WaitKind.SLEEP, call, due=due))


def gettime(kernel: Kernel, thread: Thread, call: Call) -> None:
    kernel.returns(thread, call, Res.ZERO, kernel.time)


def clock_settime(kernel: Kernel, thread: Thread, call: Call) -> None:
    """CLOCK_REALTIME reads the value now, and goes on from there; nothing that is due at a tick moves."""
    value = kernel.value_of(thread, call.operands[0])
    if value > GREATEST_NUMBER:
        return kernel.returns(thread, call, Res.INVAL)
    kernel.shift = value - kernel.time
    kernel.returns(thread, call)


def real_gettime(kernel: Kernel, thread: Thread, call: Call) -> None:
    kernel.returns(thread, call, Res.ZERO, kernel.real())


def timer_settime(kernel: Kernel, thread: Thread, call: Call) -> None:
    """A first number of 0 disarms; an absolute time, which is one of the timer's clock, is due now where it has passed, and told as it was set."""
    number, first, interval = call.operands
    timer = kernel.timers[number]
    is_absolute = call.choice == "abs"
    value = kernel.value_of(thread, first) if is_absolute else first
    due: Due = value if is_absolute else kernel.time + value
    if is_absolute and timer.kind.real:
        due = Reading(value)
    timer.due = None if value == 0 else due
    timer.interval = interval
    kernel.returns(thread, call)


def timer_gettime(kernel: Kernel, thread: Thread, call: Call) -> None:
    timer = kernel.timers[call.operands[0]]
    left = 0 if timer.due is None else max(kernel.due_tick(timer.due) - kernel.time, 0)
    kernel.returns(thread, call, Res.ZERO, left)


def timer_getoverrun(kernel: Kernel, thread: Thread, call: Call) -> None:
    kernel.returns(thread, call, Res.ZERO, kernel.timers[call.operands[0]].overrun)


def send(kernel: Kernel, thread: Thread, call: Call) -> None:
    """kill, tkill and sigqueue."""
    match call.word:
        case "kill":
            record = Record(call.operands[0], SigCode.USER, 0)
        case "tkill":
            if not kernel.threads[call.operands[0]].is_live:
                return kernel.returns(thread, call, Res.SRCH)
            record = Record(call.operands[1], SigCode.USER, 0, target=call.operands[0])
        case _:
            record = Record(call.operands[0], SigCode.QUEUE, kernel.value_of(thread, call.operands[1]))
    if outcome_of(kernel, record) is Outcome.FULL:
        return kernel.returns(thread, call, Res.AGAIN)
    kernel.returns(thread, call)
    generate(kernel, record)


def sigmask(kernel: Kernel, thread: Thread, call: Call) -> None:
    signals = call.operands[0]
    match call.choice:
        case "block":
            thread.mask |= signals
        case "unblock":
            thread.mask &= ~signals
        case _:
            thread.mask = signals
    kernel.returns(thread, call)


def sigwait(kernel: Kernel, thread: Thread, call: Call) -> None:
    """sigwaitinfo, and sigtimedwait with a number of ticks."""
    signals = call.operands[0]
    ticks = call.operands[1] if call.word == "sigtimedwait" else None
    record = take_pending(kernel, thread, signals)
    if record is not None:
        emit_delivery(kernel, thread, record)
        return kernel.returns(thread, call, Res.ZERO, record.signal)
    if ticks == 0:
        return kernel.returns(thread, call, Res.AGAIN)
    due = None if ticks is None else kernel.time + ticks
    kernel.block(thread, Wait(WaitKind.SIGNAL, call, signals=signals, due=due))


CALLS = {
    "nanosleep": nanosleep, "clock_nanosleep": clock_nanosleep, "gettime": gettime,
    "clock_settime": clock_settime, "real_gettime": real_gettime,
    "timer_settime": timer_settime, "timer_gettime": timer_gettime, "timer_getoverrun": timer_getoverrun,
    "kill": send, "tkill": send, "sigqueue": send, "sigmask": sigmask,
    "sigwaitinfo": sigwait, "sigtimedwait": sigwait}
