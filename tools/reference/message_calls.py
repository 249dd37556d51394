"""The calls on message queues."""
from __future__ import annotations

from kernel import Kernel
from script import Call, Res
from signals import generate
from state import Message, Queue, Record, SigCode, Thread, Wait, WaitKind


def mq_send(kernel: Kernel, thread: Thread, call: Call) -> None:
    """Also with a timeout, an absolute time."""
    number, length, urgency, value = call.operands[:4]
    queue = kernel.queues[number]
    due = kernel.absolute_time(thread, call, call.operands[4]) if call.word == "mq_timedsend" else None
    message = Message(length, urgency, kernel.value_of(thread, value))
    if length > queue.kind.greatest:
        return kernel.returns(thread, call, Res.MSGSIZE)
    receiver = kernel.best_waiter(number, WaitKind.RECEIVE)
    if receiver is not None:
        kernel.returns(thread, call)
        return kernel.wake(receiver, Res.ZERO, message.value)
    if len(queue.messages) < queue.kind.depth:
        kernel.returns(thread, call)
        return put(kernel, number, message)
    if queue.kind.nonblock:
        return kernel.returns(thread, call, Res.AGAIN)
    if due is not None and kernel.has_passed(due):
        return kernel.returns(thread, call, Res.TIMEDOUT)
    kernel.block(thread, Wait(WaitKind.SEND, call, target=number, due=due, message=message))


def put(kernel: Kernel, number: int, message: Message) -> None:
    """The message is put last; one that enters an empty queue where nobody receives fires a registration."""
    queue = kernel.queues[number]
    was_empty = not queue.messages
    queue.messages.append(message)
    if was_empty:
        fire(kernel, number, queue)


def fire(kernel: Kernel, number: int, queue: Queue) -> None:
    """A registration is removed, and its signal is generated."""
    if queue.registration is not None and kernel.best_waiter(number, WaitKind.RECEIVE) is None:
        signal, value = queue.registration
        queue.registration = None
        generate(kernel, Record(signal, SigCode.MESGQ, value, queue=number))


def mq_receive(kernel: Kernel, thread: Thread, call: Call) -> None:
    """Also with a timeout, an absolute time."""
    number = call.operands[0]
    queue = kernel.queues[number]
    due = kernel.absolute_time(thread, call, call.operands[1]) if call.word == "mq_timedreceive" else None
    if queue.messages:
        message = max(queue.messages, key=lambda held: held.urgency)
        queue.messages = [held for held in queue.messages if held is not message]
        kernel.returns(thread, call, Res.ZERO, message.value)
        return take_over(kernel, number)
    if queue.kind.nonblock:
        return kernel.returns(thread, call, Res.AGAIN)
    if due is not None and kernel.has_passed(due):
        return kernel.returns(thread, call, Res.TIMEDOUT)
    kernel.block(thread, Wait(WaitKind.RECEIVE, call, target=number, due=due))


def take_over(kernel: Kernel, number: int) -> None:
    """The message of the best waiting sender enters the queue, and the sender wakes; a notification comes last."""
    queue = kernel.queues[number]
    sender = kernel.best_waiter(number, WaitKind.SEND)
    if sender is not None:
        was_empty = not queue.messages
        queue.messages.append(sender.wait.message)
        kernel.wake(sender)
        if was_empty:
            fire(kernel, number, queue)


def mq_notify(kernel: Kernel, thread: Thread, call: Call) -> None:
    number, signal, value = call.operands
    queue = kernel.queues[number]
    if queue.registration is not None or any(record.queue == number for record in kernel.records):
        return kernel.returns(thread, call, Res.BUSY)
    queue.registration = (signal, kernel.value_of(thread, value))
    kernel.returns(thread, call)


CALLS = {
    "mq_send": mq_send, "mq_timedsend": mq_send, "mq_receive": mq_receive, "mq_timedreceive": mq_receive,
    "mq_notify": mq_notify}
