"""Rules of message queues."""
from __future__ import annotations

from .rule import Turned

RULES = [
    Turned("a message that is too long is refused only where there is room", "message_calls.py",
           "    if length > queue.kind.greatest:\n        return kernel.returns(thread, call, Res.MSGSIZE)\n"
           "    receiver = kernel.best_waiter(number, WaitKind.RECEIVE)\n",
           "    receiver = kernel.best_waiter(number, WaitKind.RECEIVE)\n"
           "    if length > queue.kind.greatest and receiver is None and len(queue.messages) < queue.kind.depth:\n"
           "        return kernel.returns(thread, call, Res.MSGSIZE)\n", "too_long_before_everything"),
    Turned("a message of the greatest length is too long", "message_calls.py",
           "length > queue.kind.greatest", "length >= queue.kind.greatest", "too_long_before_everything"),
    Turned("a queue holds one message more", "message_calls.py",
           "len(queue.messages) < queue.kind.depth", "len(queue.messages) <= queue.kind.depth",
           "full_queue_takes_from_the_sender"),
    Turned("a send to a full queue without blocking blocks", "message_calls.py",
           "    if queue.kind.nonblock:\n        return kernel.returns(thread, call, Res.AGAIN)\n"
           "    if due is not None and kernel.has_passed(due):\n        return kernel.returns(thread, call, Res.TIMEDOUT)\n"
           "    kernel.block(thread, Wait(WaitKind.SEND",
           "    if due is not None and kernel.has_passed(due):\n        return kernel.returns(thread, call, Res.TIMEDOUT)\n"
           "    kernel.block(thread, Wait(WaitKind.SEND", "queue_that_does_not_block"),
    Turned("a receive from an empty queue without blocking blocks", "message_calls.py",
           "    if queue.kind.nonblock:\n        return kernel.returns(thread, call, Res.AGAIN)\n"
           "    if due is not None and kernel.has_passed(due):\n        return kernel.returns(thread, call, Res.TIMEDOUT)\n"
           "    kernel.block(thread, Wait(WaitKind.RECEIVE",
           "    if due is not None and kernel.has_passed(due):\n        return kernel.returns(thread, call, Res.TIMEDOUT)\n"
           "    kernel.block(thread, Wait(WaitKind.RECEIVE", "queue_that_does_not_block"),
    Turned("a send asks for its time before it asks whether the queue blocks", "message_calls.py",
           "    if queue.kind.nonblock:\n        return kernel.returns(thread, call, Res.AGAIN)\n"
           "    if due is not None and kernel.has_passed(due):\n        return kernel.returns(thread, call, Res.TIMEDOUT)\n"
           "    kernel.block(thread, Wait(WaitKind.SEND",
           "    if due is not None and kernel.has_passed(due):\n        return kernel.returns(thread, call, Res.TIMEDOUT)\n"
           "    if queue.kind.nonblock:\n        return kernel.returns(thread, call, Res.AGAIN)\n"
           "    kernel.block(thread, Wait(WaitKind.SEND", "queue_that_does_not_block_and_time"),
    Turned("a receive asks for its time before it asks whether the queue blocks", "message_calls.py",
           "    if queue.kind.nonblock:\n        return kernel.returns(thread, call, Res.AGAIN)\n"
           "    if due is not None and kernel.has_passed(due):\n        return kernel.returns(thread, call, Res.TIMEDOUT)\n"
           "    kernel.block(thread, Wait(WaitKind.RECEIVE",
           "    if due is not None and kernel.has_passed(due):\n        return kernel.returns(thread, call, Res.TIMEDOUT)\n"
           "    if queue.kind.nonblock:\n        return kernel.returns(thread, call, Res.AGAIN)\n"
           "    kernel.block(thread, Wait(WaitKind.RECEIVE", "queue_that_does_not_block_and_time"),
    Turned("a timed send with a time of now blocks", "message_calls.py",
           "    if due is not None and kernel.has_passed(due):\n        return kernel.returns(thread, call, Res.TIMEDOUT)\n"
           "    kernel.block(thread, Wait(WaitKind.SEND",
           "    if due is not None and kernel.due_tick(due) < kernel.time:\n        return kernel.returns(thread, call, Res.TIMEDOUT)\n"
           "    kernel.block(thread, Wait(WaitKind.SEND", "times_of_now"),
    Turned("a timed receive with a time of now blocks", "message_calls.py",
           "    if due is not None and kernel.has_passed(due):\n        return kernel.returns(thread, call, Res.TIMEDOUT)\n"
           "    kernel.block(thread, Wait(WaitKind.RECEIVE",
           "    if due is not None and kernel.due_tick(due) < kernel.time:\n        return kernel.returns(thread, call, Res.TIMEDOUT)\n"
           "    kernel.block(thread, Wait(WaitKind.RECEIVE", "times_of_now"),
    Turned("a receive takes the oldest message, whatever its priority", "message_calls.py",
           "message = max(queue.messages, key=lambda held: held.urgency)", "message = queue.messages[0]",
           "messages_by_priority_then_arrival"),
    Turned("a receive takes the youngest of the urgent messages", "message_calls.py",
           "message = max(queue.messages, key=lambda held: held.urgency)",
           "message = max(reversed(queue.messages), key=lambda held: held.urgency)",
           "messages_by_priority_then_arrival"),
    Turned("a receive leaves the message", "message_calls.py",
           "        queue.messages = [held for held in queue.messages if held is not message]\n", "",
           "full_queue_takes_from_the_sender"),
    Turned("a receive lets the sender wait that stands first", "message_calls.py",
           "    sender = kernel.best_waiter(number, WaitKind.SEND)\n",
           "    senders = [one for one in kernel.threads if one.waits_in(WaitKind.SEND) and one.wait.target == number]\n"
           "    sender = min(senders, key=lambda one: one.wait.serial, default=None)\n", "urgent_sender_behind_another"),
    Turned("the sender of the most urgent message is served first", "message_calls.py",
           "    sender = kernel.best_waiter(number, WaitKind.SEND)\n",
           "    senders = [one for one in kernel.threads if one.waits_in(WaitKind.SEND) and one.wait.target == number]\n"
           "    sender = max(senders, key=lambda one: one.wait.message.urgency, default=None)\n",
           "urgent_sender_behind_another"),
    Turned("a receive takes over from no sender", "message_calls.py",
           "    if sender is not None:\n        was_empty", "    if False:\n        was_empty",
           "full_queue_takes_from_the_sender"),
    Turned("the message of a sender whose time is over enters the queue", "machine.py",
           "            case WaitKind.SIGNAL:\n                self.wake(thread, Res.AGAIN)\n",
           "            case WaitKind.SIGNAL:\n                self.wake(thread, Res.AGAIN)\n"
           "            case WaitKind.SEND:\n"
           "                self.queues[thread.wait.target].messages.append(thread.wait.message)\n"
           "                self.wake(thread, Res.TIMEDOUT)\n", "message_of_a_sender_that_left"),
    Turned("the message of a sender that was interrupted enters the queue", "signals.py",
           "    kernel.wake(thread, Res.INTR, left)",
           "    if thread.waits_in(WaitKind.SEND):\n"
           "        kernel.queues[thread.wait.target].messages.append(thread.wait.message)\n"
           "    kernel.wake(thread, Res.INTR, left)", "message_of_a_sender_that_left"),
    Turned("of two receivers the first by number is served", "message_calls.py",
           "    receiver = kernel.best_waiter(number, WaitKind.RECEIVE)\n",
           "    receiver = next((one for one in kernel.threads"
           " if one.waits_in(WaitKind.RECEIVE) and one.wait.target == number), None)\n", "two_receivers"),
    # Notification
    Turned("a notification fires though a receiver waits", "message_calls.py",
           "        kernel.returns(thread, call)\n        return kernel.wake(receiver, Res.ZERO, message.value)",
           "        kernel.returns(thread, call)\n        kernel.wake(receiver, Res.ZERO, message.value)\n"
           "        return fire(kernel, number, queue)", "notification_only_without_receiver"),
    Turned("a message that a receiver takes removes the registration", "message_calls.py",
           "        kernel.returns(thread, call)\n        return kernel.wake(receiver, Res.ZERO, message.value)",
           "        kernel.returns(thread, call)\n        queue.registration = None\n"
           "        return kernel.wake(receiver, Res.ZERO, message.value)", "notification_only_without_receiver"),
    Turned("each message fires the registration", "message_calls.py",
           "    queue.messages.append(message)\n    if was_empty:", "    queue.messages.append(message)\n    if True:",
           "registration_on_a_queue_with_messages"),
    Turned("a registration stays after it fired", "message_calls.py",
           "        queue.registration = None\n", "", "registration_while_the_notification_is_pending"),
    Turned("the message of a waiting sender fires nothing", "message_calls.py",
           "        kernel.wake(sender)\n        if was_empty:", "        kernel.wake(sender)\n        if False:",
           "message_of_a_sender_notifies"),
    Turned("each message of a waiting sender fires the registration", "message_calls.py",
           "        kernel.wake(sender)\n        if was_empty:", "        kernel.wake(sender)\n        if True:",
           "message_of_a_sender_into_a_queue_with_messages"),
    Turned("a notification is told before the return of the sender", "message_calls.py",
           "        kernel.wake(sender)\n        if was_empty:\n            fire(kernel, number, queue)",
           "        if was_empty:\n            fire(kernel, number, queue)\n        kernel.wake(sender)",
           "message_of_a_sender_notifies"),
    Turned("a second registration takes the place of the first", "message_calls.py",
           "if queue.registration is not None or any(", "if any(", "notification_only_without_receiver"),
    Turned("a registration is taken while the last notification is pending", "message_calls.py",
           "if queue.registration is not None or any(record.queue == number for record in kernel.records):",
           "if queue.registration is not None:", "registration_while_the_notification_is_pending"),
    Turned("a notification has the code of sigqueue", "message_calls.py",
           "SigCode.MESGQ", "SigCode.QUEUE", "notification_only_without_receiver"),
]
