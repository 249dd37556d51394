"""Scenes: parts for several threads that meet at one object, from which generated scripts are made.

A scene gives some parts, each a list of lines for the body of another thread.
A line `as POLICY` in a part is no line of the body: it casts the thread that
plays the part, which gets that policy. The word SELF stands for that thread's
name, PEER0 for the name of the thread that plays the first part, and so on.
"""
from __future__ import annotations

from typing import TYPE_CHECKING, Callable

from forms import Stage

if TYPE_CHECKING:
    from writer import ScriptWriter

CAST = "as "
SELF = "SELF"
PEER = "PEER"
Part = list[str]
Scene = Callable[["ScriptWriter"], list[Part]]


def busy(writer: "ScriptWriter", most: int = 3) -> Part:
    """A few ticks of work, or none."""
    ticks = writer.draw.randint(0, most)
    return [f"run {ticks}"] if ticks else []


def pause(writer: "ScriptWriter") -> Part:
    """A short sleep, or none."""
    if writer.stage < Stage.SERVERS or writer.draw.random() < 0.4:
        return []
    return [f"nanosleep {writer.draw.randint(1, 6)}"]


def critical_section(writer: "ScriptWriter", mutex: str, inner: Part) -> Part:
    lock = f"lock {mutex}"
    if writer.stage >= Stage.SEMAPHORES and writer.draw.random() < 0.25:
        lock = f"timedlock {mutex} {writer.draw.randint(3, 30)}"
    return [lock, *inner, f"unlock {mutex}"]


def one_mutex(writer: "ScriptWriter") -> list[Part]:
    """Some threads with critical sections of one mutex."""
    mutex = writer.mutex()
    return [[*pause(writer), *critical_section(writer, mutex, [*busy(writer, 5), *busy(writer)]), *busy(writer, 1)]
            for _ in range(writer.draw.randint(2, 4))]


def chain_of_mutexes(writer: "ScriptWriter") -> list[Part]:
    """Each thread owns one mutex and asks for the next; the last at times asks for the first."""
    mutexes = list(writer.mutexes)
    if len(mutexes) < 2:
        return one_mutex(writer)
    parts = [critical_section(writer, mutexes[0], busy(writer, 8))]
    for below, own in zip(mutexes, mutexes[1:] + mutexes[:1]):
        inner = [*busy(writer), *critical_section(writer, below, busy(writer))]
        parts.append([*pause(writer), *critical_section(writer, own, inner)])
    return parts


def ring_of_mutexes(writer: "ScriptWriter") -> list[Part]:
    """Each of two threads owns a mutex and asks for the other's: the second to ask closes a ring."""
    if len(writer.mutexes) < 2:
        return one_mutex(writer)
    first, second = writer.draw.sample(writer.mutexes, 2)
    rest = ["nanosleep 2"] if writer.stage >= Stage.SERVERS else ["yield"]
    ask = f"lock {first}"
    if writer.stage >= Stage.SEMAPHORES and writer.draw.random() < 0.4:
        ask = f"timedlock {first} {writer.draw.randint(0, 9)}"
    return [["as fifo 4", f"lock {first}", *rest, *critical_section(writer, second, []), f"unlock {first}"],
            ["as fifo 4", f"lock {second}", *rest, ask, f"unlock {first}", f"unlock {second}"],
            ["as fifo 2", *critical_section(writer, first, critical_section(writer, second, busy(writer)))]]


def lent_priority_waits(writer: "ScriptWriter") -> list[Part]:
    """A waiter with a lent priority stands before one with a higher priority of its own."""
    if len(writer.mutexes) < 2 or writer.stage < Stage.SEMAPHORES:
        return chain_of_mutexes(writer)
    first, second = writer.draw.sample(writer.mutexes, 2)
    return [["as fifo 2", *critical_section(writer, first, ["run 8", *busy(writer, 3)])],
            ["as fifo 3", "nanosleep 1", *critical_section(writer, second, critical_section(writer, first, ["run 1"]))],
            ["as fifo 5", f"nanosleep {writer.draw.randint(1, 3)}", *critical_section(writer, first, busy(writer))],
            ["as fifo 9", f"nanosleep {writer.draw.randint(2, 4)}", *critical_section(writer, second, busy(writer))]]


def priorities_change(writer: "ScriptWriter") -> list[Part]:
    """One thread works while another changes its scheduling."""
    thread = writer.draw.choice(writer.threads)
    changes = [f"setprio {thread} {writer.priority()}", f"setsched {thread} {writer.policy()}",
               f"setprio {thread} {writer.priority()}"]
    change = [line for line in changes if writer.draw.random() < 0.7]
    return [[*busy(writer, 5), *busy(writer, 5)], [*pause(writer), *change, *busy(writer, 2)], [*busy(writer, 5)]]


def slices(writer: "ScriptWriter") -> list[Part]:
    """Round robin threads of one priority, and a thread that preempts and reschedules one of them in mid slice."""
    draw, priority, thread = writer.draw, writer.draw.randint(3, 6), writer.draw.choice(writer.threads)
    inner = [f"setsched {SELF} rr {priority}"] if draw.random() < 0.3 else []
    workers = [[f"as rr {priority}", f"run {draw.randint(1, 9)}", *inner, *busy(writer, 9)] for _ in range(2)]
    change = draw.choice((f"setsched {thread} rr {priority}", f"setsched {SELF} rr {priority}",
                          f"setprio {thread} {priority + 1}", f"setsched {thread} fifo {priority}"))
    above = [*pause(writer), *busy(writer, 4), change, *pause(writer), *busy(writer, 2), change]
    return [*workers, [f"as fifo {draw.choice((priority, 9))}", *above]]


def condition(writer: "ScriptWriter") -> list[Part]:
    """Waiters of one condition, and a thread that wakes one or all."""
    draw, cond, mutex = writer.draw, writer.draw.choice(writer.conds), writer.mutex()
    parts: list[Part] = []
    for _ in range(draw.randint(1, 3)):
        timed = f"timedwait {cond} {mutex} {draw.choice((draw.randint(0, 20), 30, 50))}"
        wait = draw.choice((f"wait {cond} {mutex}", f"wait {cond} {mutex}", timed))
        parts.append([f"lock {mutex}", *guarded(writer, [wait]), *busy(writer, 2), f"unlock {mutex}"])
    wake = draw.choice((f"signal {cond}", f"broadcast {cond}"))
    inner = [f"nanosleep {draw.randint(1, 6)}", wake, *busy(writer, 2)]
    rounds = [f"loop {draw.randint(1, 3)}", *inner, "end"]
    parts.append([f"nanosleep {draw.randint(1, 6)}", f"lock {mutex}", wake, *busy(writer, 2), f"unlock {mutex}"]
                 if draw.random() < 0.5 else rounds)
    return parts


def owner_of_two_waits(writer: "ScriptWriter") -> list[Part]:
    """A thread waits on a condition while it owns another mutex, or owns its mutex twice."""
    draw, cond = writer.draw, writer.draw.choice(writer.conds)
    if len(writer.mutexes) < 2:
        return condition(writer)
    first, second = draw.sample(writer.mutexes, 2)
    waits = [draw.choice((f"wait {cond} {first}", f"timedwait {cond} {first} {draw.randint(0, 20)}")) for _ in range(3)]
    return [["as fifo 2", f"lock {second}", f"lock {first}", waits[0], f"unlock {second}", waits[1], f"unlock {first}"],
            ["as fifo 1", f"lock {second}", f"timedwait {cond} {second} 9", f"unlock {second}", waits[2]]]


def semaphore(writer: "ScriptWriter") -> list[Part]:
    """Waiters of one semaphore, and a thread that posts."""
    draw, sem = writer.draw, writer.draw.choice(writer.sems)
    waiters = [[*busy(writer, 1), *guarded(writer, [draw.choice((
        f"sem_wait {sem}", f"sem_wait {sem}", f"sem_timedwait {sem} {draw.randint(0, 25)}"))]), *busy(writer, 2)]
        for _ in range(draw.randint(1, 3))]
    return [*waiters, [*pause(writer), f"sem_post {sem}", *busy(writer, 2), f"sem_post {sem}"]]


def waiting_for_signals(writer: "ScriptWriter") -> list[Part]:
    """Threads that wait for signals or have them handled, and one that sends them."""
    draw, signal, thread = writer.draw, writer.signal(), writer.draw.choice(writer.threads)
    wait = draw.choice((f"sigwaitinfo {signal}", "sigwaitinfo all", f"sigtimedwait {signal} {draw.randint(0, 12)}"))
    sends = [f"kill {signal}", f"tkill {thread} {signal}", f"sigqueue {signal} {writer.operand()}"]
    masked = [f"sigmask block {signal}"] if draw.random() < 0.6 else []
    waits = [*pause(writer), *guarded(writer, [wait]), *busy(writer, 1)]
    return [[*(masked if draw.random() < 0.7 else []), *waits],
            [*masked, draw.choice(sends), draw.choice(sends), *busy(writer, 1), draw.choice(sends)],
            [*masked, *busy(writer, 3), f"sigmask unblock {signal}", *pause(writer)]]


def handled_waits(writer: "ScriptWriter") -> list[Part]:
    """Threads in waits that a handled signal ends."""
    draw, signal = writer.draw, f"rt{writer.handled}"
    waits = [[f"nanosleep {draw.randint(3, 12)}"], [f"clock_nanosleep {draw.randint(5, 30)}"]]
    waits += [["sigwaitinfo none"], ["sigtimedwait none 30"]]
    waits += [[word] for sem in writer.sems for word in (f"sem_wait {sem}", f"sem_timedwait {sem} 40")]
    for queue in writer.queues:
        waits += [[f"mq_receive {queue}"], [f"mq_timedreceive {queue} 40"]]
        waits += [["loop 4", f"mq_{send} {queue} 1 1 1{late}", "end"] for send, late in (("send", ""), ("timedsend", " 40"))]
    sleepers = [[f"as {draw.choice(('fifo 7', 'rr 6', 'fifo 5', 'sporadic 8 3 20 6 4'))}", *busy(writer, 1),
                 *guarded(writer, draw.choice(waits)), "take", *busy(writer, 1)] for _ in range(2)]
    sends = [draw.choice((f"tkill {PEER}{k} {signal}", f"tkill {PEER}{k} {signal}", f"kill {signal}",
                          f"sigqueue {signal} 12")) for k in range(2)]
    return [*sleepers, ["as fifo 2", *pause(writer), *busy(writer, 2), sends[0], *busy(writer, 1), sends[1]]]


def more_signals_than_may_pend(writer: "ScriptWriter") -> list[Part]:
    """A thread sends a signal that nobody takes until no more may be pending, and then takes one and sends again."""
    draw, signal = writer.draw, writer.signal()
    writer.least_horizon = 80
    sends = [f"kill {signal}", f"sigqueue {signal} reg", f"tkill {SELF} {signal}"]
    fill = ["loop 8", *(draw.choice((sends[2], sends[2], *sends)) for _ in range(8)), "end"]
    take = draw.choice(([f"sigwaitinfo {signal}"], ["sigtimedwait all 0", "take"], []))
    return [["as fifo 254", "sigmask block all", *fill, *draw.sample(sends, 3), *take, *draw.sample(sends, 3),
             *draw.choice(([f"sigmask unblock {signal}"], ["run 9"]))],
            ["sigmask block all", *busy(writer, 9)]]


def sent_into_a_lock(writer: "ScriptWriter") -> list[Part]:
    """A thread that waits for a mutex or for the end of another gets signals: one that is handled, or one that ends all."""
    draw, mutex = writer.draw, writer.mutex()
    signal = draw.choice((f"rt{writer.handled}", f"rt{writer.handled}", writer.signal()))
    wait = draw.choice(([f"lock {mutex}", *busy(writer, 2), f"unlock {mutex}"], [f"join {PEER}1"]))
    sends = [f"tkill {PEER}0 {signal}", draw.choice((f"tkill {PEER}0 {signal}", f"kill {signal}", "yield"))]
    return [["as fifo 8", "nanosleep 2", *wait, *busy(writer, 2)],
            ["as fifo 3", f"lock {mutex}", "run 3", *sends, *busy(writer, 3), f"unlock {mutex}", *busy(writer, 1)]]


def periodic(writer: "ScriptWriter") -> list[Part]:
    """A thread that works each time a timer expires, and a load beside it."""
    draw, timer, signal = writer.draw, writer.draw.choice(writer.timers), writer.signal()
    interval = draw.choice((1, 2, 4, 6))
    body = [f"sigwaitinfo {draw.choice((signal, 'all'))}", *busy(writer, 3), f"timer_getoverrun {timer}"]
    first = draw.choice((f"rel {draw.randint(1, 5)}", f"abs {draw.randint(1, 12)}"))
    return [[f"sigmask block {draw.choice((signal, 'all'))}", f"timer_settime {timer} {first} {interval}",
             f"loop {draw.randint(2, 4)}", *body, "end", f"timer_gettime {timer}"], busy(writer, 9)]


def overruns(writer: "ScriptWriter") -> list[Part]:
    """A thread that works longer than the interval of its timer, and at times sets it anew."""
    draw, timer = writer.draw, writer.draw.choice(writer.timers)
    again = draw.choice(([], [f"timer_settime {timer} rel {draw.randint(0, 3)} {draw.randint(0, 2)}"]))
    accept = [draw.choice(("sigwaitinfo all", "sigtimedwait all 4")), f"timer_getoverrun {timer}"]
    return [["as fifo 8", "sigmask block all", f"timer_settime {timer} rel 1 {draw.randint(1, 2)}",
             f"run {draw.randint(3, 7)}", *again, *busy(writer, 4), *accept, *again, *busy(writer, 4), *accept],
            ["sigmask block all", *busy(writer, 9)]]


def armed_and_read(writer: "ScriptWriter") -> list[Part]:
    """A timer is armed, read, set anew and disarmed; its handled signal comes in between, at times into a sleep."""
    draw, timer = writer.draw, writer.draw.choice(writer.timers)
    first = draw.choice((f"rel {draw.randint(2, 9)}", f"abs {draw.randint(0, 20)}", "abs reg"))
    again = draw.choice((f"rel 0 {draw.randint(0, 3)}", f"rel {draw.randint(1, 4)} {draw.randint(0, 3)}", "abs 1 0"))
    rest = draw.choice((["nanosleep 9", "take"], ["run 4"], []))
    return [["set 0", *pause(writer), f"timer_settime {timer} {first} {draw.choice((0, 0, 3, 5))}",
             f"timer_gettime {timer}", *busy(writer, 2), f"timer_gettime {timer}", *rest,
             f"timer_getoverrun {timer}", f"timer_settime {timer} {again}", f"timer_gettime {timer}"],
            [*busy(writer, 4), f"timer_gettime {timer}"]]


def queue_of_messages(writer: "ScriptWriter") -> list[Part]:
    """Senders and receivers of one queue, one of them with a notification at times."""
    draw, queue = writer.draw, writer.draw.choice(writer.queues)
    sends = [send(writer, queue) for _ in range(5)]
    receives = [receive(writer, queue) for _ in range(3)]
    notify = [f"mq_notify {queue} {writer.signal()} {draw.randint(0, 9)}"] if draw.random() < 0.6 else []
    accept = [f"sigtimedwait all {draw.randint(0, 3)}"]
    return [[*notify, *sends[:2], *busy(writer, 1), *guarded(writer, sends[2:3]), sends[3]],
            [*pause(writer), *notify, receives[0], *busy(writer, 2), *guarded(writer, receives[1:2]), receives[2]],
            [*busy(writer, 2), draw.choice((sends[4], receives[0])), *notify],
            ["sigmask block all", *notify, sends[4], *notify, receives[0], *accept, *notify]]


def notified(writer: "ScriptWriter") -> list[Part]:
    """A thread asks for a notification again and again, and another sends into the empty queue."""
    draw, queue, signal = writer.draw, writer.draw.choice(writer.queues), writer.signal()
    ask = f"mq_notify {queue} {signal} {writer.operand()}"
    wait = draw.choice((f"sigwaitinfo {signal}", f"sigtimedwait {signal} 6", f"mq_receive {queue}", "nanosleep 5"))
    masked = [f"sigmask block {signal}"]
    return [[*(masked if draw.random() < 0.7 else []), f"loop {draw.randint(2, 3)}", ask, wait,
             draw.choice((f"mq_receive {queue}", f"mq_timedreceive {queue} 0")), "end", ask],
            [*masked, *busy(writer, 2), send(writer, queue), *pause(writer), send(writer, queue), ask,
             *busy(writer, 2), send(writer, queue)]]


def senders_in_line(writer: "ScriptWriter") -> list[Part]:
    """Threads of several priorities wait to send into a full queue, and one takes all their messages."""
    draw, queue = writer.draw, writer.draw.choice(writer.queues)
    senders = [[f"as fifo {draw.choice((6, 7, 7, 8))}", f"loop {draw.randint(1, 3)}",
                f"mq_send {queue} 1 {draw.randint(0, 2)} {10 * k + draw.randint(0, 9)}", "end", *busy(writer, 1)]
               for k in range(3)]
    return [*senders, ["as fifo 2", f"loop {draw.randint(3, 9)}", f"mq_receive {queue}", "take", *busy(writer, 1), "end"]]


def send(writer: "ScriptWriter", queue: str) -> str:
    draw, urgency = writer.draw, writer.draw.randint(0, 2)
    return draw.choice((f"mq_send {queue} 4 {urgency} {writer.operand()}",
                        f"mq_timedsend {queue} 4 {urgency} {draw.randint(1, 99)} {draw.randint(0, 30)}"))


def receive(writer: "ScriptWriter", queue: str) -> str:
    timed = f"mq_timedreceive {queue} {writer.draw.randint(0, 30)}"
    return writer.draw.choice((f"mq_receive {queue}", f"mq_receive {queue}", timed))


def served(writer: "ScriptWriter") -> list[Part]:
    """Work and sleeps of threads, some of which have servers."""
    draw = writer.draw
    return [[f"loop {draw.randint(2, 4)}", f"run {draw.randint(1, 4)}", *pause(writer), "end"] for _ in range(3)]


def server_at_a_mutex(writer: "ScriptWriter") -> list[Part]:
    """A server whose budget ends as it asks for a mutex, while the owner has an equal beside it."""
    draw, mutex, priority = writer.draw, writer.mutex(), writer.draw.randint(3, 5)
    budget = draw.randint(1, 3)
    server = f"as {writer.served_by()} {draw.randint(6, 9)} {draw.randint(1, 2)} {budget + draw.randint(2, 9)} {budget} 1"
    owner = [f"as fifo {priority}", f"lock {mutex}", "yield", *busy(writer, 3), f"unlock {mutex}", "run 2"]
    work = [f"run {budget - 1}"] if budget > 1 else []
    return [owner, [f"as fifo {priority}", *busy(writer, 4), "yield", "run 1"],
            [server, *pause(writer), *work, f"lock {mutex}", *busy(writer, 4), f"unlock {mutex}", "run 2"]]


def new_server(writer: "ScriptWriter") -> list[Part]:
    """A server that is made anew, with the same parameters, in the tick that uses up its budget or near it."""
    draw = writer.draw
    budget = draw.randint(1, 4)
    high, low, period = draw.randint(6, 9), draw.randint(1, 5), budget + draw.randint(0, 9)
    policy = f"{writer.served_by()} {high} {low} {period} {budget} {draw.randint(1, 2)}"
    work = [f"run {budget - 1}"] if budget > 1 else []
    again = f"setsched {SELF} {policy}"
    return [[CAST + policy, *work, again, *busy(writer, 2), *work, draw.choice((again, "yield")), *busy(writer, 5)],
            [*busy(writer, 5), *pause(writer), *busy(writer, 5)]]


def closed_runs(writer: "ScriptWriter") -> list[Part]:
    """A strict server that is preempted, that yields and that sleeps in the midst of its budget, again and again."""
    draw = writer.draw
    budget, priority = draw.randint(2, 6), draw.randint(3, 6)
    policy = f"as strict {priority} {draw.randint(1, 2)} {budget + draw.randint(0, 12)} {budget} {draw.choice((1, 1, 2, 3))}"
    gap = draw.choice((["yield"], ["nanosleep 1"], [f"nanosleep {draw.randint(1, 4)}"], []))
    inner = [f"run {draw.randint(1, 3)}", *gap, *busy(writer, 2)]
    above = ["nanosleep 2", *busy(writer, 2)] if draw.random() < 0.5 else [f"nanosleep {draw.randint(1, 4)}", "run 1"]
    return [[policy, f"loop {draw.randint(2, 6)}", *inner, "end"], ["as fifo 9", f"loop {draw.randint(2, 5)}", *above, "end"],
            [f"as {draw.choice(('fifo', 'rr'))} {priority}", *busy(writer, 4), "yield", *busy(writer, 4)]]


def strict_in_a_window(writer: "ScriptWriter") -> list[Part]:
    """A strict server that becomes ready late or rests late in its period, so that two budgets could lie side by side."""
    draw = writer.draw
    budget = draw.randint(1, 5)
    period = budget + draw.randint(2, 9)
    late = draw.choice(([], [f"nanosleep {max(1, period - budget)}"], ["run 1", f"nanosleep {max(1, period - budget)}"]))
    server = [f"as strict 8 2 {period} {budget} {draw.choice((1, 2, 4))}", *late, f"run {draw.randint(2, 4) * budget}"]
    return [server, [f"as fifo {draw.choice((5, 9))}", f"run {max(1, period - draw.randint(0, 2))}", *pause(writer), *busy(writer, 5)]]


def cancelled(writer: "ScriptWriter") -> list[Part]:
    """A thread in a cancellation point with cleanups pushed, one that cancels it, and one that joins."""
    draw, victim = writer.draw, draw_peer(writer, 0)
    points = ["testcancel", f"nanosleep {draw.randint(2, 9)}"]
    points += ["sigwaitinfo none"] if writer.stage >= Stage.SIGNALS else []
    points += [f"join {draw.choice(writer.threads)}"]
    points += [f"sem_wait {sem}" for sem in writer.sems] + [f"mq_receive {queue}" for queue in writer.queues]
    inner = [draw.choice(points), *busy(writer, 2), draw.choice(points)]
    ways = [["setcancel disable", *inner, "setcancel enable", "testcancel"], inner, inner, ["exit reg"]]
    return [[*guarded(writer, draw.choice(ways), 0.9), *busy(writer, 1)],
            [*pause(writer), f"cancel {victim}", *busy(writer, 1)],
            [f"join {victim}", "take", *busy(writer, 1)]]


def draw_peer(writer: "ScriptWriter", part: int) -> str:
    """The thread that plays a part of the scene, or at times any thread."""
    return f"{PEER}{part}" if writer.draw.random() < 0.8 else writer.draw.choice(writer.threads)


def cancelled_at_a_mutex(writer: "ScriptWriter") -> list[Part]:
    """A thread is cancelled while it waits or contends for a mutex, and comes to a cancellation point later."""
    draw, mutex, cond = writer.draw, writer.mutex(), writer.draw.choice(writer.conds)
    waits = draw.choice(([f"wait {cond} {mutex}"], [f"timedwait {cond} {mutex} 4"], busy(writer)))
    victim = [f"lock {mutex}", *guarded(writer, waits, 0.6), f"unlock {mutex}", "testcancel", "run 2"]
    owner = [*pause(writer), f"lock {mutex}", *busy(writer, 2), f"broadcast {cond}", "run 4", f"unlock {mutex}"]
    return [victim, owner, [f"nanosleep {draw.randint(1, 5)}", f"cancel {draw_peer(writer, 0)}", *busy(writer, 2)]]


def cancelled_joiner(writer: "ScriptWriter") -> list[Part]:
    """A joiner is cancelled, and another thread joins in its place."""
    draw, joined = writer.draw, f"{PEER}1"
    return [guarded(writer, [f"join {joined}", "run 1"], 0.5),
            [f"nanosleep {draw.randint(3, 9)}", f"exit {draw.randint(0, 9)}"],
            [f"nanosleep {draw.randint(1, 4)}", f"cancel {PEER}0", f"join {joined}", "take", *busy(writer, 2)]]


def guarded(writer: "ScriptWriter", inner: Part, share: float = 0.3) -> Part:
    """The lines, at times between a push and a pop of a cleanup."""
    if writer.stage < Stage.LIVES or writer.draw.random() >= share:
        return inner
    return [f"push {writer.draw.choice(writer.cleanups)}", *inner, f"pop {writer.draw.randint(0, 1)}"]


SCENES: dict[Stage, tuple[Scene, ...]] = {
    Stage.THREADS: (priorities_change, slices),
    Stage.SERVERS: (served, new_server),
    Stage.MUTEXES: (one_mutex, chain_of_mutexes, ring_of_mutexes, lent_priority_waits, server_at_a_mutex),
    Stage.SEMAPHORES: (semaphore,),
    Stage.WAITING: (condition, condition, owner_of_two_waits),
    Stage.SIGNALS: (waiting_for_signals, handled_waits, sent_into_a_lock, more_signals_than_may_pend),
    Stage.TIMERS: (periodic, overruns, armed_and_read),
    Stage.QUEUES: (queue_of_messages, queue_of_messages, notified, senders_in_line),
    Stage.LIVES: (cancelled, cancelled_at_a_mutex, cancelled_joiner),
    Stage.VERSION2: (closed_runs, closed_runs, strict_in_a_window, strict_in_a_window),
    Stage.WHOLE: (handled_waits, handled_waits, handled_waits, sent_into_a_lock, waiting_for_signals, periodic, armed_and_read,
                  notified, senders_in_line),
}
