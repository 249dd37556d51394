"""Scenes in which CLOCK_REALTIME is set while threads wait for its times; see scenes.py."""
from __future__ import annotations

from typing import TYPE_CHECKING

from scenes import PEER, Part, Scene, busy, guarded, pause

if TYPE_CHECKING:
    from writer import ScriptWriter


def time_of_clock(writer: "ScriptWriter") -> int:
    """A time near the run, as the clock reads it until it is set."""
    return writer.draw.randint(2, 40)


def ahead(writer: "ScriptWriter") -> tuple[Part, str]:
    """A time of the clock: some ticks ahead of what it reads in the register, with the steps to it, or a number."""
    if writer.draw.random() < 0.4:
        return [], str(time_of_clock(writer))
    return ["real_gettime", "take", f"add {writer.draw.randint(2, 30)}"], "reg"


def wait_for_a_time(writer: "ScriptWriter") -> Part:
    """A wait for a time of the clock, in one of the calls that have one."""
    draw, cond, mutex = writer.draw, writer.draw.choice(writer.conds), writer.mutex()
    sem, queue = draw.choice(writer.sems), draw.choice(writer.queues)
    read, time = ahead(writer)
    wait = draw.choice((
        [f"clock_nanosleep {time} real"], [f"clock_nanosleep {time} real"], ["loop 3", f"sem_timedwait {sem} {time} real", "end"],
        [f"lock {mutex}", f"timedwait {cond} {mutex} {time} real", f"unlock {mutex}"],
        [f"timedlock {mutex} {time} real", *busy(writer, 2), f"unlock {mutex}"],
        ["loop 3", f"mq_timedreceive {queue} {time} real", "end"], ["loop 4", f"mq_timedsend {queue} 1 0 5 {time} real", "end"]))
    return [*read, *guarded(writer, wait)]


def set_under_waits(writer: "ScriptWriter") -> list[Part]:
    """Two threads wait for times of the clock and one for ticks, and another sets the clock again and again."""
    draw = writer.draw
    sleepers = [[*busy(writer, 1), *wait_for_a_time(writer), "real_gettime", *busy(writer, 2)] for _ in range(2)]
    ticks = draw.choice((f"nanosleep {draw.randint(2, 20)}", f"sigtimedwait none {draw.randint(2, 20)}",
                         f"clock_nanosleep {time_of_clock(writer)}"))
    rounds = [line for _ in range(draw.randint(1, 3)) for line in (*writer.setting(), *busy(writer, 4), *pause(writer))]
    return [*sleepers, ["as fifo 2", *busy(writer, 3), *rounds], [ticks, "gettime"]]


def due_together(writer: "ScriptWriter") -> list[Part]:
    """Waits and a timer that one setting makes due at one instant, or leaves for the ticks."""
    draw, timer = writer.draw, writer.draw.choice(writer.timers)
    waits = [wait_for_a_time(writer) for _ in range(2)]
    read, time = ahead(writer)
    armed = [*read, f"timer_settime {timer} abs {time} {draw.choice((0, 0, 2, 5))}"]
    return [*[[*wait, *busy(writer, 1)] for wait in waits],
            ["as fifo 2", "sigmask block all", *armed, *busy(writer, 3), f"clock_settime {draw.choice((30, 45, 60, 10**18))}",
             f"timer_gettime {timer}", *busy(writer, 3), *writer.setting(), f"timer_gettime {timer}"]]


def timer_of_the_clock(writer: "ScriptWriter") -> list[Part]:
    """A timer is armed for a time or for ticks, and read as the clock is set under it."""
    draw, timer, signal = writer.draw, writer.draw.choice(writer.timers), writer.signal()
    first = draw.choice((f"abs {time_of_clock(writer)}", "abs reg", "abs reg", f"rel {draw.randint(2, 12)}"))
    read = [f"timer_gettime {timer}"]
    accept = draw.choice((f"sigwaitinfo {signal}", f"sigtimedwait all {draw.randint(0, 12)}"))
    armed = [f"add {draw.randint(1, 30)}", f"timer_settime {timer} {first} {draw.choice((0, 0, 1, 4, 9))}"]
    return [["sigmask block all", "real_gettime", "take", *armed, *read, *busy(writer, 3), *writer.setting(), *read, *busy(writer, 4),
             *guarded(writer, [accept]), *writer.setting(), *read, f"timer_getoverrun {timer}", *busy(writer, 6), accept],
            [*pause(writer), *writer.setting(), *busy(writer, 3), *read]]


def timed_out_of_a_chain(writer: "ScriptWriter") -> list[Part]:
    """A timed lock in the middle of a chain of owners, whose time a setting makes pass or puts off."""
    draw = writer.draw
    if len(writer.mutexes) < 2:
        return set_under_waits(writer)
    first, second = draw.sample(writer.mutexes, 2)
    time = draw.randint(20, 70)
    setting = draw.choice(([f"clock_settime {time}"], [f"clock_settime {time + 9}"], writer.setting(), ["clock_settime 0"]))
    owner = draw.choice((["as fifo 2", f"lock {first}", "run 15"], ["as fifo 8", f"lock {first}", "nanosleep 30", "run 2"]))
    return [[*owner, *busy(writer, 3), f"unlock {first}"],
            ["as fifo 7", "nanosleep 3", f"lock {second}", f"timedlock {first} {time} real", f"unlock {second}", f"unlock {first}"],
            ["as fifo 8", "nanosleep 7", f"lock {second}", *busy(writer, 2), f"unlock {second}"],
            ["as fifo 9", f"nanosleep {draw.randint(8, 13)}", *setting]]


def set_in_a_handler(writer: "ScriptWriter") -> list[Part]:
    """Handled signals come to threads that wait for times of the clock; half of the handlers begin with a setting of it."""
    draw, signal = writer.draw, f"rt{writer.handled}"
    sleepers = [[*wait_for_a_time(writer), "take", "real_gettime", *busy(writer, 1)] for _ in range(2)]
    sends = [draw.choice((f"tkill {PEER}{k} {signal}", f"kill {signal}", f"sigqueue {signal} {time_of_clock(writer)}")) for k in range(2)]
    return [*sleepers, ["as fifo 2", *busy(writer, 3), sends[0], *busy(writer, 4), sends[1], "real_gettime", *busy(writer, 4)]]


CLOCK_SCENES: tuple[Scene, ...] = (
    set_under_waits, set_under_waits, due_together, due_together, timer_of_the_clock, timer_of_the_clock, timed_out_of_a_chain,
    timed_out_of_a_chain, set_in_a_handler)
