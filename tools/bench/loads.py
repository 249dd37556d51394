"""The loads that are timed: each call of the language, and what a run is made of, many times over.

A load is the words of the program, and its script. Each says what it shows.
"""
from __future__ import annotations

from dataclasses import dataclass

GREATEST = "1000000000000000000"


@dataclass(frozen=True)
class Load:
    name: str
    words: tuple[str, ...]
    script: str = ""


def forever(*steps: str) -> str:
    """A body that does these steps again and again."""
    return "".join(f"{step}\n" for step in ("forever", *steps, "end", "end"))


def thread(name: str, policy: str, *steps: str, start: str = "at 0") -> str:
    """A thread that does these steps once."""
    return "".join(f"{step}\n" for step in (f"thread {name} {policy} {start}", *steps, "end"))


def looping(name: str, policy: str, *steps: str, start: str = "at 0", first: tuple[str, ...] = ()) -> str:
    """A thread that does some steps first, and then these again and again."""
    return "".join(f"{step}\n" for step in (f"thread {name} {policy} {start}", *first)) + forever(*steps)


def yielding(count: int) -> str:
    """So many threads of one list, each of which goes to its tail."""
    return "".join(looping(f"t{n}", "fifo 5", "yield") for n in range(count))


def slices(count: int) -> str:
    """So many round robin threads with a quantum of one tick."""
    return "quantum 1\n" + "".join(looping(f"t{n}", "rr 5", "run 100000") for n in range(count))


def chain(count: int) -> str:
    """So many threads that come one after another and wait in a chain of owners, and let go again."""
    text = "".join(f"mutex m{n} inherit\n" for n in range(count))
    for n in range(count):
        inner = (f"lock m{n + 1}", f"unlock m{n + 1}") if n + 1 < count else ("run 3",)
        text += looping(f"t{n}", f"fifo {200 - n}", f"lock m{n}", *inner, f"unlock m{n}", f"nanosleep {7 + n}", first=(f"set {count - n}",))
    return text


def broadcast(count: int) -> str:
    """So many threads that wait for one condition, and one of less priority that wakes them all."""
    waiters = "".join(looping(f"w{n}", "fifo 9", "lock m", "wait c m", "unlock m") for n in range(count))
    return f"mutex m none\ncond c\n{waiters}" + looping("b", "fifo 5", "lock m", "broadcast c", "unlock m", start="at 1")


def waiters(count: int) -> str:
    """So many threads that wait for one semaphore, of which each post wakes one."""
    return "sem s 0\n" + "".join(looping(f"w{n}", f"fifo {9 + n % 3}", "sem_wait s") for n in range(count)) + looping("p", "fifo 5", "sem_post s")


def timers(count: int) -> str:
    """So many timers with intervals of their own, and a thread that accepts their signals."""
    text = "".join(f"timer k{n} rt{n % 31} {n}\n" for n in range(count))
    armed = tuple(f"timer_settime k{n} rel {n + 3} {2 * n + 5}" for n in range(count))
    return text + looping("a", "fifo 5", "sigwaitinfo all", first=("sigmask block all", *armed))


def servers(count: int) -> str:
    """So many sporadic servers that run for two ticks and sleep, over a thread that always runs."""
    text = "".join(
        looping(f"s{n}", f"sporadic {40 + n} {2 + n % 5} {50 + 7 * n} {1 + n % 4} 8", "run 2", f"nanosleep {3 + n}", start=f"at {n}")
        for n in range(count)
    )
    return text + looping("z", "fifo 1", "run 9")


def pending(count: int) -> str:
    """A thread that queues so many records of a signal that it blocks, and accepts them again."""
    queued = tuple(f"sigqueue rt{n % 8} {n}" for n in range(count))
    accepted = ("sigwaitinfo all",) * count
    return looping("a", "fifo 5", *queued, *accepted, first=("sigmask block all",))


def messages(depth: int) -> str:
    """A thread that fills a queue of that depth with messages of two priorities, and empties it."""
    sent = tuple(f"mq_send q 8 {n % 2} {n}" for n in range(depth))
    return f"queue q {depth} 8\n" + looping("a", "fifo 5", *sent, *(("mq_receive q",) * depth))


def sleepers(count: int) -> str:
    """So many threads that sleep for times of their own."""
    return "".join(looping(f"t{n}", f"fifo {5 + n % 7}", f"nanosleep {3 + n}") for n in range(count))


def settings(count: int) -> str:
    """So many threads that sleep up to a far time of the clock, and one that sets it again and again."""
    text = "".join(looping(f"t{n}", "fifo 9", f"clock_nanosleep {GREATEST} real") for n in range(count))
    return text + looping("s", "fifo 5", "clock_settime 5", "clock_settime 900")


def long_script(lines: int) -> str:
    """A script of so many lines, with a comment on each."""
    return "thread a fifo 5 at 0\n" + "run 1 # a comment\n" * lines + "end\n"


SEMAPHORES = "sem a 1\nsem b 0\n" + looping("x", "fifo 5", "sem_wait a", "sem_post b") + looping("y", "fifo 5", "sem_wait b", "sem_post a")
CONDITIONS = "mutex m inherit\ncond c\n" + "".join(looping(name, "fifo 5", "lock m", "signal c", "wait c m", "unlock m") for name in "xy")
QUEUES = (
    "queue p 1 8\nqueue q 1 8\n"
    + looping("x", "fifo 5", "mq_send p 8 1 7", "mq_receive q")
    + looping("y", "fifo 5", "mq_receive p", "mq_send q 8 1 9")
)
HANDLERS = "handler h\nrun 1\nend\naction rt1 run h\n" + looping("a", "fifo 5", "kill rt1")
SIGQUEUE = looping("r", "fifo 9", "sigwaitinfo rt1,rt2", first=("sigmask block all",)) + looping(
    "s", "fifo 5", "sigqueue rt2 5", "sigqueue rt1 6", first=("sigmask block all",)
)
LIVES = looping("a", "fifo 5", "create b", "join b") + thread("b", "fifo 6", "run 1", "exit 3", start="dormant")
CANCELS = (
    "cleanup u\nrun 1\nend\n"
    + looping("a", "fifo 5", "create b", "cancel b", "join b")
    + thread("b", "fifo 6", "push u", "forever", "nanosleep 50", "end", "pop 1", start="dormant")
)
PRIORITIES = (
    looping("a", "fifo 90", "setprio b 40", "setprio c 50", "setprio b 50", "setprio c 40")
    + looping("b", "fifo 5", "run 1")
    + looping("c", "fifo 5", "run 1")
)
CONTROLLER = (
    "mutex bus inherit\nmutex log protect 40\nqueue cmd 4 16\ntimer beat rt5 0\n"
    + looping(
        "ctl", "fifo 30", "sigwaitinfo rt5", "lock bus", "run 2", "unlock bus", "mq_send cmd 8 1 42",
        first=("sigmask block all", "create srv", "create mon", "timer_settime beat rel 20 20"),
    )
    + looping("srv", "sporadic 20 2 40 6 4", "mq_receive cmd", "lock log", "run 3", "unlock log", start="dormant")
    + looping("mon", "rr 10", "add 20", "clock_nanosleep reg", "lock bus", "run 6", "unlock bus", start="dormant", first=("set 0",))
)
QUIET = """quantum 300000000000000000
thread r rr 5 at 100000000000000000
run 1000000000000000000
end
thread q rr 5 at 100000000000000000
run 1000000000000000000
end
thread s sporadic 8 2 1000000000000000000 200000000000000000 4 at 200000000000000000
run 1000000000000000000
end
"""
LOADS = (
    Load("start-up", ("run", "10"), thread("a", "fifo 5", "run 3")),
    Load("one thread that runs and yields", ("run", "3000000"), looping("a", "fifo 5", "run 1", "yield")),
    Load("64 threads that yield", ("run", "1000000"), yielding(64)),
    Load("one long run", ("run", "20000000"), thread("a", "fifo 5", f"run {GREATEST}")),
    Load("idle ticks", ("run", "20000000"), thread("a", "fifo 5", "run 1", start="at 19999999")),
    Load("a script of one megabyte", ("run", "1"), long_script(58_000)),
    Load("round robin, quantum 1", ("run", "1000000"), slices(8)),
    Load("a controller", ("run", "2000000"), CONTROLLER),
    Load("semaphores, back and forth", ("run", "1000000"), SEMAPHORES),
    Load("conditions, back and forth", ("run", "1000000"), CONDITIONS),
    Load("queues, back and forth", ("run", "1000000"), QUEUES),
    Load("broadcast to 32", ("run", "1000000"), broadcast(32)),
    Load("handlers", ("run", "1000000"), HANDLERS),
    Load("sigqueue to a waiter", ("run", "1000000"), SIGQUEUE),
    Load("32 timers", ("run", "1000000"), timers(32)),
    Load("a clock that is set under 32 sleepers", ("run", "1000000"), settings(32)),
    Load("create and join", ("run", "1000000"), LIVES),
    Load("cancel with cleanup", ("run", "1000000"), CANCELS),
    Load("24 sporadic servers", ("run", "1000000"), servers(24)),
    Load("setprio", ("run", "1000000"), PRIORITIES),
    Load("chain of 2 owners", ("run", "1000000"), chain(2)),
    Load("chain of 16 owners", ("run", "1000000"), chain(16)),
    Load("chain of 63 owners", ("run", "1000000"), chain(63)),
    Load("soak 63", ("soak", "63", "1000000")),
    Load("soak 7", ("soak", "7", "10000000")),
    Load("slices to 10^18", ("run", GREATEST), QUIET),
)
