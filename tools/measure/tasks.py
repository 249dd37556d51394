"""The periodic tasks that the threads of a script are: periods, costs, and why a thread is none.

A cost is at most what the steps of a job can take: each call and each jump back takes a tick, a loop all its passes, and a
test is taken to come true.
"""
from __future__ import annotations

import sys
from collections.abc import Iterator
from dataclasses import dataclass
from pathlib import Path

sys.path.append(str(Path(__file__).resolve().parents[1] / "reference"))

from forms import ObjectKind  # noqa: E402
from reader import read  # noqa: E402
from script import (  # noqa: E402
    Action, AddRegister, Block, Call, CleanupKind, Fifo, Guard, HandlerKind, Loop, MutexKind, Rr, Run, Script, SetRegister, Step, TakeValue,
    Test, ThreadKind)

GREATEST_COST, GREATEST_PERIOD = 1_000_000, 1_000_000_000
LOCKS = frozenset(("lock", "timedlock", "trylock"))
WAITING = frozenset((
    "join", "wait", "timedwait", "sem_wait", "sem_timedwait", "nanosleep", "clock_nanosleep", "sigwaitinfo", "sigtimedwait",
    "mq_send", "mq_timedsend", "mq_receive", "mq_timedreceive"))
CHANGING = frozenset(("setprio", "setsched", "cancel", "exit"))


class NoTask(Exception):
    """Why a thread is no periodic task, or why its sections of mutexes cannot be told."""


@dataclass
class Task:
    """A thread as a task. `period` is None for one that runs once; `jobs` is how many a thread that ends has."""

    name: str
    priority: int
    phase: int
    cost: int = 0
    period: int | None = None
    jobs: int | None = 1
    locks: frozenset[int] = frozenset()
    why: str | None = None


class Costs:
    """What steps cost at most, in ticks."""

    def __init__(self, script: Script) -> None:
        self._script = script

    def of(self, block: Block) -> int:
        return sum(map(self.step, block))

    def step(self, step: Step) -> int:
        match step:
            case Run(ticks):
                return ticks
            case Call():
                return 1
            case Test(_, _, body):
                return self.of(body)
            case Loop(None, _):
                raise NoTask("a loop in its job has no end")
            case Loop(times, body):
                return times * self.of(body) + times - 1
            case Guard(_, _, body, _):
                handler = handler_of(self._script, step)
                return 2 + self.of(body) + (0 if handler is None else self.of(handler) + 1)
        return 0


def calls_in(block: Block) -> Iterator[Call]:
    """All calls of a block, in those within it too."""
    for step in block:
        match step:
            case Call():
                yield step
            case Test(_, _, body) | Loop(_, body) | Guard(_, _, body, _):
                yield from calls_in(body)


def handler_of(script: Script, guard: Guard) -> Block | None:
    """The body of the cleanup handler that is run at the end of a block; None where its pop drops it."""
    return script.objects(ObjectKind.CLEANUP)[guard.cleanup].kind.body if guard.pop.form.words[1] == "1" else None


def mutex_calls(script: Script, block: Block) -> Iterator[Call]:
    """The calls that lock or unlock in a block, in those within it and in the cleanup handlers that it runs."""
    for step in block:
        match step:
            case Call() if step.word in LOCKS or step.word == "unlock":
                yield step
            case Test(_, _, body) | Loop(_, body):
                yield from mutex_calls(script, body)
            case Guard(_, _, body, _):
                yield from mutex_calls(script, [*body, *(handler_of(script, step) or [])])


def changes_register(block: Block) -> bool:
    return any(isinstance(step, (SetRegister, AddRegister, TakeValue)) or (
        isinstance(step, (Test, Loop, Guard)) and changes_register(step.body)) for step in block)


def is_sleep(step: Step) -> bool:
    """A `clock_nanosleep` up to the register, on the clock that cannot be set."""
    return isinstance(step, Call) and step.word == "clock_nanosleep" and step.operands[0].number is None and "real" not in step.form.words


def periodic_part(body: Block) -> tuple[Block, Loop, Block] | None:
    """The steps before the loop that sleeps once in each pass, that loop, and the steps behind it."""
    for at, step in enumerate(body):
        if isinstance(step, Loop) and any(map(is_sleep, step.body)):
            return body[:at], step, body[at + 1:]
    return None


def register_after(block: Block) -> int:
    """The register behind steps of which only `set` and `add` change it."""
    register = 0
    for step in block:
        match step:
            case SetRegister(number):
                register = number
            case AddRegister(number):
                register += number
            case TakeValue():
                raise NoTask("its first release is taken from a value")
            case Test(_, _, inner) | Loop(_, inner) | Guard(_, _, inner, _) if changes_register(inner):
                raise NoTask("its first release is reckoned in a block")
    return register


def fill_periodic(task: Task, before: Block, loop: Loop, behind: Block, costs: Costs) -> None:
    """The period, the cost and the number of jobs of a thread that sleeps once in each pass of its loop."""
    at = next(number for number, step in enumerate(loop.body) if is_sleep(step))
    steps = [step.number for step in loop.body if isinstance(step, AddRegister)]
    others = [step for step in loop.body if not isinstance(step, AddRegister)]
    if len(steps) != 1 or changes_register(others) or not isinstance(next(s for s in loop.body if isinstance(s, AddRegister) or is_sleep(s)), AddRegister):
        raise NoTask("it does not add one period in each pass, before it sleeps")
    if not 1 <= steps[0] <= GREATEST_PERIOD:
        raise NoTask(f"its period is not between 1 and {GREATEST_PERIOD}")
    if register_after(before) != task.phase:
        raise NoTask(f"it counts its releases from {register_after(before)}, and starts at {task.phase}")
    waits = [call.word for call in calls_in([*before, *loop.body[:at], *loop.body[at + 1:], *behind]) if may_wait(call)]
    if waits:
        raise NoTask(f"its job waits in '{waits[0]}'")
    first = costs.of(before) + costs.of(loop.body[:at + 1])
    last = costs.of(loop.body[at + 1:]) + costs.of(behind) + 1
    task.cost = max(first, costs.of(loop.body) + 1, last if loop.times is not None else 0)
    task.period, task.jobs = steps[0], loop.times


def may_wait(call: Call) -> bool:
    return call.word in WAITING


def tasks_of(text: bytes) -> tuple[Script, list[Task]]:
    """The script, and its threads as tasks in the order of declaration; `why` says of one why it is none."""
    script, fault = read(text)
    if script is None:
        raise NoTask(f"the script is refused at line {fault.line}: {fault.kind.name}")
    costs = Costs(script)
    created = {call.operands[0] for named in script.declarations for call in calls_in(_body(named)) if call.word == "create"}
    found = []
    for number, named in enumerate(script.objects(ObjectKind.THREAD)):
        if named.kind.start is None and number not in created:
            continue
        found.append(_task(script, named.name, named.kind, number in created, costs))
    return script, found


def _body(declaration: object) -> Block:
    kind = getattr(declaration, "kind", None)
    return kind.body if isinstance(kind, (ThreadKind, HandlerKind, CleanupKind)) else []


def _no_period(call: Call) -> str:
    """What a sleep up to a number lacks of a period."""
    is_fixed = call.word == "clock_nanosleep" and call.operands[0].number is not None
    return ", up to one fixed instant; a period is an 'add' and a 'clock_nanosleep reg' in each pass" if is_fixed else ""


def _task(script: Script, name: str, kind: ThreadKind, is_created: bool, costs: Costs) -> Task:
    priority = kind.policy.priority if isinstance(kind.policy, (Fifo, Rr)) else kind.policy.high
    task = Task(name, priority, kind.start or 0)
    task.locks = frozenset(call.operands[0] for call in mutex_calls(script, kind.body) if call.word in LOCKS)
    try:
        if not isinstance(kind.policy, (Fifo, Rr)):
            raise NoTask("it has a server")
        if is_created:
            raise NoTask("another thread creates it" + ("" if kind.start is None else f", perhaps before {kind.start}"))
        part = periodic_part(kind.body)
        if part is not None:
            fill_periodic(task, *part, costs)
        else:
            waits = [call for call in calls_in(kind.body) if may_wait(call)]
            if waits:
                raise NoTask(f"it waits in '{waits[0].word}'{_no_period(waits[0])}")
            task.cost = costs.of(kind.body) + 1
        if not 1 <= task.cost <= GREATEST_COST:
            raise NoTask(f"a job may take more than {GREATEST_COST} ticks")
    except NoTask as why:
        task.why = str(why)
    return task


def whole_script_reasons(script: Script) -> str | None:
    """Why nothing can be said of any thread."""
    if any(isinstance(declaration, Action) and declaration.handler is not None for declaration in script.declarations):
        return "signal handlers take ticks of whichever thread they come into"
    for declaration in script.declarations:
        for call in calls_in(_body(declaration)):
            if call.word in CHANGING:
                return f"'{call.word}' changes what threads there are, or their priorities"
    return None
