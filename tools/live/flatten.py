"""A script as the numbers that the runner reads."""
from __future__ import annotations

from forms import RESULTS, ObjectKind
from script import (
    AddRegister, Block, Call, Guard, Loop, MutexKind, Operand, Rr, Run, Script, SetRegister, Step, TakeValue, Test, ThreadKind)

RUN, CALL, SET, ADD, TAKE, TEST, LOOP, JUMP, PUSH, POP, FINISH = range(11)

#: the calls in the order of runner.h
CALLS = (
    "yield create join cancel testcancel setcancel push pop exit setprio setsched lock timedlock trylock unlock "
    "wait timedwait signal broadcast sem_wait sem_timedwait sem_trywait sem_getvalue sem_post nanosleep "
    "clock_nanosleep gettime timer_settime timer_gettime timer_getoverrun kill tkill sigqueue sigmask sigwaitinfo "
    "sigtimedwait mq_send mq_timedsend mq_receive mq_timedreceive mq_notify").split()

#: the words of one operation, as runner.h has it
OPERATION_WORDS = 10
MOST_LOOPS = 64
SIGNALS = 31
NEVER = -1
KILLS, IGNORED = -1, -2


class TooMany(Exception):
    """A body has more loops than the runner has room for."""


def operand(value: Operand) -> list[int]:
    """Whether an operand is the register, and else its number."""
    return [1, 0] if value.number is None else [0, value.number]


def operands_of(call: Call) -> list[int]:
    """The operands of a call; a word between two of them is told by its number among its choices."""
    found: list[int] = []
    for value in call.operands:
        found += operand(value) if isinstance(value, Operand) else [value]
    match call.word:
        case "setsched":
            return [found[0], int(call.choice == "rr"), found[1]]
        case "setcancel":
            return [int(call.choice == "enable")]
        case "sigmask":
            return [("block", "unblock", "set").index(call.choice), found[0]]
        case "timer_settime":
            absolute = call.choice == "abs"
            first = found[1:-1] if absolute else [0, found[1]]
            return [found[0], int(absolute), *first, found[-1]]
    return found


def protocol_of(mutex: MutexKind) -> list[int]:
    """0 none, 1 inherit, 2 protect, and the ceiling."""
    return [int(mutex.inherit), 0] if mutex.ceiling is None else [2, mutex.ceiling]


class Code:
    """The operations of all bodies, one behind the other."""

    def __init__(self, handlers: int) -> None:
        self.operations: list[list[int]] = []
        self.handlers = handlers
        self._loops = 0

    def add(self, *words: int) -> int:
        self.operations.append(list(words))
        return len(self.operations) - 1

    def body(self, steps: Block) -> int:
        """Adds a body; the answer is its place."""
        place = len(self.operations)
        self._loops = 0
        self._steps(steps)
        self.add(FINISH)
        if self._loops > MOST_LOOPS:
            raise TooMany
        return place

    def _steps(self, steps: Block) -> None:
        for step in steps:
            self._step(step)

    def _step(self, step: Step) -> None:
        match step:
            case Run(ticks):
                self.add(RUN, ticks)
            case Call():
                self.add(CALL, CALLS.index(step.word), *operands_of(step))
            case SetRegister(number):
                self.add(SET, number)
            case AddRegister(number):
                self.add(ADD, number)
            case TakeValue():
                self.add(TAKE)
            case Test(res, equal, body):
                at = self.add()
                self._steps(body)
                self.operations[at] = [TEST, errno_of(res.value), int(equal), len(self.operations)]
            case Loop(times, body):
                loop, self._loops = self._loops, self._loops + 1
                top = self.add(LOOP, loop, -1 if times is None else times) + 1
                self._steps(body)
                self.add(JUMP, loop, top)
            case Guard(cleanup, _, body, pop):
                at = self.add()
                self._steps(body)
                self.operations[at] = [PUSH, self.handlers + cleanup, len(self.operations), int(pop.choice)]
                self.add(POP)


def errno_of(result: str) -> int:
    """The number that this machine's <errno.h> gives a result."""
    import errno
    return 0 if result == "0" else getattr(errno, result)


assert all(result == "0" or errno_of(result) > 0 for result in RESULTS)


def flatten(script: Script) -> list[int]:
    """The numbers of a script: counts, threads, bodies, objects, actions, code."""
    kinds = {kind: [named.kind for named in script.objects(kind)] for kind in ObjectKind}
    code = Code(len(kinds[ObjectKind.HANDLER]))
    threads: list[ThreadKind] = kinds[ObjectKind.THREAD]
    out: list[int] = []
    for thread in threads:
        start = NEVER if thread.start is None else thread.start
        out += [int(isinstance(thread.policy, Rr)), thread.policy.priority, start, code.body(thread.body)]
    bodies = kinds[ObjectKind.HANDLER] + kinds[ObjectKind.CLEANUP]
    out += [code.body(body.body) for body in bodies]
    for mutex in kinds[ObjectKind.MUTEX]:
        out += [*protocol_of(mutex), int(mutex.recursive)]
    out += [sem.value for sem in kinds[ObjectKind.SEM]]
    for queue in kinds[ObjectKind.QUEUE]:
        out += [queue.depth, queue.greatest, int(queue.nonblock)]
    for timer in kinds[ObjectKind.TIMER]:
        out += [timer.signal, timer.value]
    out += [action_of(script.actions(), signal) for signal in range(SIGNALS)]
    out.append(len(code.operations))
    for operation in code.operations:
        out += operation + [0] * (OPERATION_WORDS - len(operation))
    counted = (ObjectKind.MUTEX, ObjectKind.COND, ObjectKind.SEM, ObjectKind.QUEUE, ObjectKind.TIMER)
    return [len(threads), len(bodies), *(len(kinds[kind]) for kind in counted), *out]


def action_of(actions: dict[int, int | None], signal: int) -> int:
    """The handler that a signal runs, or what else it does."""
    if signal not in actions:
        return KILLS
    return IGNORED if actions[signal] is None else actions[signal]
