"""Rules of mutexes, conditions and semaphores."""
from __future__ import annotations

from .rule import Turned

RULES = [
    # Mutexes
    Turned("trylock ignores the ceiling", "sync_calls.py",
           "    answer = acquired(kernel, thread, kernel.mutexes[call.operands[0]], Res.BUSY)\n",
           "    mutex = kernel.mutexes[call.operands[0]]\n"
           "    if mutex.owner is None:\n"
           "        kernel.acquire(thread, mutex)\n"
           "        return kernel.returns(thread, call)\n"
           "    answer = acquired(kernel, thread, mutex, Res.BUSY)\n", "trylock_asks_for_the_ceiling"),
    Turned("trylock answers EDEADLK to the owner", "sync_calls.py",
           "kernel.mutexes[call.operands[0]], Res.BUSY)", "kernel.mutexes[call.operands[0]], Res.DEADLK)",
           "trylock_asks_for_the_ceiling"),
    Turned("lock answers EBUSY to the owner", "sync_calls.py",
           "answer = acquired(kernel, thread, mutex, Res.DEADLK)", "answer = acquired(kernel, thread, mutex, Res.BUSY)",
           "trylock_asks_for_the_ceiling"),
    Turned("a mutex is locked at most 65,534 times", "state.py",
           "GREATEST_COUNT = 65_535", "GREATEST_COUNT = 65_534", "lock_counted_to_its_limit"),
    Turned("a mutex that is not recursive is counted", "sync_calls.py",
           "if not mutex.kind.recursive:", "if False:", "trylock_asks_for_the_ceiling"),
    Turned("the ceiling is asked after the owner", "sync_calls.py",
           "    if above_ceiling(kernel, thread, mutex):\n",
           "    if mutex.owner != thread.number and above_ceiling(kernel, thread, mutex):\n",
           "trylock_asks_for_the_ceiling"),
    Turned("a lock that closes a cycle blocks", "sync_calls.py",
           "if answer is None and closes_cycle(kernel, thread, mutex):", "if False:", "deadlock_through_two_threads"),
    Turned("a time that has passed is asked before a cycle", "sync_calls.py",
           "    if answer is None and closes_cycle(kernel, thread, mutex):\n",
           "    if answer is None and due is not None and kernel.has_passed(due):\n"
           "        answer = Res.TIMEDOUT\n"
           "    if answer is None and closes_cycle(kernel, thread, mutex):\n", "timed_lock_that_closes_a_cycle"),
    Turned("a timed lock with a time of now blocks", "sync_calls.py",
           "if answer is None and due is not None and kernel.has_passed(due):\n        answer = Res.TIMEDOUT",
           "if answer is None and due is not None and kernel.due_tick(due) < kernel.time:\n        answer = Res.TIMEDOUT",
           "times_of_now"),
    Turned("unlock is for everybody", "sync_calls.py",
           "    if mutex.owner != thread.number:\n        return kernel.returns(thread, call, Res.PERM)\n"
           "    kernel.returns(thread, call)",
           "    if mutex.owner is None:\n        return kernel.returns(thread, call, Res.PERM)\n"
           "    kernel.returns(thread, call)", "unlock_is_for_the_owner"),
    Turned("one unlock frees a mutex that was locked twice", "sync_calls.py",
           "        mutex.count -= 1\n", "        kernel.release(number)\n", "order_of_the_answers_of_a_wait"),
    Turned("the second unlock frees a mutex that was locked three times", "sync_calls.py",
           "        mutex.count -= 1\n", "        mutex.count = 1\n", "recursive_mutex_is_counted"),
    Turned("an unlocked mutex is free for the next that asks", "kernel.py",
           "            self.acquire(best, mutex)\n            self.end_mutex_wait(best)",
           "            mutex.owner, mutex.count = None, 0\n            self.end_mutex_wait(best)",
           "boost_of_the_other_mutex_stays"),
    Turned("a thread that ends frees its mutexes", "kernel.py",
           "        thread.frames = []\n        thread.server = None\n",
           "        thread.frames = []\n        thread.server = None\n"
           "        for number, mutex in enumerate(self.mutexes):\n"
           "            if mutex.owner == thread.number:\n"
           "                self.release(number)\n", "mutex_of_a_thread_that_ended"),
    # Conditions
    Turned("a wait with a mutex locked twice blocks", "sync_calls.py",
           "if mutex.count > 1 or any(", "if any(", "wait_with_a_mutex_locked_twice"),
    Turned("a wait beside a wait with another mutex blocks", "sync_calls.py",
           "if mutex.count > 1 or any(other.wait.mutex != number for other in others):", "if mutex.count > 1:",
           "order_of_the_answers_of_a_wait"),
    Turned("a wait of the owner of a second mutex blocks", "sync_calls.py",
           "if any(other.owner == thread.number for other in kernel.mutexes if other is not mutex):", "if False:",
           "order_of_the_answers_of_a_wait"),
    Turned("a wait beside a wait on another condition with another mutex is refused", "sync_calls.py",
           "if other.waits_in(WaitKind.COND) and other.wait.target == cond]", "if other.waits_in(WaitKind.COND)]",
           "two_conditions_with_two_mutexes"),
    Turned("a wait asks for a second mutex before it asks for the count", "sync_calls.py",
           "    if mutex.count > 1 or any(",
           "    if any(other.owner == thread.number for other in kernel.mutexes if other is not mutex):\n"
           "        return kernel.returns(thread, call, Res.DEADLK)\n"
           "    if mutex.count > 1 or any(", "count_before_a_second_mutex"),
    Turned("a signal wakes every waiter", "sync_calls.py",
           "    if best is not None:\n        kernel.contend(best, CondEnd.SIGNALLED)",
           "    while (best := kernel.best_waiter(call.operands[0], WaitKind.COND)) is not None:\n"
           "        kernel.contend(best, CondEnd.SIGNALLED)", "signal_wakes_one"),
    Turned("a broadcast goes by number", "sync_calls.py",
           "while (best := kernel.best_waiter(call.operands[0], WaitKind.COND)) is not None:",
           "while (best := next((t for t in kernel.threads if t.waits_in(WaitKind.COND)"
           " and t.wait.target == call.operands[0]), None)) is not None:",
           "broadcast_by_arrival_not_by_number"),
    Turned("a condition wait that timed out is woken without its mutex", "machine.py",
           "self.contend(thread, CondEnd.TIMEDOUT)", "self.wake(thread, Res.TIMEDOUT)",
           "timed_out_waiter_takes_no_signal"),
    Turned("a thread that contends keeps the time of its wait", "kernel.py",
           "thread.wait = Wait(WaitKind.CONTENTION, call, target=number, end=end)",
           "thread.wait = Wait(WaitKind.CONTENTION, call, target=number, end=end, due=thread.wait.due)",
           "contender_has_no_time"),
    Turned("a condition wait that was signalled after its time answers 0", "kernel.py",
           "self.wake(thread, Res.TIMEDOUT if thread.wait.end is CondEnd.TIMEDOUT else Res.ZERO)",
           "self.wake(thread, Res.ZERO)", "timed_out_waiter_takes_no_signal"),
    # Semaphores
    Turned("a semaphore stops at 32,766", "state.py",
           "GREATEST_SEM = 32_767", "GREATEST_SEM = 32_766", "semaphore_counts_to_its_limit"),
    Turned("a post beside a waiter raises the value too", "sync_calls.py",
           "        kernel.returns(thread, call)\n        return kernel.wake(best)",
           "        kernel.returns(thread, call)\n        kernel.sems[number] += 1\n        return kernel.wake(best)",
           "semaphore_wait_interrupted"),
    Turned("a semaphore wait takes nothing from the value", "sync_calls.py",
           "        kernel.sems[number] -= 1\n        return kernel.returns(thread, call)\n    if due",
           "        return kernel.returns(thread, call)\n    if due", "semaphore_is_taken_and_timed"),
    Turned("a timed semaphore wait ends at once", "sync_calls.py",
           "    if due is not None and kernel.has_passed(due):\n        return kernel.returns(thread, call, Res.TIMEDOUT)\n"
           "    kernel.block(thread, Wait(WaitKind.SEM",
           "    if due is not None:\n        return kernel.returns(thread, call, Res.TIMEDOUT)\n"
           "    kernel.block(thread, Wait(WaitKind.SEM", "semaphore_is_taken_and_timed"),
    Turned("sem_trywait at 0 answers EBUSY", "sync_calls.py",
           "    if kernel.sems[number] == 0:\n        return kernel.returns(thread, call, Res.AGAIN)",
           "    if kernel.sems[number] == 0:\n        return kernel.returns(thread, call, Res.BUSY)", "semaphore_edges"),
    Turned("a timed semaphore wait with a time of now blocks", "sync_calls.py",
           "    if due is not None and kernel.has_passed(due):\n        return kernel.returns(thread, call, Res.TIMEDOUT)\n"
           "    kernel.block(thread, Wait(WaitKind.SEM",
           "    if due is not None and kernel.due_tick(due) < kernel.time:\n        return kernel.returns(thread, call, Res.TIMEDOUT)\n"
           "    kernel.block(thread, Wait(WaitKind.SEM", "times_of_now"),
]
