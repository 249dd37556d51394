"""Rules of sporadic servers."""
from __future__ import annotations

from .rule import Turned

RULES = [
    Turned("a server is high while capacity is left, whatever is pending", "state.py",
           "return self.capacity > 0 and len(self.pending) < self.parameters.limit", "return self.capacity > 0",
           "low_while_all_replenishments_pend"),
    Turned("one more replenishment may be pending", "state.py",
           "len(self.pending) < self.parameters.limit", "len(self.pending) <= self.parameters.limit",
           "low_while_all_replenishments_pend"),
    Turned("a replenishment is due one period after its plan", "state.py",
           "self.activation + self.parameters.period)", "now + self.parameters.period)", "six_high_ticks_in_one_period"),
    Turned("a refill gives the whole budget back", "state.py",
           "min(self.capacity + done.amount, self.parameters.budget)", "self.parameters.budget",
           "refill_between_two_sleeps"),
    Turned("a refill activates no runnable thread", "machine.py",
           "if server.is_high and not was_high and thread.is_ready:", "if False:", "overdue_refill_comes_at_once"),
    Turned("a refill activates a blocked thread", "machine.py",
           "if server.is_high and not was_high and thread.is_ready:", "if server.is_high and not was_high:",
           "refill_raises_a_waiter"),
    Turned("each refill activates", "machine.py",
           "if server.is_high and not was_high and thread.is_ready:", "if thread.is_ready:", "refill_of_a_running_server"),
    Turned("a server that blocks plans nothing", "machine.py",
           "thread.server is charged and thread.state is ThreadState.BLOCKED:\n            self.plan(thread)",
           "thread.server is charged and thread.state is ThreadState.BLOCKED:\n            pass",
           "refill_between_two_sleeps"),
    Turned("a preemption plans", "machine.py",
           "        self.last_dispatch = now_runs\n",
           "        last, self.last_dispatch = self.last_dispatch, now_runs\n"
           "        if isinstance(last, int) and last != head and self.threads[last].is_ready:\n"
           "            if self.threads[last].server is not None and self.threads[last].server.consumed:\n"
           "                self.plan(self.threads[last])\n", "overdue_refill_comes_at_once"),
    Turned("the owner of a mutex with inheritance goes to the tail when its server is used up", "machine.py",
           "            if not self.owns_boosting(thread):\n                self.move_later(thread)",
           "            self.move_later(thread)", "used_up_server_that_owns_a_mutex"),
    Turned("a server that is used up goes to the head of its low list", "machine.py",
           "            if not self.owns_boosting(thread):\n                self.move_later(thread)",
           "            pass", "used_up_server_goes_to_the_tail"),
    Turned("setsched with the same parameters keeps the server", "thread_calls.py",
           "target.server = Server(target.policy, kernel.time) if is_server else None",
           "target.server = target.server or (Server(target.policy, kernel.time) if is_server else None)",
           "rescheduled_in_the_tick_that_exhausts"),
    Turned("the tick's end plans for a server that setsched made in this tick", "machine.py",
           "        elif charged is not None and thread.server is charged and thread.is_ready and charged.capacity == 0:",
           "        elif charged is not None and thread.server is not None and thread.is_ready and charged.capacity == 0:",
           "rescheduled_in_the_tick_that_exhausts"),
    Turned("setsched activates a blocked thread", "thread_calls.py",
           "if target.is_ready and is_server:", "if is_server:", "setsched_of_a_blocked_thread"),
    Turned("setprio at the low priority of a server is taken", "thread_calls.py",
           "priority <= target.policy.low", "priority < target.policy.low",
           "priority_of_a_server_stays_above_its_low_one"),
    Turned("setprio asks for the low priority before it asks whether the server lives", "thread_calls.py",
           "    if not target.is_live:\n        return kernel.returns(thread, call, Res.SRCH)\n"
           "    if isinstance(target.policy, Sporadic) and priority <= target.policy.low:\n"
           "        return kernel.returns(thread, call, Res.INVAL)\n",
           "    if isinstance(target.policy, Sporadic) and priority <= target.policy.low:\n"
           "        return kernel.returns(thread, call, Res.INVAL)\n"
           "    if not target.is_live:\n        return kernel.returns(thread, call, Res.SRCH)\n",
           "priority_of_a_server_that_does_not_live"),
    Turned("setprio gives a server back what it used", "kernel.py",
           "                thread.server.high = priority",
           "                thread.server.high = priority\n"
           "                thread.server.capacity = parameters.budget\n"
           "                thread.server.consumed = 0", "setprio_of_a_server_in_its_budget"),
    Turned("a wake activates no server", "kernel.py",
           "if thread.server is not None and thread.server.is_high and not", "if False and not", "refill_between_two_sleeps"),
    Turned("a wake activates a server at its low priority", "kernel.py",
           "if thread.server is not None and thread.server.is_high and not", "if thread.server is not None and not",
           "low_while_all_replenishments_pend"),
    Turned("a ceiling is compared with the execution priority", "sync_calls.py",
           "kernel.assigned(thread) > mutex.kind.ceiling", "kernel.exec(thread) > mutex.kind.ceiling",
           "ceiling_is_compared_with_the_own_priority"),
    Turned("a ceiling is compared before the charge", "sync_calls.py",
           "kernel.assigned(thread) > mutex.kind.ceiling",
           "(thread.policy.high if thread.server and thread.server.consumed else kernel.assigned(thread))"
           " > mutex.kind.ceiling", "ceiling_compared_after_the_charge"),
]
