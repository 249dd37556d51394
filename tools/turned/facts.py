"""Rules of facts, of show and of detail."""
from __future__ import annotations

from .rule import Turned

RULES = [
    Turned("a list is told tail first", "facts.py",
           "self.told(kernel.lists[priority]) if", "self.told(kernel.lists[priority][::-1]) if",
           "facts_of_sixty_four_threads_on_one_list"),
    Turned("waiters are told by age alone", "facts.py",
           "(-self.exec_priorities[thread.number], thread.wait.serial)", "thread.wait.serial", "facts_of_equal_waiters"),
    Turned("equal waiters are told by number", "facts.py",
           "(-self.exec_priorities[thread.number], thread.wait.serial)", "-self.exec_priorities[thread.number]",
           "facts_of_equal_waiters"),
    Turned("the assigned priority is told in place of the execution priority", "facts.py",
           "{self.kernel.assigned(thread)} {self.exec_priorities[thread.number]}",
           "{self.kernel.assigned(thread)} {self.kernel.assigned(thread)}", "facts_of_an_inherit_chain"),
    Turned("a contending thread waits for its condition", "facts.py",
           "(ObjectKind.MUTEX, (WaitKind.MUTEX, WaitKind.CONTENTION))", "(ObjectKind.MUTEX, (WaitKind.MUTEX,))",
           "facts_of_a_condition_and_contenders"),
    Turned("an ended thread keeps its mask", "facts.py",
           "if thread.is_live and thread.mask else", "if thread.mask else", "facts_of_an_owner_that_ended"),
    Turned("an ended thread keeps its cancelability", "facts.py",
           "        if not thread.is_live:\n            return \"\"\n        held", "        held", "facts_of_an_owner_that_ended"),
    Turned("a mutex whose owner ended is free", "facts.py",
           "return \"\" if mutex.owner is None else",
           "return \"\" if mutex.owner is None or not self.kernel.threads[mutex.owner].is_live else",
           "facts_of_an_inherit_chain"),
    Turned("messages are told in the order in which they came", "facts.py",
           "sorted(self.kernel.queues[number].messages, key=lambda message: -message.urgency)",
           "self.kernel.queues[number].messages", "facts_of_two_queues"),
    Turned("cleanups are told first pushed first", "facts.py",
           "for number in reversed(thread.cleanups))", "for number in thread.cleanups)", "facts_of_cleanups_and_frames"),
    Turned("frames are told outermost first", "facts.py",
           "for frame in reversed(thread.frames[1:]))", "for frame in thread.frames[1:])", "facts_of_cleanups_and_frames"),
    Turned("a fact is told though it did not change", "facts.py",
           "zip(subjects, old_row, new_row) if old != new]", "zip(subjects, old_row, new_row)]", "facts_of_an_inherit_chain"),
    Turned("a fact that becomes empty is not told", "facts.py",
           "zip(subjects, old_row, new_row) if old != new]", "zip(subjects, old_row, new_row) if old != new and new]",
           "facts_of_an_inherit_chain"),
    Turned("facts stand before the lines of their instant", "detail.py",
           "        lines += [event_line(event) for event in here]\n"
           "        lines += [f\"{now} {text}\\n\" for text in facts.changes(before, after)]\n",
           "        lines += [f\"{now} {text}\\n\" for text in facts.changes(before, after)]\n"
           "        lines += [event_line(event) for event in here]\n", "facts_of_an_inherit_chain"),
    Turned("detail tells the state before the items of an instant", "detail.py",
           "        machine.handle_due_items()\n        if machine.killed is not None:\n            break\n"
           "        now, after = machine.now, facts.rows()\n",
           "        now, after = machine.now, facts.rows()\n"
           "        machine.handle_due_items()\n        if machine.killed is not None:\n            break\n",
           "facts_of_an_inherit_chain"),
    Turned("show tells the state before the items of its instant", "detail.py",
           "    machine.run_until(instant)\n    machine.handle_due_items()\n", "    machine.run_until(instant)\n",
           "facts_of_the_instant_at_the_horizon"),
    Turned("a call that a cancellation ends answers 0", "kernel.py",
           "        self.make_ready(thread)\n        self.begin_ending(thread)\n",
           "        self.make_ready(thread)\n        thread.frame.result, thread.frame.value = Res.ZERO, 0\n"
           "        self.begin_ending(thread)\n", "facts_of_cancelled_threads"),
    Turned("the rest of a covered unit is told", "facts.py",
           "    if frame.left >= 1:\n        lines.append(f\"left {name} {frame.left}\")",
           "    rest = max(one.left for one in thread.frames)\n    if rest >= 1:\n"
           "        lines.append(f\"left {name} {rest}\")", "facts_of_a_handler_above_a_cleanup"),
]
