"""Rules of version 2 and of strict servers."""
from __future__ import annotations

from .rule import Turned

RULES = [
    Turned("a strict server is low while all its replenishments pend", "state.py",
           "        if self.is_strict:\n            return self.capacity > 0\n", "", "strict_server_that_yields"),
    Turned("a strict server that may not plan more plans one more", "state.py",
           "if self.is_strict and len(self.pending) == self.parameters.limit:", "if False:",
           "strict_runs_join_one_replenishment"),
    Turned("a joined replenishment keeps its due tick", "state.py",
           "Replenishment(joined.amount + planned.amount, planned.due)",
           "Replenishment(joined.amount + planned.amount, joined.due)", "strict_runs_join_one_replenishment"),
    Turned("a joined replenishment keeps its amount", "state.py",
           "Replenishment(joined.amount + planned.amount, planned.due)", "Replenishment(joined.amount, planned.due)",
           "strict_runs_join_one_replenishment"),
    Turned("a strict server joins each replenishment", "state.py",
           "if self.is_strict and len(self.pending) == self.parameters.limit:", "if self.is_strict and self.pending:",
           "strict_server_refilled_as_it_is_used_up"),
    Turned("a strict server that yields is not closed", "machine.py",
           "        self.close_runs()\n", "", "strict_server_that_yields"),
    Turned("Close plans for the head too", "machine.py",
           "server.consumed > 0 and thread.number != head:", "server.consumed > 0:", "strict_server_keeps_its_window"),
    Turned("Close comes after the dispatch", "machine.py",
           "        self.close_runs()\n        head = self.dispatch()\n", "        head = self.dispatch()\n        self.close_runs()\n",
           "strict_runs_join_one_replenishment"),
    Turned("Open comes before the dispatch", "machine.py",
           "        head = self.dispatch()\n        if head is not None:\n            self.open_run(self.threads[head])\n",
           "        if self.head() is not None:\n            self.open_run(self.threads[self.head()])\n"
           "        head = self.dispatch()\n", "strict_server_keeps_its_window"),
    Turned("Open activates in the midst of a run", "machine.py",
           "server.is_high and server.consumed == 0:", "server.is_high:", "strict_server_keeps_its_window"),
    Turned("Open activates at the low priority", "machine.py",
           "server.is_strict and server.is_high and server.consumed == 0:", "server.is_strict and server.consumed == 0:",
           "strict_server_keeps_its_window"),
    Turned("a strict server is activated where a sporadic one is", "kernel.py",
           "thread.server.is_high and not thread.server.is_strict:", "thread.server.is_high:", "strict_server_that_sleeps"),
    Turned("upgrade keeps the version", "simulate.py",
           "replace(script, version=2)", "script", "script_is_upgraded"),
    Turned("a version that is not there is an unknown word", "reader.py",
           "Heading(2 if words == [\"version\", \"2\"] else 0, number)", "Heading(2 if words == [\"version\", \"2\"] else 1, None)",
           "version_that_is_not_there"),
]
