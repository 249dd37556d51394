"""The events of Linux's tracing: as text, and as a file that trace-cmd reads."""
from __future__ import annotations

import re
import tempfile
import unittest
from pathlib import Path

from view.main import drawer
from view.timeline import Timeline

from .readers import needs, run
from .test_details import example
from .worked import CONTROLLER, CONTROLLER_RUNS, SLEEPS, TWO_BUDGETS, timeline

SWITCH = re.compile(r"\s(\d+)\.(\d{9}): sched_switch: prev_comm=(\S+) prev_pid=\d+ prev_prio=(\d+) prev_state=(\w) ==> next_comm=(\S+) next_pid=\d+ next_prio=(\d+)")


def switches(text: str) -> list[tuple[int, str, str, str, int]]:
    """Time in nanoseconds, who leaves, in which state, who comes, at which priority of Linux."""
    return [(int(s) * 10**9 + int(n), before, state, after, int(priority)) for s, n, before, _, state, after, priority in SWITCH.findall(text)]


class Text(unittest.TestCase):
    def test_who_runs(self) -> None:
        told = switches(drawer("ftrace")(timeline(CONTROLLER)))
        wanted = [(start, name, 99 - priority) for start, _, name, priority in CONTROLLER_RUNS]
        wanted.insert(3, (7, "swapper/0", 120))
        self.assertEqual([(time, after, priority) for time, _, _, after, priority in told], wanted)

    def test_states_and_wakes(self) -> None:
        text = drawer("ftrace")(example("07_pathfinder"))
        self.assertEqual([(time, before, state) for time, before, state, _, _ in switches(text)][1:4],
                         [(7, "bus_task", "S"), (16, "weather", "R"), (18, "bus_task", "D")])
        self.assertIn(" 0.000000016: sched_waking: comm=bus_task pid=1001 prio=90 target_cpu=000", text)

    def test_the_length_of_a_tick(self) -> None:
        seen = timeline(CONTROLLER)
        seen.tick = "20ms"
        self.assertEqual([time for time, *_ in switches(drawer("ftrace")(seen))][1:3], [5 * 20_000_000, 6 * 20_000_000])


class File(unittest.TestCase):
    def report(self, seen: Timeline) -> str:
        trace_cmd = needs("trace.dat in trace-cmd", "trace-cmd")
        with tempfile.TemporaryDirectory() as folder:
            file = Path(folder) / "t.dat"
            file.write_bytes(drawer("trace.dat")(seen))
            ended = run([trace_cmd, "report", "-t", "-i", str(file)])
            self.assertEqual(ended.returncode, 0, ended.stderr)
            return ended.stdout.decode()

    def check(self, seen: Timeline) -> None:
        """trace-cmd tells the events of the text, in its order, with the same times and tasks."""
        wanted = [(f"{int(s)}.{n}", event) for s, n, event in re.findall(r"\s(\d+)\.(\d{9}): (\w+):", drawer("ftrace")(seen))]
        told = [(f"{int(s)}.{n}", event) for s, n, event in re.findall(r"\s(\d+)\.(\d{9}): (\w+):", self.report(seen))]
        self.assertEqual(told, wanted)

    def test_trace_cmd_reads_it(self) -> None:
        for name in (CONTROLLER, TWO_BUDGETS):
            self.check(timeline(name))
        text = self.report(timeline(CONTROLLER))
        self.assertRegex(text, r"ctl-1001 +\[000\] +0\.000000025: sched_switch: +ctl:1001 \[69\] S ==> mon:1003 \[69\]")

    def test_times_that_lie_far_apart(self) -> None:
        self.check(timeline(SLEEPS))

    def test_many_pages(self) -> None:
        from .details import detail_of
        from .test_details import seen_of
        seen = seen_of(detail_of(b"quantum 1\nthread a rr 5 at 0\nrun 400\nend\nthread b rr 5 at 0\nrun 400\nend\n", 900))
        self.assertGreater(len(drawer("trace.dat")(seen)), 12 * 4096)
        self.check(seen)


if __name__ == "__main__":
    unittest.main()
