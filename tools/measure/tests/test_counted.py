"""The figures of generated scripts and of periodic tasks, against what is counted tick by tick in the reference's machine."""
from __future__ import annotations

import random
import unittest
from collections import Counter
from collections.abc import Iterator

from measure.jobs import periodic
from measure.seen import Seen
from measure.usage import at_priorities, high_ticks, ready_ticks, stops_of, ticks_of, waits_of
from view.lines import read_trace
from view.tests.details import detail_of, trace_of

from .watched import Watched

from forms import Stage  # noqa: E402  (the reference is on the path by `watched`)
from generate import accepted  # noqa: E402

SCRIPTS = 24


def seen_of(text: bytes) -> Seen:
    return Seen(read_trace(text.splitlines(keepends=True)))


def scripts(count: int) -> Iterator[tuple[bytes, int, tuple[int, str]]]:
    """Scripts of both versions with their horizons, and what each is called: those of version 2 have strict servers."""
    for seed in range(count):
        stage = (Stage.WHOLE, Stage.VERSION2)[seed % 2]
        yield *accepted(seed, stage), (seed, stage.name)


class Counted(unittest.TestCase):
    """A wait that ends and begins anew in the same call within one instant is told as one by the count, so counts are at most."""

    def test_threads(self) -> None:
        stopped = waited = lifted = 0
        for script, horizon, seed in scripts(SCRIPTS):
            machine = Watched(script)
            machine.run_until(horizon)
            seen = seen_of(detail_of(script, horizon))
            for number, thread in enumerate(machine.threads):
                name, what = thread.name, (seed, thread.name)
                self.assertEqual(ticks_of(seen, name), machine.ran(number), what)
                self.assertEqual(ready_ticks(seen, name), machine.ready(number), what)
                stops = stops_of(seen, name)
                self.assertEqual((stops.preempted, stops.turns), machine.stops(number), what)
                self.assertEqual(at_priorities(seen, name), dict(machine.at_priorities(number)), what)
                waits = Counter({(wait.call, "" if wait.on.startswith("rt") or wait.on == "all" else wait.on): 0 for wait in waits_of(seen, name)})
                counts = Counter(waits)
                for wait in waits_of(seen, name):
                    key = wait.call, "" if wait.call.startswith("sig") else wait.on
                    waits[key] += wait.ticks
                    counts[key] += wait.times
                self.assertEqual(+waits, machine.waits(number), what)
                self.assertEqual(+counts, machine.wait_counts(number), what)
                self.assertEqual(sum(wait.end - wait.start for wait in seen.blocked(name)), machine.blocked(number), what)
                stopped, waited = stopped + stops.preempted, waited + sum(counts.values())
                lifted += len(at_priorities(seen, name)) > 1
        self.assertGreater(min(stopped, waited, lifted), 10)

    def test_high_ticks_from_a_trace_alone(self) -> None:
        servers = 0
        for script, horizon, seed in scripts(3 * SCRIPTS):
            machine = Watched(script)
            machine.run_until(horizon)
            seen = seen_of(trace_of(script, horizon))
            for number, thread in enumerate(machine.threads):
                high = high_ticks(seen, thread.name)
                if high is not None:
                    servers += high > 0
                    self.assertEqual(high, machine.high(number), (seed, thread.name))
        self.assertGreater(servers, 10)


class PeriodicTasks(unittest.TestCase):
    """Sets of periodic threads, some of them overloaded: when each job is done is counted from the ticks that its thread has run."""

    def check(self, seed: int) -> tuple[int, int]:
        """How many jobs were late, and how many not done."""
        draw = random.Random(seed)
        tasks = [(f"t{n}", draw.randrange(1, 40), draw.randrange(1, 12), draw.choice((8, 10, 15, 25)), draw.randrange(0, 9)) for n in range(3)]
        script = "".join(
            f"thread {name} fifo {priority} at {phase}\nset {phase}\nforever\nrun {work}\ngettime\nadd {period}\nclock_nanosleep reg\nend\nend\n"
            for name, priority, work, period, phase in tasks).encode()
        machine = Watched(script)
        machine.run_until(300)
        trace, detail = seen_of(trace_of(script, 300)), seen_of(detail_of(script, 300))
        late = still_open = 0
        for number, (name, _, work, period, phase) in enumerate(tasks):
            # A job has the work, the gettime, the sleep, and from the second on the jump back before them.
            for to, into in ((f"return {name} gettime", work + 1), ("call clock_nanosleep", work + 2)):
                wanted = [machine.ended_after(number, k * (work + 3) + into) for k in range(len(range(phase, 300, period)))]
                if to.startswith("call") and 300 in wanted and phase + (wanted.index(300) + 1) * period > 300:
                    wanted[wanted.index(300)] = None  # What begins to wait at the very end has neither a line nor a fact.
                jobs = periodic(detail, name, period, phase, to, None)
                self.assertEqual([(job.release, job.done) for job in jobs.jobs], list(zip(range(phase, 300, period), wanted)), (seed, name, to))
                if to.startswith("return"):
                    self.assertEqual(periodic(trace, name, period, phase, to, None), jobs)
                deadline = period - 2
                self.assertEqual(jobs.late(deadline), sum((300 if done is None else done) - release > deadline
                                                          for release, done in zip(range(phase, 300, period), wanted)))
                late, still_open = late + jobs.late(deadline), still_open + len(jobs.open)
        return late, still_open

    def test_jobs(self) -> None:
        counts = [self.check(seed) for seed in range(12)]
        self.assertGreater(sum(late for late, _ in counts), 50)
        self.assertGreater(sum(still_open for _, still_open in counts), 10)


if __name__ == "__main__":
    unittest.main()
