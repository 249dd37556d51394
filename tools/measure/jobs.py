"""Jobs and their response times.

A job is released and done. A periodic thread's job k is released at its phase plus k periods, whether or not the thread waited
for it, and the k-th line that ends a job ends job k. Other jobs begin with a line, a start or a wake, and each line that ends
one ends the oldest that is open.
"""
from __future__ import annotations

from bisect import bisect_left, bisect_right
from collections import deque
from collections.abc import Sequence
from dataclasses import dataclass
from fractions import Fraction

from view.lines import Deliver, Start

from .seen import Seen

SLEEP = "call clock_nanosleep"
# The calls in which a thread waits for its next job.
NEXT_JOB = ("clock_nanosleep", "nanosleep", "sigwaitinfo", "sigtimedwait", "sem_wait", "sem_timedwait", "mq_receive", "mq_timedreceive",
            "wait", "timedwait")


# The lines of a trace that no thread stands in.
OF_NO_THREAD = ("idle", "end", "killed")


class NamesNothing(Exception):
    """What is asked for is not in the trace, or is there where it cannot be."""


@dataclass(frozen=True, slots=True)
class Job:
    """When a job was released, and when it was done, if it was."""

    release: int
    done: int | None

    @property
    def response(self) -> int | None:
        return None if self.done is None else self.done - self.release


@dataclass(frozen=True, slots=True)
class Jobs:
    """The jobs of one measure: those that are done, in the order of their releases, the end of the run, and the releases behind these.

    A thread that is starved through a long run has more open jobs than anybody can list, so these are counted.
    """

    finished: list[Job]
    end: int
    open: Sequence[int] = ()

    @property
    def jobs(self) -> list[Job]:
        return [*self.finished, *(Job(release, None) for release in self.open)]

    @property
    def count(self) -> int:
        return len(self.finished) + len(self.open)

    @property
    def responses(self) -> list[int]:
        """The response times of the jobs that are done, the least first."""
        return sorted(job.response for job in self.finished)

    def late(self, deadline: int) -> int:
        """How many jobs took longer than the deadline; one that is not done counts where it is older at the end."""
        return sum(job.response > deadline for job in self.finished) + bisect_left(self.open, self.end - deadline)

    @property
    def mean(self) -> Fraction | None:
        responses = self.responses
        return Fraction(sum(responses), len(responses)) if responses else None

    def percentile(self, percent: int) -> int | None:
        """The least response time that at least so many of a hundred jobs that are done do not exceed."""
        responses = self.responses
        return responses[max(0, -(-percent * len(responses) // 100) - 1)] if responses else None

    @property
    def jitter(self) -> int | None:
        """The greatest response time less the least."""
        responses = self.responses
        return responses[-1] - responses[0] if responses else None


def thread_of(seen: Seen, name: str) -> str:
    """The name of a thread that is there. Without closing lines, which a trace lacks where a write failed, each name will do."""
    if seen.closing and name not in seen.closing:
        raise NamesNothing(f"the trace has no thread '{name}'; it has {', '.join(seen.closing)}")
    return name


def checked(seen: Seen, words: list[str]) -> list[str]:
    """The first words of a line, whose thread is there."""
    if len(words) > 1 and words[1] != "*" and words[0] not in OF_NO_THREAD:
        thread_of(seen, words[1])
    return words


def ends(seen: Seen, thread: str, to: str) -> list[tuple[int, int]]:
    """The lines that end jobs, as (line, time). `call CALL` is where the thread makes this call, waits or not."""
    words = to.split()
    if words[0] == "call":
        return [(-1, time) for time in seen.calls(thread_of(seen, thread), words[1])]
    return seen.lines(checked(seen, words))


def periodic(seen: Seen, thread: str, period: int, phase: int, to: str, count: int | None) -> Jobs:
    """The jobs of a thread that releases one at `phase` and at each period behind it, up to its end, at most `count` of them.

    What ends a job before the first release, as a sleep up to it, does not count.
    """
    last = min(seen.end, seen.end if (exited := seen.exited(thread_of(seen, thread))) is None else exited)
    releases = range(phase, last, period)
    if count is not None:
        releases = releases[:count]
    done = [time for _, time in ends(seen, thread, to) if time > phase]
    for release, time in zip(releases, done):
        if time <= release:
            raise NamesNothing(f"'{to}' at {time} ends a job before its release at {release}: the period, the phase or the line is another")
    if len(done) > len(releases):
        raise NamesNothing(f"'{to}' comes {len(done)} times for {len(releases)} jobs: the period, the phase or the line is another")
    return Jobs(list(map(Job, releases, done)), seen.end, releases[len(done):])


def behind_a_lost_signal(seen: Seen, thread: str, period: int, phase: int, to: str) -> int | None:
    """When a periodic thread first takes a signal of a timer although a release behind that of its job has passed: that one sent none.

    None where this never comes, or where the thread sleeps up to its releases, and does not wait for a timer.
    """
    if any(found.event.name == thread and found.event.call == "clock_nanosleep" for found in seen.returned):
        return None
    done = [time for _, time in ends(seen, thread, to) if time > phase]
    for event in seen.of(thread, Deliver):
        if event.code == "TIMER" and phase + (bisect_right(done, event.time) + 1) * period < event.time:
            return event.time
    return None


def asleep_with_an_open_job(seen: Seen, thread: str, period: int, phase: int, count: int | None) -> int | None:
    """When a thread whose sleeps end its jobs first sleeps although more are released than done, as none does by its own period and phase."""
    done = [time for time in seen.calls(thread, "clock_nanosleep") if time > phase]
    for found in seen.returned:
        at = found.waited_since
        if at is None or (found.event.name, found.event.call) != (thread, "clock_nanosleep"):
            continue
        released = max(0, (at - phase) // period + 1)
        if bisect_right(done, at) < (released if count is None else min(released, count)):
            return at
    return None


def in_its_first_job(seen: Seen, thread: str, release: int) -> bool:
    """Whether a thread lives at the end, and nothing tells that it has done the job of this release.

    It has where it called twice, since then, what it waits in for a job. The first such call may only begin the job.
    """
    if not seen.places.get((Start, thread)) or seen.exited(thread) is not None:
        return False
    return all(sum(time > release for time in seen.calls(thread, call)) < 2 for call in NEXT_JOB)


def answered(seen: Seen, begin: str, to: str, thread: str | None) -> Jobs:
    """The jobs that begin with a line, or with a start or a wake of the thread; each `to` ends the oldest that is open.

    A start or a wake opens nothing while one is open.
    """
    single = begin in ("start", "wake")
    if begin == "start":
        begins = seen.lines(["start", thread_of(seen, thread)])
    elif begin == "wake":
        thread_of(seen, thread)
        begins = [(call.line, call.event.time) for call in seen.returned if call.event.name == thread and call.waited_since is not None]
    else:
        begins = seen.lines(checked(seen, begin.split()))
    finishes = seen.lines(checked(seen, to.split()))
    return Jobs(*_matched(begins, finishes, single, seen.end))


def _matched(begins: list[tuple[int, int]], finishes: list[tuple[int, int]], single: bool, end: int) -> tuple[list[Job], int, list[int]]:
    finished: list[Job] = []
    events = sorted([(line, time, True) for line, time in begins] + [(line, time, False) for line, time in finishes])
    waiting: deque[int] = deque()
    for _, time, is_begin in events:
        if is_begin and not (single and waiting):
            waiting.append(time)
        elif not is_begin and waiting:
            finished.append(Job(waiting.popleft(), time))
    return finished, end, list(waiting)
