"""Jobs in a picture: a mark at each release, and one at each deadline that is missed."""
from __future__ import annotations

from itertools import islice

from measure.jobs import Job, Jobs
from measure.measures import Measure, jobs_of
from measure.notes import ends_by, notes_of
from measure.seen import Seen

from .timeline import Mark, MarkKind, Timeline

#: so many jobs that are not done are marked at most: a thread that is starved through a long run has more than any picture shows
MOST_OPEN = 10_000


def mark_jobs(seen: Timeline, measures: list[Measure]) -> list[str]:
    """Puts the jobs of each measure above the thread that does them, and tells what a reader of the picture must know.

    Raises NamesNothing where a measure names what is not there.
    """
    trace = Seen(seen.trace)
    notes = notes_of(trace, measures)
    threads = {thread.name: thread for thread in seen.threads}
    for measure in measures:
        jobs = jobs_of(trace, measure.words)
        thread = threads.get(str(measure.words.get("thread") or "".join(ends_by(measure).split()[1:2])))
        if thread is None:
            continue
        deadline = measure.words.get("deadline", measure.words.get("period"))
        for number, job in enumerate([*jobs.finished, *_first_open(jobs)]):
            thread.marks += _marks(number, job, deadline, jobs.end)
        if len(jobs.open) > MOST_OPEN:
            notes.append(f"measure '{measure.name}': of {len(jobs.open)} jobs that are not done the first {MOST_OPEN} are marked")
        thread.marks.sort(key=lambda mark: mark.time)
    return notes


def _first_open(jobs: Jobs) -> list[Job]:
    return [Job(release, None) for release in islice(jobs.open, MOST_OPEN)]


def _marks(number: int, job: Job, deadline: int | None, end: int) -> list[Mark]:
    done = f"done at {job.done}, {job.response} ticks" if job.done is not None else "not done in this run"
    told = f"job {number} is released at {job.release}; {done}"
    marks = [Mark(job.release, MarkKind.RELEASE, "", -1, told)]
    if deadline is not None and (end if job.done is None else job.done) - job.release > deadline:
        marks.append(Mark(job.release + deadline, MarkKind.LATE, "late", -1, f"the deadline of job {number}: {told}"))
    return marks
