"""What must be said beside the figures of jobs, or beside a picture of them."""
from __future__ import annotations

from view.lines import Killed, Return

from .jobs import SLEEP, NamesNothing, in_its_first_job
from .measures import Measure, Table, asleep, jobs_of, lost_signal
from .seen import Seen

NO_EFFECT = ("EDEADLK", "EINVAL", "EMSGSIZE", "EOVERFLOW", "EPERM")
"""The answers of a call that was wrong by itself: not those of one that found nothing, or came late."""


def notes_of(seen: Seen, measures: list[Measure]) -> list[str]:
    """What a reader of the jobs must know. Raises NamesNothing where a measure names what never comes."""
    found = []
    for measure in measures:
        try:
            notes = measure.warning, _none_done(seen, measure), _later(seen, measure), _ended(seen, measure), _not_told(seen, measure)
        except NamesNothing as wrong:
            raise NamesNothing(f"measure '{measure.name}': {wrong}") from None
        found += filter(None, notes)
    return found


def without_effect(seen: Seen) -> dict[tuple[str, str], list[Return]]:
    """The calls that were refused, by their names and answers."""
    found: dict[tuple[str, str], list[Return]] = {}
    for event in seen.trace.events:
        if type(event) is Return and event.result in NO_EFFECT:
            found.setdefault((event.call, event.result), []).append(event)
    return found


def kills(seen: Seen) -> list[Killed]:
    return [event for event in seen.trace.events if type(event) is Killed]


def told_of_many(seen: Seen) -> list[str]:
    """What a reader of the figures of many runs must know of one, in words that are the same for each such run."""
    return [*(f"'{call}' answered {result} and had no effect" for call, result in without_effect(seen)),
            *(f"{event.signal} killed the process before the horizon" for event in kills(seen))]


def notes_of_run(seen: Seen) -> list[str]:
    """What a reader of any figure must know: calls without an effect, an early end, and that the threads are not told."""
    notes = [f"'{call}' answered {result} {count_of(len(times))} and had no effect, first to '{times[0].name}' at {times[0].time} (docs/CALLS.md)"
             for (call, result), times in without_effect(seen).items()]
    notes += [f"{event.signal} killed the process at {event.time}, and the run ends there: a thread does not mask it, and no line "
              f"'action {event.signal}' says what else it does" for event in kills(seen)]
    if not seen.closing:
        notes.append("the trace has no closing lines, as 'thread NAME ticks N' behind its end, so the tables have no threads and servers")
    return notes


def count_of(times: int) -> str:
    return "once" if times == 1 else f"{times} times"


def ends_by(measure: Measure) -> str:
    return str(measure.words.get("to", SLEEP))


def is_starved(seen: Seen, measure: Measure) -> bool:
    """Whether no job is done, and nothing tells that the thread that ends them has done its first one."""
    jobs = jobs_of(seen, measure.words)
    if jobs.finished or not jobs.open:
        return False
    words = ends_by(measure).split()
    thread = str(measure.words["thread"]) if words[0] == "call" else "".join(words[1:2])
    return in_its_first_job(seen, thread, jobs.open[0])


def _none_done(seen: Seen, measure: Measure) -> str | None:
    jobs = jobs_of(seen, measure.words)
    count, to = jobs.count, ends_by(measure)
    if not count:
        raise NamesNothing(f"'{measure.words['from']}' begins no job in this trace" if "from" in measure.words else
                           f"no job is released up to the end of the run or of the thread: the first is due at {measure.words.get('phase', 0)}")
    if jobs.finished:
        return None
    if not is_starved(seen, measure):
        raise NamesNothing(f"of {count} jobs none is done, for '{to}' does not come behind the beginning of one")
    return (f"measure '{measure.name}': of {count} jobs none is done, so there is no response time, and only late and open ones are counted; "
            f"the thread is still in the first, or '{to}' is not what ends one")


def _later_than_it_is(seen: Seen, words: Table) -> tuple[int, str] | None:
    """From when on the jobs of a measure count as later than they are, and why; None where they never do."""
    if (lost := lost_signal(seen, words)) is not None:
        return lost, "a timer expired while its last signal was still pending, so that a release has no signal (an overrun)"
    if (slept := asleep(seen, words)) is not None:
        return slept, "its thread sleeps although a job is released and not done, so that the period or the phase is another"
    return None


def _later(seen: Seen, measure: Measure) -> str | None:
    found = _later_than_it_is(seen, measure.words)
    return found and f"measure '{measure.name}': from {found[0]} on each job counts as later than it is, since {found[1]}"


def later_in_many(seen: Seen, words: Table) -> list[str]:
    """The same of one of many runs, in words that are the same for each."""
    found = _later_than_it_is(seen, words)
    return [f"measure '{words['name']}' counts jobs as later than they are, since {found[1]}"] if found else []


def ends_behind_a_release(seen: Seen, words: Table) -> bool:
    """Whether a periodic thread ended with jobs that are not done, as it jumped back or slept for one more release, and has no job there."""
    return words["kind"] == "periodic" and seen.exited(str(words["thread"])) is not None and bool(jobs_of(seen, words).open)


def _ended(seen: Seen, measure: Measure) -> str | None:
    if not ends_behind_a_release(seen, measure.words):
        return None
    ended, jobs = seen.exited(str(measure.words["thread"])), jobs_of(seen, measure.words)
    done = len(jobs.finished)
    return (f"measure '{measure.name}': its thread ended at {ended}, and of {jobs.count} jobs that were released up to there {done} are done; "
            f"where it has no more, say jobs={done}")


def _not_told(seen: Seen, measure: Measure) -> str | None:
    if measure.needs_detail and not seen.is_detail and seen.stands_at_the_end(str(measure.words["thread"])):
        return (f"measure '{measure.name}': a trace does not tell whether the last job is done, since a call that waits has no "
                "line; with --script FILE, or of a detail, it is told")
    return None
