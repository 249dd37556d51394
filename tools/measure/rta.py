"""Response times that are proved beside those that were seen: the tasks of a script, given to the command `rta`.

What `rta` proves is of tasks that are released at their periods, need the processor alone, and wait for nobody but a thread of
lower priority under a priority ceiling. Where a thread is none of these the analysis does not apply, and the reason is told.
"""
from __future__ import annotations

from dataclasses import dataclass
from fractions import Fraction

from view.source import RESPONSE_TIMES, answer

from .jobs import SLEEP, Jobs, NamesNothing, periodic
from .measures import Measure, jobs_of, shown
from .seen import Seen
from .tables import Table
from .sections import Perhaps, Stretches, mutexes, stretches_of
from .tasks import GREATEST_COST, GREATEST_PERIOD, NoTask, Script, Task, tasks_of, whole_script_reasons

TOOL = "pse52-measure"
GREATEST_BOUND = 100_000_000
MOST_TASKS = 255


@dataclass
class Analysed:
    """A task with its blocking, its deadline, why the analysis does not apply, and what is proved and seen."""

    task: Task
    deadline: int | None
    blocking: int = 0
    why: str | None = None
    proved: int | None = None
    bound: int = 0
    seen: Jobs | None = None

    @property
    def told(self) -> str:
        """The response time that is proved, or that there is none up to the bound."""
        return "" if self.why is not None else f">{self.bound}" if self.proved is None else str(self.proved)

    @property
    def verdict(self) -> str:
        """What follows for the deadline. Beyond the period only the first job is proved of, and a later one may take longer."""
        late = self.seen.late(self.deadline) if self.seen and self.deadline is not None else 0
        longest = max(self.seen.responses, default=0) if self.seen else 0
        within = self.why is None and self.proved is not None and self.proved <= (self.task.period or GREATEST_PERIOD)
        if within and longest > self.proved:
            return "longer than proved"
        if late:
            return "late"
        if self.why is not None:
            return "not analysed"
        if self.deadline is None:
            return "runs once"
        return "in time" if within and self.proved <= self.deadline else "may be late"


def shared(script: Script, tasks: list[Task]) -> dict[int, list[Task]]:
    """The threads that lock each mutex which several threads lock."""
    users = {number: [task for task in tasks if number in task.locks] for number in range(len(mutexes(script)))}
    return {number: found for number, found in users.items() if len(found) > 1}


# The ticks of each stretch with the highest ceiling that a thread has there, 0 where it has none; what a test may leave out is a list.
Ceilings = list["tuple[int, int] | Ceilings"]


def ceilings_of(script: Script, task: Task, stretches: Stretches) -> Ceilings:
    """The ceilings of a thread in its stretches. One below its own priority gives none."""
    kinds = [kind for _, kind in mutexes(script)]
    return [ceilings_of(script, task, stretch.found) if isinstance(stretch, Perhaps) else
            (stretch.ticks, max((kinds[m].ceiling or 0 for m in stretch.owned if (kinds[m].ceiling or 0) >= task.priority), default=0))
            for stretch in stretches]


def longest_above(ceilings: Ceilings, priority: int) -> int:
    """The longest stretch in which the ceiling is at least this priority."""
    return _longest_above(ceilings, priority, 0)[0]


def _longest_above(ceilings: Ceilings, priority: int, now: int) -> tuple[int, int]:
    """The longest stretch, and that at the end, where one of `now` ticks lies in front: each test may come true or not."""
    longest = now
    for part in ceilings:
        if isinstance(part, list):
            most, taken = _longest_above(part, priority, now)
            longest, now = max(longest, most), max(now, taken)
        else:
            ticks, ceiling = part
            now = now + ticks if ceiling >= priority else 0
            longest = max(longest, now)
    return longest, now


class Analysis:
    """The tasks of a script, with all that is known of them before the response times are asked for."""

    def __init__(self, text: bytes, deadlines: dict[str, int]) -> None:
        self.script, tasks = tasks_of(text)
        whole = whole_script_reasons(self.script)
        self.rows = [Analysed(task, deadlines.get(task.name, task.period)) for task in tasks]
        self.notes: list[str] = []
        self._sections = {task.name: self._ceilings(task) for task in tasks}
        for row in self.rows:
            row.why = row.task.why or whole or self._reason(row.task)
            if row.why is None:
                row.blocking = max((longest_above(self._sections[other.task.name], row.task.priority)
                                    for other in self.rows if other.task.priority < row.task.priority), default=0)
            if row.blocking > GREATEST_COST:
                row.why = f"a thread below it may own a mutex for more than {GREATEST_COST} ticks"
            elif row.why is None and len(self._above(row)) >= MOST_TASKS:
                row.why = f"more than {MOST_TASKS - 1} threads are above it"

    def _ceilings(self, task: Task) -> Ceilings | str:
        try:
            return ceilings_of(self.script, task, stretches_of(self.script, task.name, frozenset(shared(self.script, self._tasks))))
        except NoTask as why:
            return str(why)

    def _reason(self, task: Task) -> str | None:
        """Why nothing can be said of a task that by itself is one: another thread stands in the way."""
        for row in self.rows:
            other = row.task
            if isinstance(self._sections[other.name], str):
                return f"'{other.name}' locks mutexes: {self._sections[other.name]}"
            if other is task:
                continue
            if other.priority >= task.priority and other.why is not None:
                return f"'{other.name}' is not below it: {other.why}"
            if other.priority == task.priority:
                return f"'{other.name}' has the same priority"
        for number, users in shared(self.script, self._tasks).items():
            name, kind = mutexes(self.script)[number]
            lowest, highest = min(user.priority for user in users), max(user.priority for user in users)
            if kind.ceiling is None and lowest < task.priority <= highest:
                return f"'{name}' has no ceiling, and {', '.join(repr(user.name) for user in users)} lock it"
        return None

    @property
    def _tasks(self) -> list[Task]:
        return [row.task for row in self.rows]

    def _above(self, row: Analysed) -> list[Task]:
        return [task for task in self._tasks if task.priority > row.task.priority]

    def text_for(self, row: Analysed) -> bytes:
        """The tasks from a row up, as `rta` reads them. Only the order of priorities counts there, and no two may be the same."""
        above = sorted(self._above(row), key=lambda task: -task.priority)
        lines = [f"task {task.name} {255 - rank} {task.cost} {task.period or GREATEST_PERIOD} {row.blocking if task is row.task else 0}\n"
                 for rank, task in enumerate([*above, row.task])]
        return "".join(lines).encode()

    def prove(self) -> None:
        """Asks `rta` for the response time of each task to which the analysis applies."""
        for row in filter(lambda row: row.why is None, self.rows):
            row.bound = min(GREATEST_BOUND, max(row.deadline or 0, row.task.period or 0, row.task.cost + row.blocking))
            said = answer(["rta", str(row.bound)], self.text_for(row), RESPONSE_TIMES, TOOL).decode().split("\n")[-2].split(" ")
            row.proved = int(said[3]) if said[2] == "response" else None

    def look(self, seen: Seen, measures: list[Measure]) -> None:
        """The jobs that were seen: from each release up to what the measure of the thread says, else to the sleep behind it.

        Where the script says when a task releases its jobs, and how many there are, no measure says otherwise.
        """
        named = {measure.words.get("thread"): measure.words for measure in measures if measure.words["kind"] == "periodic"}
        for row in self.rows:
            task, words = row.task, named.get(row.task.name, {})
            try:
                if task.period is not None:
                    jobs = periodic(seen, task.name, task.period, task.phase, words.get("to", SLEEP), words.get("jobs", task.jobs))
                    row.seen = Jobs(jobs.finished, jobs.end if (ended := seen.exited(task.name)) is None else ended, jobs.open)
                elif words:
                    row.seen = jobs_of(seen, words)
                elif task.why is None:
                    row.seen = periodic(seen, task.name, max(1, seen.end), task.phase, f"exit {task.name}", 1)
            except NamesNothing:
                row.seen = None
            if task.period is not None and words and (words["period"], words.get("phase", 0)) != (task.period, task.phase):
                self.notes.append(f"measure '{words['name']}' counts its jobs otherwise than --rta does: '{task.name}' releases one each "
                                  f"{task.period} ticks from {task.phase} on; say period={task.period} phase={task.phase}")

    @property
    def utilisation(self) -> Fraction:
        return sum((Fraction(task.cost, task.period) for task in self._tasks if task.why is None and task.period), Fraction(0))


def rta_table(analysis: Analysis) -> Table:
    table = Table("rta", ["task", "verdict", "priority", "cost", "period", "blocking", "deadline", "proved", "seen", "jobs", "late"], 2)
    for row in analysis.rows:
        task, known = row.task, row.why is None
        responses = row.seen.responses if row.seen else []
        late = shown(row.seen.late(row.deadline)) if row.seen and row.deadline is not None else ""
        table.rows.append([
            task.name, row.verdict, str(task.priority), str(task.cost) if task.why is None else "", shown(task.period),
            str(row.blocking) if known else "", shown(row.deadline), row.told, shown(max(responses, default=None)),
            str(row.seen.count) if row.seen else "", late])
    return table


def remarks(analysis: Analysis) -> str:
    """The utilisation, and why the analysis does not apply to some."""
    percent = round(analysis.utilisation * 1000)
    lines = [f"utilisation of the periodic tasks: {percent // 10}.{percent % 10}%"]
    if analysis.utilisation > 1:
        lines.append("that is more than the processor has")
    lines += [f"{row.task.name} is not analysed: {row.why}" for row in analysis.rows if row.why is not None]
    return "".join(f"{line}\n" for line in lines)
