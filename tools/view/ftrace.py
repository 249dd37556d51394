"""The text of Linux's ftrace, as /sys/kernel/tracing/trace and `trace-cmd report` print it: sched_switch, sched_waking, sched_wakeup
and sched_process_exit on one processor. A tick is written as a microsecond, or as --tick says; times have nine digits behind the
point.

A thread has the pid 1001 and so on in the order of declaration. Linux prints priorities so that a lower number is more urgent:
99 less the priority where that is at most 98, and so 0 for 99 and above.
"""
from __future__ import annotations

from bisect import bisect_left
from collections.abc import Iterator
from typing import NamedTuple

from .perfetto import nanoseconds
from .timeline import Span, State, ThreadLine, Timeline

FIRST_PID, LONGEST_NAME = 1001, 15
IDLE_TASK = ("swapper/0", 0, 120)
HEAD = """\
# tracer: nop
#
# entries-in-buffer/entries-written: {count}/{count}   #P:1
#
#                                _-----=> irqs-off
#                               / _----=> need-resched
#                              | / _---=> hardirq/softirq
#                              || / _--=> preempt-depth
#                              ||| /     delay
#           TASK-PID     CPU#  ||||   TIMESTAMP  FUNCTION
#              | |         |   ||||      |         |
"""
FORMATS = {
    "sched_switch": "prev_comm={prev_comm} prev_pid={prev_pid} prev_prio={prev_prio} prev_state={prev_state} ==> "
                    "next_comm={next_comm} next_pid={next_pid} next_prio={next_prio}",
    "sched_waking": "comm={comm} pid={pid} prio={prio} target_cpu={target_cpu:03d}",
    "sched_wakeup": "comm={comm} pid={pid} prio={prio} target_cpu={target_cpu:03d}",
    "sched_process_exit": "comm={comm} pid={pid} prio={prio}"}
# At one instant who is woken stands before who ends, and the switch comes last.
RANKS = {"sched_waking": 0, "sched_wakeup": 1, "sched_process_exit": 2, "sched_switch": 3}


class Line(NamedTuple):
    """An event: its time in ticks, its name, its fields, and the task that runs in it."""

    time: int
    event: str
    fields: dict[str, str | int]
    comm: str
    pid: int


def draw(timeline: Timeline) -> str:
    lines, factor = events_of(timeline), nanoseconds(timeline.tick)
    return HEAD.format(count=len(lines)) + "".join(
        f"{line.comm:>16}-{line.pid:<7} [000] d.... {_seconds(line.time * factor)}: {line.event}: {FORMATS[line.event].format(**line.fields)}\n"
        for line in lines)


def _seconds(time: int) -> str:
    return f"{time // 10**9:5d}.{time % 10**9:09d}"


def priority_of(priority: int) -> int:
    """The priority as Linux prints that of a realtime thread."""
    return max(0, 99 - priority)


def events_of(timeline: Timeline) -> list[Line]:
    """All events in their order, each with the task that ran up to it."""
    tasks = [(thread.name[:LONGEST_NAME], FIRST_PID + number) for number, thread in enumerate(timeline.threads)]
    runs = sorted((start, end, number) for number, thread in enumerate(timeline.threads) for start, end in thread.runs)
    starts = [start for start, _, _ in runs]
    lines = []
    for time, event, fields in sorted(_events(timeline, tasks), key=lambda line: (line[0], RANKS[line[1]])):
        at = bisect_left(starts, time) - 1
        comm, pid = tasks[runs[at][2]] if at >= 0 and runs[at][1] >= time else IDLE_TASK[:2]
        lines.append(Line(time, event, fields, comm, pid))
    return lines


def _events(timeline: Timeline, tasks: list[tuple[str, int]]) -> Iterator[tuple[int, str, dict[str, str | int]]]:
    for thread, (comm, pid) in zip(timeline.threads, tasks):
        before: Span | None = None
        for span in thread.spans:
            if span.state in (State.READY, State.RUNNING) and (before is None or before.state in (State.WAITING, State.OFF)):
                fields = {"comm": comm, "pid": pid, "prio": priority_of(span.priority), "target_cpu": 0}
                yield span.start, "sched_waking", fields
                yield span.start, "sched_wakeup", fields
            before = span
        if thread.ended is not None:
            yield thread.ended, "sched_process_exit", {"comm": comm, "pid": pid, "prio": priority_of(before.priority if before else 0)}
    yield from _switches(timeline, tasks)


def _switches(timeline: Timeline, tasks: list[tuple[str, int]]) -> Iterator[tuple[int, str, dict[str, str | int]]]:
    changes = sorted([(start, number) for number, thread in enumerate(timeline.threads) for start, _ in thread.runs]
                     + [(start, -1) for start, _ in timeline.idle])
    last, last_thread = IDLE_TASK, None
    for time, number in changes:
        thread = timeline.threads[number] if number >= 0 else None
        if thread is last_thread:
            continue
        span = thread.span_at(time) if thread else None
        following = (*tasks[number], priority_of(span.priority if span else 0)) if thread else IDLE_TASK
        yield time, "sched_switch", {
            "prev_comm": last[0], "prev_pid": last[1], "prev_prio": last[2], "prev_state": "R" if last_thread is None else _left(last_thread, time),
            "next_comm": following[0], "next_pid": following[1], "next_prio": following[2]}
        last, last_thread = following, thread


def _left(thread: ThreadLine, time: int) -> str:
    """In which state Linux says that a thread leaves the processor: R ready, S asleep, D waiting for a mutex, X ended."""
    if thread.ended == time:
        return "X"
    span = thread.span_at(time)
    if span is None or span.state is State.READY:
        return "R"
    return "D" if span.kind == "mutex" else "S"
