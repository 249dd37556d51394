"""The same events as `ftrace` tells, as a file of trace-cmd's version 6, which trace-cmd and KernelShark open.

The file has the descriptions of its own events, the names of the tasks, and one processor with pages of a ring buffer:
each page begins with its time and the number of its bytes, and each event in it with its length and the time since the last.
"""
from __future__ import annotations

import struct
from collections.abc import Iterator

from .ftrace import FIRST_PID, Line, events_of
from .perfetto import nanoseconds
from .timeline import Timeline
from .window import NoWindow

PAGE, PAGE_HEAD = 4096, 16
MOST_DELTA, GREATEST_DELTA = 2**27 - 1, 2**59
EXTENDS_TIME = 30
GREATEST_TIME = 2**63
HEADER_PAGE = """\
\tfield: u64 timestamp;\toffset:0;\tsize:8;\tsigned:0;
\tfield: local_t commit;\toffset:8;\tsize:8;\tsigned:1;
\tfield: int overwrite;\toffset:8;\tsize:1;\tsigned:1;
\tfield: char data;\toffset:16;\tsize:4080;\tsigned:1;
"""
HEADER_EVENT = """\
# compressed entry header
\ttype_len    :    5 bits
\ttime_delta  :   27 bits
\tarray       :   32 bits

\tpadding     : type == 29
\ttime_extend : type == 30
\ttime_stamp : type == 31
\tdata max type_len  == 28
"""
COMMON = (("unsigned short common_type", 0, 2, 0), ("unsigned char common_flags", 2, 1, 0),
          ("unsigned char common_preempt_count", 3, 1, 0), ("int common_pid", 4, 4, 1))
TASK = (("char comm[16]", 8, 16, 0), ("pid_t pid", 24, 4, 1), ("int prio", 28, 4, 1))
WAKES = (*TASK, ("int target_cpu", 32, 4, 1))
SWITCH = (("char prev_comm[16]", 8, 16, 0), ("pid_t prev_pid", 24, 4, 1), ("int prev_prio", 28, 4, 1), ("long prev_state", 32, 8, 1),
          ("char next_comm[16]", 40, 16, 0), ("pid_t next_pid", 56, 4, 1), ("int next_prio", 60, 4, 1))
PRINT_TASK = '"comm=%s pid=%d prio=%d", REC->comm, REC->pid, REC->prio'
PRINT_WAKE = '"comm=%s pid=%d prio=%d target_cpu=%03d", REC->comm, REC->pid, REC->prio, REC->target_cpu'
PRINT_SWITCH = ('"prev_comm=%s prev_pid=%d prev_prio=%d prev_state=%s ==> next_comm=%s next_pid=%d next_prio=%d", REC->prev_comm, REC->prev_pid, '
                'REC->prev_prio, REC->prev_state ? __print_flags(REC->prev_state, "|", { 0x01, "S" }, { 0x02, "D" }, { 0x10, "X" }) : "R", '
                "REC->next_comm, REC->next_pid, REC->next_prio")
EVENTS = {"sched_switch": (300, SWITCH, PRINT_SWITCH), "sched_waking": (301, WAKES, PRINT_WAKE), "sched_wakeup": (302, WAKES, PRINT_WAKE),
          "sched_process_exit": (303, TASK, PRINT_TASK)}
STATES = {"R": 0, "S": 1, "D": 2, "X": 16}


def draw(timeline: Timeline) -> bytes:
    if timeline.end * nanoseconds(timeline.tick) >= GREATEST_TIME:
        raise NoWindow(f"a file of trace-cmd has times of less than {GREATEST_TIME} ns: --to ends the picture sooner, --tick makes a tick shorter")
    lines = events_of(timeline)
    pages = b"".join(_pages(lines, nanoseconds(timeline.tick)))
    tasks = "".join(f"{FIRST_PID + number} {thread.name[:15]}\n" for number, thread in enumerate(timeline.threads))
    head = b"".join((
        b"\x17\x08\x44tracing6\0", bytes((0, 8)), struct.pack("<I", PAGE),
        b"header_page\0", _sized(HEADER_PAGE, "<Q"), b"header_event\0", _sized(HEADER_EVENT, "<Q"),
        struct.pack("<I", 0), struct.pack("<I", 1), b"sched\0", struct.pack("<I", len(EVENTS)),
        *(_sized(_format(name), "<Q") for name in EVENTS),
        _sized("", "<I"), _sized("", "<I"), _sized(tasks, "<Q"), struct.pack("<I", 1),
        b"options  \0", struct.pack("<H", 0), b"flyrecord\0"))
    offset = -(-(len(head) + 16) // PAGE) * PAGE
    return (head + struct.pack("<QQ", offset, len(pages))).ljust(offset, b"\0") + pages


def _sized(text: str, size: str) -> bytes:
    return struct.pack(size, len(text)) + text.encode()


def _format(name: str) -> str:
    """The description of an event, as the kernel gives it."""
    number, fields, print_as = EVENTS[name]
    told = ["".join(f"\tfield:{field};\toffset:{at};\tsize:{size};\tsigned:{signed};\n" for field, at, size, signed in part) for part in (COMMON, fields)]
    return f"name: {name}\nID: {number}\nformat:\n{told[0]}\n{told[1]}\nprint fmt: {print_as}\n"


def _pages(lines: list[Line], factor: int) -> Iterator[bytes]:
    """The pages of the one processor. A page tells the time of its first event; the others tell the time since the one before."""
    start = last = 0
    page = b""
    for line in lines:
        time, event = line.time * factor, _event(line)
        delta = time - last if page else 0
        entry = _extended(delta) + _entry(event, 0) if delta > MOST_DELTA else _entry(event, delta)
        if page and (PAGE_HEAD + len(page) + len(entry) > PAGE or delta >= GREATEST_DELTA):
            yield _page(start, page)
            page, entry = b"", _entry(event, 0)
        if not page:
            start = time
        page += entry
        last = time
    yield _page(start, page)


def _page(start: int, data: bytes) -> bytes:
    return (struct.pack("<QQ", start, len(data)) + data).ljust(PAGE, b"\0")


def _entry(event: bytes, delta: int) -> bytes:
    return struct.pack("<I", len(event) // 4 | delta << 5) + event


def _extended(delta: int) -> bytes:
    """What stands before an event that comes too long behind the one before."""
    return struct.pack("<II", EXTENDS_TIME | (delta & MOST_DELTA) << 5, delta >> 27 & 0xFFFFFFFF)


def _event(line: Line) -> bytes:
    said = line.fields
    data = struct.pack("<HBBi", EVENTS[line.event][0], 0, 0, line.pid)
    if line.event == "sched_switch":
        return data + struct.pack("<16siiq16sii", said["prev_comm"].encode(), said["prev_pid"], said["prev_prio"], STATES[said["prev_state"]],
                                  said["next_comm"].encode(), said["next_pid"], said["next_prio"])
    data += struct.pack("<16sii", said["comm"].encode(), said["pid"], said["prio"])
    return data if line.event == "sched_process_exit" else data + struct.pack("<i", said["target_cpu"])
