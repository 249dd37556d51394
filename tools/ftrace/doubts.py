"""Why the lines that were made of a log may not be what the kernel did, though each of them could be read."""
from __future__ import annotations

from .convert import MARKED, TOTALS, kept
from .log import MARKER, SWITCH_EVENT, WAKES, Entry, losses
from .names import NameMap

NUMBERS = {**MARKED, TOTALS: 4}


def doubts(text: str, read: list[Entry], names: NameMap) -> list[str]:
    """What the reader of a trace should know of its log, the text of which has been read. Raises NoLog."""
    entries = kept(read, names)
    return [*of_losses(text), *of_processors(entries, names), *of_lines(entries), *of_markers(entries), *of_other_processors(read, names),
            *of_shared_names(entries, names)]


def of_losses(text: str) -> list[str]:
    lost = losses(text)
    return [f"the kernel lost events at {places(lost)} of the log: the trace lacks what was there"] if lost else []


def of_processors(entries: list[Entry], names: NameMap) -> list[str]:
    """A trace has one processor; switches of several that are mixed are no trace."""
    found = sorted({entry.cpu for entry in entries if entry.event == SWITCH_EVENT})
    if names.cpu is not None or len(found) < 2:
        return []
    return [f"the log has switches of processors {', '.join(map(str, found))}, and a trace has one: name it in the map, as `cpu {found[0]}`"]


def of_lines(entries: list[Entry]) -> list[str]:
    unread = [entry for entry in entries if entry.event in (SWITCH_EVENT, *WAKES) and not entry.fields]
    return [f"{places(len(unread))} could not be read, the first: {unread[0].event}: {unread[0].text}"] if unread else []


def of_markers(entries: list[Entry]) -> list[str]:
    """Lines of `trace_marker` that begin as those of a server, and are none."""
    words = [marker["words"].split() for entry in entries if (marker := MARKER.fullmatch(entry.text))]
    wrong = [found for found in words if len(found) < 3 or NUMBERS.get(found[1]) != len(found) - 3]
    return [f"{places(len(wrong))} of markers say nothing of a server, the first: {' '.join(wrong[0])}"] if wrong else []


def of_other_processors(read: list[Entry], names: NameMap) -> list[str]:
    """What a server does can be told on another processor than its own, as by a timer there."""
    left_out = [entry for entry in read if entry.cpu != names.cpu and entry.time >= names.origin and MARKER.fullmatch(entry.text)]
    if names.cpu is None or not left_out:
        return []
    return [f"left out, since of other processors than the map names: {places(len(left_out))} of markers, the first: {left_out[0].text}"]


def of_shared_names(entries: list[Entry], names: NameMap) -> list[str]:
    """The threads of a process have its command name, unless they were given names of their own."""
    threads: dict[str, set[str]] = {}
    for entry in entries:
        for part in ("", "prev_", "next_"):
            comm, pid = entry.fields.get(f"{part}comm"), entry.fields.get(f"{part}pid")
            if comm in names.names and pid not in names.names:
                threads.setdefault(comm, set()).add(pid)
    return [f"{len(pids)} threads of the log are called '{comm}', and the map makes one of them, {names.names[comm]}: name it by its number"
            for comm, pids in threads.items() if len(pids) > 1]


def places(count: int) -> str:
    return "one line" if count == 1 else f"{count} lines"
