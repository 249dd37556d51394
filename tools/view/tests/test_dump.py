"""The value change dump by the grammar of IEEE 1364, 18.2, and the events of Perfetto, of a run that is worked out by hand."""
from __future__ import annotations

import json
import re
import unittest
from decimal import Decimal

from view.lines import Trace, read_trace
from view.main import drawer
from view.perfetto import nanoseconds
from view.seen import timeline_of
from view.timeline import Capacity, Mark, MarkKind, Span, State, ThreadLine, Timeline
from view.window import window

from .details import detail_of
from .worked import all_worked, timeline, timeline_of_text

OBJECTS = b"sem s 2\nqueue q 1 8\nthread a fifo 5 at 0\nsem_wait s\nmq_send q 8 0 7\nmq_receive q\nend\n"
# b locks m in its first tick; a begins at 4, waits for m from 5 on and is given it at 9, gives it back at 12, and ends at 13; b ends at 19.
MUTEX = b"mutex m none\nthread a fifo 9 at 4\nlock m\nrun 2\nunlock m\nend\nthread b fifo 5 at 0\nlock m\nrun 6\nunlock m\nrun 5\nend\n"
CHANGES = {
    0: {"processor": "b", "a.state": "dormant", "a.priority": 0, "b.state": "running", "b.priority": 5, "m.owner": "free"},
    1: {"m.owner": "b"}, 4: {"processor": "a", "a.state": "running", "a.priority": 9, "b.state": "ready"},
    5: {"processor": "b", "a.state": "waiting_mutex_m", "b.state": "running"},
    9: {"processor": "a", "a.state": "running", "b.state": "ready", "m.owner": "a"}, 12: {"m.owner": "free"},
    13: {"processor": "b", "a.state": "ended", "a.priority": 0, "b.state": "running"}, 19: {"processor": "idle", "b.state": "ended", "b.priority": 0}}


def mutex() -> Timeline:
    return timeline_of(read_trace(detail_of(MUTEX, 25).splitlines(keepends=True)))


class NoDump(AssertionError):
    """A text that the grammar does not have."""


class Reader:
    """Reads a dump word by word: its unit, its variables by their codes, and of each time the values that change."""

    def __init__(self, text: str) -> None:
        self.words, self.at = text.split(), 0
        self.unit, self.last = "", -1
        self.variables: dict[str, tuple[str, int, str]] = {}
        self.changes: dict[int, dict[str, str | int]] = {}
        while (word := self.next()) != "$enddefinitions":
            self.declare(word, self.up_to_end())
        self.need(self.up_to_end() == [], word)
        names = [name for _, _, name in self.variables.values()]
        self.need(len(set(names)) == len(names), "two have one name")
        self.values()

    def next(self) -> str:
        self.at += 1
        return self.words[self.at - 1]

    def up_to_end(self) -> list[str]:
        start = self.at
        self.at = self.words.index("$end", start) + 1
        return self.words[start:self.at - 1]

    @staticmethod
    def need(is_so: bool, what: object) -> None:
        if not is_so:
            raise NoDump(what)

    def declare(self, word: str, words: list[str]) -> None:
        self.need(word in ("$comment", "$timescale", "$scope", "$upscope", "$var"), word)
        if word == "$timescale":
            self.unit = " ".join(words)
            self.need(re.fullmatch(r"(1|10|100) ?(s|ms|us|ns|ps|fs)", self.unit) is not None, words)
        elif word == "$scope":
            self.need(words[0] == "module" and len(words) == 2, words)
        elif word == "$var":
            kind, size, code, name = words
            self.need(all("!" <= letter <= "~" for letter in code), words)
            self.need(kind in ("integer", "string") and int(size) > 0 and code not in self.variables, words)
            self.variables[code] = kind, int(size), name

    def values(self) -> None:
        is_first, self.has_first = False, False
        while self.at < len(self.words):
            word = self.next()
            if word[0] == "#" and len(word) > 1:
                self.need(int(word[1:]) > self.last, word)
                self.last = int(word[1:])
            elif word == "$dumpvars":
                self.need(not self.changes, "it stands behind a change")
                is_first = self.has_first = True
            elif word == "$end":
                self.need(is_first and len(self.changes[self.last]) == len(self.variables), "a variable has no value")
                is_first = False
            else:
                self.change(word, self.next())
        self.need(self.has_first, "no values at the beginning")

    def change(self, word: str, code: str) -> None:
        kind, size, name = self.variables[code]
        here = self.changes.setdefault(self.last, {})
        self.need(name not in here and self.last >= 0, (self.last, name))
        if word[0] == "b":
            self.need(kind == "integer" and set(word[1:]) <= {"0", "1"} and 0 < len(word) - 1 <= size, (word, name))
        else:
            self.need(kind == "string" and word[0] == "s", (word, name))
        here[name] = int(word[1:], 2) if word[0] == "b" else word[1:]


class Dump(unittest.TestCase):
    def test_every_change_by_hand(self) -> None:
        dump = Reader(drawer("vcd")(mutex()))
        self.assertEqual((dump.changes, dump.last, dump.unit), (CHANGES, 25, "1 ns"))
        self.assertEqual([(kind, size) for kind, size, name in dump.variables.values() if name in ("a.state", "a.priority")], [("string", 1), ("integer", 8)])

    def test_a_part_begins_with_all_values(self) -> None:
        dump = Reader(drawer("vcd")(window(mutex(), 6, 15, None)))
        self.assertEqual(dump.changes[6], {"processor": "b", "a.state": "waiting_mutex_m", "a.priority": 9, "b.state": "running", "b.priority": 5, "m.owner": "b"})
        self.assertEqual({time: changes for time, changes in dump.changes.items() if time > 6}, {time: CHANGES[time] for time in (9, 12, 13)})
        self.assertEqual(dump.last, 15)
        self.assertEqual(Reader(drawer("vcd")(window(mutex(), 6, 12, None))).changes[12], {"m.owner": "free"})
        late = Reader(drawer("vcd")(window(mutex(), 20, 25, None)))
        self.assertEqual(late.changes, {20: {"processor": "idle", "a.state": "ended", "a.priority": 0, "b.state": "ended", "b.priority": 0, "m.owner": "free"}})

    def test_units(self) -> None:
        for tick, unit, each in (("1ns", "1 ns", 1), ("7us", "1 us", 7), ("20ms", "10 ms", 2), ("500us", "100 us", 5), ("1000s", "100 s", 10), ("110ns", "10 ns", 11)):
            seen = mutex()
            seen.tick = tick
            dump = Reader(drawer("vcd")(seen))
            self.assertEqual((dump.unit, dump.last, list(dump.changes)), (unit, 25 * each, [time * each for time in CHANGES]), tick)

    def test_a_server_and_handlers_and_what_is_not_told(self) -> None:
        spans = [Span(1, 3, State.RUNNING, 7, frame="h"), Span(3, 4, State.READY, 7), Span(4, 6, State.WAITING, call="lock"), Span(6, 9, State.OFF)]
        server = ThreadLine("s", spans, runs=[(1, 3)], capacity=[Capacity(1, 3, 4, True), Capacity(3, 9, 2, False)])
        dump = Reader(drawer("vcd")(Timeline([server], 9, [(0, 1), (3, 9)], None, True, Trace([], []))))
        self.assertEqual(dump.changes, {
            0: {"processor": "idle", "s.state": "dormant", "s.priority": 0, "s.capacity": 0},
            1: {"processor": "s", "s.state": "running_h", "s.priority": 7, "s.capacity": 4}, 2: {"s.capacity": 3},
            3: {"processor": "idle", "s.state": "ready", "s.capacity": 2}, 4: {"s.state": "waiting"}, 6: {"s.state": "not_running"}})
        self.assertIn(("integer", 64, "s.capacity"), dump.variables.values())

    def test_only_what_changes_is_written(self) -> None:
        """It runs at two priorities, one behind the other, and that is one state."""
        thread = ThreadLine("a", [Span(0, 3, State.RUNNING, 7), Span(3, 5, State.RUNNING, 9)], runs=[(0, 5)])
        dump = Reader(drawer("vcd")(Timeline([thread], 5, [], None, True, Trace([], []))))
        self.assertEqual(dump.changes, {0: {"processor": "a", "a.state": "running", "a.priority": 7}, 3: {"a.priority": 9}})

    def test_a_run_of_no_tick(self) -> None:
        self.assertEqual(Reader(drawer("vcd")(timeline_of_text("0 start a\n0 end\n"))).changes, {0: {"processor": "idle", "a.state": "dormant", "a.priority": 0}})

    def test_semaphores_and_queues(self) -> None:
        """The semaphore has 2, and 1 from the end of the tick from 0 on; a message stands in the queue from 2 to 3."""
        dump = Reader(drawer("vcd")(timeline_of(read_trace(detail_of(OBJECTS, 9).splitlines(keepends=True)))))
        self.assertEqual([(kind, size, name) for kind, size, name in dump.variables.values() if name in ("s.value", "q.messages")],
                         [("integer", 16, "s.value"), ("integer", 8, "q.messages")])
        for name, changes in (("s.value", {0: 2, 1: 1}), ("q.messages", {0: 0, 2: 1, 3: 0})):
            self.assertEqual({time: here[name] for time, here in dump.changes.items() if name in here}, changes)

    def test_more_variables_than_bytes(self) -> None:
        """94 bytes have a picture; of 8,930 variables each has one or two of them."""
        lines = "".join(f"0 start t{number}\n" for number in range(60))
        self.assertEqual(len(Reader(drawer("vcd")(timeline_of_text(lines))).variables), 121)

    def test_every_worked_trace_is_a_dump(self) -> None:
        for name in all_worked():
            Reader(drawer("vcd")(timeline(name)))


class Events(unittest.TestCase):
    @staticmethod
    def events(seen: Timeline) -> list[dict]:
        return json.loads(drawer("perfetto")(seen), parse_float=Decimal)["traceEvents"]

    def test_every_slice_by_hand(self) -> None:
        events = self.events(mutex())
        told = [(e["tid"], int(e["ts"] * 1000), int((e["ts"] + e["dur"]) * 1000), e["cat"], e["name"]) for e in events if e["ph"] == "X"]
        self.assertEqual(sorted(told), [
            (0, 0, 4, "processor", "b"), (0, 4, 5, "processor", "a"), (0, 5, 9, "processor", "b"), (0, 9, 13, "processor", "a"), (0, 13, 19, "processor", "b"),
            (1, 4, 5, "running", "priority 9"), (1, 5, 9, "waiting", "waiting: mutex m"), (1, 9, 13, "running", "priority 9"),
            (2, 0, 4, "running", "priority 5"), (2, 4, 5, "ready", "ready"), (2, 5, 9, "running", "priority 5"), (2, 9, 13, "ready", "ready"),
            (2, 13, 19, "running", "priority 5")])
        self.assertEqual({(e["cat"], e.get("cname")) for e in events if e["ph"] == "X" and e["tid"]},
                         {("running", None), ("waiting", "thread_state_sleeping"), ("ready", "thread_state_runnable")})
        self.assertEqual([e["args"] for e in events if e.get("cat") == "waiting"], [{"priority": 9, "call": "lock"}])
        self.assertEqual([e["args"] for e in events if e.get("cat") == "ready"], [{"priority": 5}] * 2)

    def test_tracks(self) -> None:
        told = [(e["name"], e["tid"], *e["args"].values()) for e in self.events(mutex()) if e["ph"] == "M"]
        self.assertEqual(told, [("process_name", 0, "pse52"), ("thread_name", 0, "processor"), ("thread_sort_index", 0, 0), ("thread_name", 1, "a"),
                                ("thread_sort_index", 1, 1), ("thread_name", 2, "b"), ("thread_sort_index", 2, 2)])

    def test_who_wakes_whom(self) -> None:
        """From the slice of b, whose last tick is that of 8, into that of a from 9 on."""
        told = [(e["ph"], e["tid"], int(e["ts"] * 1000), e["id"], e["name"], e.get("bp")) for e in self.events(mutex()) if e["ph"] in "sf"]
        self.assertEqual(told, [("s", 2, 8, 1, "unlock", None), ("f", 1, 9, 1, "unlock", "e")])

    def test_names_of_instants(self) -> None:
        text = "0 start a\n0 activate a 3\n0 dispatch a 5\n1 return a clock_settime 0 0\n2 return a sem_trywait EAGAIN 0\n3 plan a 2 9\n4 exit a\n4 idle\n5 killed rt1\n5 end\n"
        told = [(e["s"], int(e["ts"] * 1000), e["name"]) for e in self.events(timeline_of_text(text)) if e["ph"] == "i"]
        self.assertEqual(sorted(told, key=lambda event: event[1]), [
            ("t", 0, "start"), ("t", 0, "activate 3"), ("t", 1, "return clock_settime 0"), ("t", 2, "return sem_trywait EAGAIN"), ("t", 3, "plan 2 9"),
            ("t", 4, "exit"), ("g", 5, "killed rt1")])

    def test_running_of_a_server_and_in_a_handler(self) -> None:
        spans = [Span(0, 1, State.RUNNING, 7, high=True), Span(1, 2, State.RUNNING, 2, high=False), Span(2, 3, State.RUNNING, 7, frame="h"), Span(3, 9, State.OFF)]
        events = self.events(Timeline([ThreadLine("s", spans)], 9, [], None, True, Trace([], [])))
        self.assertEqual([(e["name"], e["args"]) for e in events if e["ph"] == "X"], [
            ("priority 7", {"priority": 7, "level": "high"}), ("priority 2", {"priority": 2, "level": "low"}),
            ("priority 7 in h", {"priority": 7, "handler": "h"}), ("not running", {})])
        self.assertEqual(events[-1]["cname"], "grey")
        server = ThreadLine("s", marks=[Mark(2, MarkKind.RELEASE, "", 0, "job 0")], capacity=[Capacity(0, 5, 3, False)])
        told = self.events(Timeline([server], 9, [], None, True, Trace([], [])))
        self.assertEqual([(e["name"], e["args"]) for e in told if e["ph"] in "iC"], [("release", {"line": "job 0"}), ("capacity of s", {"ticks": 3})])

    def test_counters(self) -> None:
        """A semaphore of 2, waited for in the tick from 0, and a queue that has a message from 2 to 3."""
        events = self.events(timeline_of(read_trace(detail_of(OBJECTS, 9).splitlines(keepends=True))))
        told = [(e["name"], int(e["ts"] * 1000), e["args"]) for e in events if e["ph"] == "C"]
        self.assertEqual([event for event in told if event[0] == "semaphore s"], [("semaphore s", 0, {"value": 2}), ("semaphore s", 1, {"value": 1})])
        self.assertEqual([event for event in told if event[0] == "queue q"][-2:], [("queue q", 2, {"messages": 1}), ("queue q", 3, {"messages": 0})])

    def test_the_length_of_a_tick(self) -> None:
        """Times are in microseconds, with the nanoseconds behind the point."""
        self.assertEqual([nanoseconds(tick) for tick in ("", "7ns", "5us", "2ms", "3s")], [1, 7, 5000, 2_000_000, 3_000_000_000])
        for tick, end in (("", "0.019"), ("1us", "19.000"), ("300ns", "5.700"), ("2ms", "38000.000"), ("1s", "19000000.000")):
            seen = mutex()
            seen.tick = tick
            text = drawer("perfetto")(seen)
            self.assertIn(f'"ts":{end},"s":"t","name":"exit"', text)
            self.assertEqual(json.loads(text)["otherData"], {"unit": f"one tick is {tick or '1ns'}"})


if __name__ == "__main__":
    unittest.main()
