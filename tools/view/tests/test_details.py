"""Pictures of details: against what the reference's machine shows in each tick, and what the examples are there to teach."""
from __future__ import annotations

import re
import sys
import unittest
import xml.etree.ElementTree as ElementTree

from measure.jobs import NamesNothing
from measure.measures import measure_of_words
from view.axis import Axis
from view.html import data_of
from view.lines import read_trace
from view.main import FORMATS, drawer
from view.releases import mark_jobs
from view.seen import timeline_of
from view.svg_spans import draw_spans
from view.svg_writer import Writer
from view.timeline import Span, State, ThreadLine, Timeline
from view.values import semaphores
from view.window import NoWindow, window

from .details import detail_of, trace_of
from .worked import TOP

sys.path.append(str(TOP / "tools" / "reference"))

from generate import accepted  # noqa: E402
from machine import Machine  # noqa: E402
from reader import read  # noqa: E402
from state import FrameKind, ThreadState, WaitKind  # noqa: E402

SVG = "{http://www.w3.org/2000/svg}"
SCRIPTS = 32
KINDS = {WaitKind.MUTEX: "mutex", WaitKind.CONTENTION: "mutex", WaitKind.COND: "condition", WaitKind.SEM: "semaphore", WaitKind.SEND: "queue",
         WaitKind.RECEIVE: "queue", WaitKind.JOIN: "join", WaitKind.SIGNAL: "signal", WaitKind.SLEEP: "sleep"}


def seen_of(text: bytes) -> Timeline:
    return timeline_of(read_trace(text.splitlines(keepends=True)))


def example(name: str) -> Timeline:
    script = (TOP / "examples" / f"{name}.task").read_bytes()
    return seen_of(detail_of(script, int(script.split()[2].rstrip(b","))))


def spans(seen: Timeline, name: str) -> list[Span]:
    return next(thread.spans for thread in seen.threads if thread.name == name)


class Watched(Machine):
    """The machine, which writes down of each tick what a picture of it must show of each thread."""

    def __init__(self, script) -> None:
        super().__init__(script)
        self.seen: list[list[tuple]] = []
        self.owners: list[list[int | None]] = []

    def dispatch(self) -> int | None:
        head, priorities = super().dispatch(), self.exec_priorities()
        self.seen.append([self.shown(thread, head, priorities[thread.number]) for thread in self.threads])
        self.owners.append([mutex.owner for mutex in self.mutexes])
        return head

    @staticmethod
    def shown(thread, head: int | None, priority: int) -> tuple:
        """State, execution priority, kind of wait, and whether it is in a signal or a cleanup handler."""
        if not thread.is_live:
            return (None, 0, "", "")
        state = State.RUNNING if thread.number == head else State.READY if thread.state is ThreadState.READY else State.WAITING
        kind = KINDS[thread.wait.kind] if thread.wait else ""
        frame = {FrameKind.MAIN: "", FrameKind.SIGNAL: "signal", FrameKind.CLEANUP: "cleanup"}[thread.frame.kind]
        return (state, 0 if state is State.WAITING else priority, kind, frame)


class Generated(unittest.TestCase):
    def test_each_tick_is_what_the_machine_shows(self) -> None:
        counts = {"mutex": 0, "handler": 0, "lifted": 0, "owned": 0}
        for seed in range(SCRIPTS):
            text, horizon = accepted(seed)
            machine = Watched(read(text)[0])
            machine.run_until(horizon)
            seen = seen_of(detail_of(text, horizon))
            for tick, threads in enumerate(machine.seen):
                for wanted, thread in zip(threads, seen.threads):
                    self.assertEqual(self.drawn(thread.span_at(tick)), wanted, (seed, tick, thread.name))
                    counts["mutex"] += wanted[2] == "mutex"
                    counts["handler"] += wanted[3] != ""
                owned = {mutex.name: owner for mutex in seen.mutexes for start, end, owner, _ in mutex.bars if start <= tick < end}
                self.assertEqual(sorted(owned.values()), sorted(machine.threads[owner].name for owner in machine.owners[tick] if owner is not None), (seed, tick))
                counts["owned"] += len(owned)
        for what in ("mutex", "handler", "owned"):
            self.assertGreater(counts[what], 20, what)

    @staticmethod
    def drawn(span: Span | None) -> tuple:
        if span is None:
            return (None, 0, "", "")
        frame = "" if not span.frame else "cleanup" if span.cleanup else "signal"
        return (span.state, 0 if span.state is State.WAITING else span.priority, span.kind, frame)

    def test_every_format_draws_them(self) -> None:
        for seed in range(0, SCRIPTS, 5):
            text, horizon = accepted(seed)
            seen = seen_of(detail_of(text, horizon))
            for name in FORMATS:
                self.assertTrue(drawer(name)(seen), (seed, name))

    def test_wakes_have_a_waker_that_ran(self) -> None:
        """Each wake is one of a thread that ran in the tick before, of a thread that did not; and the line of the wake is there."""
        count = 0
        for seed in range(SCRIPTS):
            text, horizon = accepted(seed)
            seen = seen_of(detail_of(text, horizon))
            threads = {thread.name: thread for thread in seen.threads}
            for wake in seen.wakes:
                before = threads[wake.waker].span_at(wake.time - 1)
                self.assertIs(before.state, State.RUNNING, (seed, wake))
                woken = threads[wake.woken].span_at(wake.time - 1)
                self.assertTrue(woken is None or woken.state is State.WAITING, (seed, wake))
                count += 1
        self.assertGreater(count, 15)


class Lessons(unittest.TestCase):
    """What the examples are there to show is in their pictures."""

    def test_the_starved_thread_is_ready(self) -> None:
        self.assertEqual([(s.start, s.end, s.state) for s in spans(example("02_starvation"), "low")],
                         [(0, 2, State.RUNNING), (2, 24, State.READY)])

    def test_the_ceiling_lifts_its_owner(self) -> None:
        seen = example("06_protect")
        self.assertEqual([(s.start, s.end, s.priority) for s in spans(seen, "low") if s.state is State.RUNNING],
                         [(0, 2, 2), (2, 8, 9), (24, 25, 2)])
        self.assertEqual([mutex.bars for mutex in seen.mutexes], [[(2, 8, "low", 0), (10, 13, "high", 0)]])

    def test_the_inversion_of_pathfinder(self) -> None:
        seen = example("07_pathfinder")
        wait, ready = spans(seen, "bus_task")[-1], spans(seen, "weather")[-1]
        self.assertEqual((wait.start, wait.end, wait.kind, wait.what), (18, 32, "mutex", "bus"))
        self.assertEqual((ready.start, ready.end, ready.state), (16, 32, State.READY))
        self.assertEqual(seen.mutexes[0].bars[-1], (18, 32, "weather", 1))

    def test_a_setting_of_the_clock_moves_the_end_of_a_sleep(self) -> None:
        path = TOP / "tests" / "worked" / "facts_of_times_that_a_setting_moves.detail"
        self.assertEqual([(s.start, s.end, s.until) for s in spans(seen_of(path.read_bytes()), "a") if s.state is State.WAITING],
                         [(2, 3, 40), (3, 6, 13), (6, 7, 46)])

    def test_the_handler_in_a_sleep(self) -> None:
        seen = example("18_signal_in_sleep")
        self.assertEqual([(s.start, s.end, s.frame) for s in spans(seen, "sleeper") if s.state is State.RUNNING],
                         [(0, 1, ""), (8, 11, "alarm"), (11, 12, ""), (21, 24, "")])
        self.assertEqual([(wake.time, wake.waker, wake.woken, wake.by) for wake in seen.wakes], [(8, "sender", "sleeper", "tkill")])

    def test_the_server_that_holds_a_ceiling(self) -> None:
        seen = example("20_controller")
        self.assertEqual([(s.start, s.end, s.priority, s.high) for s in spans(seen, "server") if s.start in (77, 80)],
                         [(77, 80, 40, True), (80, 81, 40, False)])
        self.assertEqual([(wake.time, wake.waker, wake.woken, wake.by) for wake in seen.wakes][:5], [
            (2, "control", "server", "create"), (3, "control", "monitor", "create"), (29, "monitor", "control", "unlock"),
            (33, "control", "server", "mq_send"), (52, "monitor", "control", "unlock")])


class Owners(unittest.TestCase):
    """The signs of owners in a terminal."""

    def drawn(self, threads: int) -> str:
        bodies = (f"thread t{number} fifo 5 at {number * 3}\nlock m\nunlock m\nend\n" for number in range(threads))
        return drawer("text")(seen_of(detail_of(f"mutex m none\n{''.join(bodies)}".encode(), 3 * threads + 1)), 1000)

    def test_no_two_share_a_sign(self) -> None:
        told = next(line for line in self.drawn(50).splitlines() if line.startswith("owners: ")).removeprefix("owners: ").split(", ")
        self.assertEqual(len({owner.split()[0] for owner in told}), 50)

    def test_those_behind_the_last_sign_are_told(self) -> None:
        self.assertIn(", Z t60, @ one of 3 more\n", self.drawn(64))


class Pictures(unittest.TestCase):
    def svg(self, name: str, **how) -> ElementTree.Element:
        return ElementTree.fromstring(drawer("svg")(window(example(name), how.get("start"), how.get("end"), how.get("names")), None, how.get("lists", False)))

    def test_marks_stand_at_their_tick(self) -> None:
        root = self.svg("18_signal_in_sleep")
        runs = {rect.find(f"{SVG}title").text: float(rect.get("x")) for rect in root.iter(f"{SVG}rect") if rect.get("class") == "run"}
        at_eight = next(x for title, x in runs.items() if "[8, 11)" in title)
        for kind in ("deliver", "error"):
            path = next(path for path in root.iter(f"{SVG}path") if path.get("class") == f"mark {kind}")
            xs = [float(x) for x in re.findall(r"[ML](-?[\d.]+),", path.get("d"))]
            self.assertAlmostEqual((min(xs) + max(xs)) / 2, at_eight, delta=0.1)

    def test_no_label_is_clipped(self) -> None:
        for file in sorted((TOP / "examples").glob("*.task")):
            root = self.svg(file.stem)
            wide = float(root.get("width"))
            for text in root.iter(f"{SVG}text"):
                long = len("".join(text.itertext()).rpartition("\n")[2]) * float(text.get("font-size")) * 0.5
                if text.find(f"{SVG}title") is not None:
                    continue
                left = float(text.get("x")) - {"end": long, "middle": long / 2}.get(text.get("text-anchor"), 0)
                self.assertGreaterEqual(left, -1, (file.stem, text.text))
                self.assertLessEqual(left + long, wide, (file.stem, text.text))

    def test_each_owner_has_its_name(self) -> None:
        """Those of a mutex that are too narrow have it beside them."""
        owners = [text.text for text in self.svg("20_controller").iter(f"{SVG}text") if text.get("font-size") == "8.8" and text.get("x") != "8"]
        self.assertEqual((owners.count("control"), owners.count("server")), (5, 3))

    def test_a_setting_of_the_clock_has_a_mark(self) -> None:
        root = self.svg("27_clock_set")
        self.assertEqual(sum(path.get("class") == "mark clock" for path in root.iter(f"{SVG}path")), 2)
        self.assertIn("the clock is set", [text.text for text in root.iter(f"{SVG}text")])
        self.assertIn("k the clock is set", drawer("text")(example("27_clock_set")))

    def test_waits_keep_off_their_line(self) -> None:
        """The letters that go lowest end above the dotted line, however low the bar is."""
        for high in (20.0, 15.0, 13.0):
            out = Writer()
            draw_spans(out, ThreadLine("a", [Span(0, 9, State.WAITING, call="lock", kind="mutex", what="gyp")]), Axis([0, 9], 0, 300, 34, 6), {}, 0, high, 12)
            root = ElementTree.fromstring(out.document(300, 30, ""))
            text, line = next(root.iter(f"{SVG}text")), next(root.iter(f"{SVG}line"))
            self.assertLess(float(text.get("y")) + 0.24 * float(text.get("font-size")), float(line.get("y1")) - 0.8)

    def test_amounts_stand_at_their_refill(self) -> None:
        root = self.svg("13_server_and_polling")
        refills = sorted(float(path.get("d")[1:].split(",")[0]) for path in root.iter(f"{SVG}path") if path.get("class") == "mark refill")
        amounts = [float(text.get("x")) for text in root.iter(f"{SVG}text") if re.fullmatch(r"\+\d", text.text or "")]
        self.assertGreaterEqual(len(amounts), 4)
        for place in amounts:
            self.assertLess(min(abs(place - refill) for refill in refills), 12)

    def test_a_part_of_a_run(self) -> None:
        whole, part = example("20_controller"), window(example("20_controller"), 40, 60, ["monitor", "control"])
        self.assertEqual(([thread.name for thread in part.threads], part.start, part.end), (["monitor", "control"], 40, 60))
        for thread in part.threads:
            self.assertEqual((thread.spans[0].start, thread.spans[-1].end), (40, 60))
            original = next(other for other in whole.threads if other.name == thread.name)
            for tick in range(40, 60):
                self.assertEqual(thread.span_at(tick).state, original.span_at(tick).state)
        for name in FORMATS:
            self.assertTrue(drawer(name)(part), name)
        for start, end, names in ((60, 40, None), (None, None, ["nobody"]), (500, None, None)):
            with self.assertRaises(NoWindow):
                window(whole, start, end, names)

    def test_releases_and_missed_deadlines(self) -> None:
        """hog takes 12 of 20 ticks, lo needs 13: its jobs of 0, 20 and 40 are late, and the picture marks their deadlines at 20, 40, 60."""
        job = "forever\nrun 10\nadd 20\nclock_nanosleep reg\nend\nend\n"
        seen = seen_of(detail_of(f"thread hog fifo 50 at 0\nset 0\n{job}thread lo fifo 10 at 0\nset 0\n{job}".encode(), 80))
        mark_jobs(seen, [measure_of_words("thread=lo period=20"), measure_of_words("thread=hog period=20")])
        marks = {thread.name: [(mark.time, mark.kind.value) for mark in thread.marks if mark.sentence] for thread in seen.threads}
        self.assertEqual(marks["hog"], [(0, "release"), (20, "release"), (40, "release"), (60, "release")])
        self.assertEqual(marks["lo"], [(0, "release"), (20, "late"), (20, "release"), (40, "late"), (40, "release"), (60, "late"), (60, "release")])
        for name in FORMATS:
            self.assertTrue(drawer(name)(seen), name)
        self.assertIn("the deadline of job 0: job 0 is released at 0; done at 34, 34 ticks", drawer("svg")(seen))
        # Up to 80 lo has 32 ticks, and three jobs need 39.
        self.assertIn("the deadline of job 2: job 2 is released at 40; not done in this run", drawer("svg")(seen))

    def test_a_late_job_where_nothing_else_happens(self) -> None:
        """low waits for hog up to 31, and its jobs of 0, 10 and 20 are late by then; it ends at 43, before the deadline of the last at 50."""
        low = "set 0\nloop 3\nrun 1\nadd 10\nclock_nanosleep reg\nend\nrun 3\nend\n"
        seen = seen_of(detail_of(f"thread hog fifo 9 at 0\nrun 30\nend\nthread low fifo 5 at 0\n{low}".encode(), 60))
        plain = drawer("vcd")(seen)
        mark_jobs(seen, [measure_of_words("thread=low period=10")])
        told = data_of(seen)
        marks = {(int(told["ticks"][point]), kind) for point, kind, _ in told["threads"][1]["marks"]}
        self.assertLessEqual({(10, "release"), (20, "release"), (10, "late"), (20, "late"), (30, "late"), (50, "late")}, marks)
        self.assertEqual(seen.threads[1].ended, 43)
        self.assertEqual(drawer("vcd")(seen), plain)

    def test_what_a_reader_of_the_jobs_must_know(self) -> None:
        """c ends its job of 40 at 69: the signal of the timer for 50 is pending then, and that for 60 is lost. The words are those of pse52-measure."""
        job = "sigwaitinfo rt1\nrun 2\n"
        seen = seen_of(detail_of(("timer beat rt1 0\nthread c fifo 8 at 0\nsigmask block rt1\ntimer_settime beat abs 10 10\n"
                                  f"loop 3\n{job}end\nsigwaitinfo rt1\nrun 28\nforever\n{job}end\nend\n").encode(), 120))
        words = 'thread=c period=10 phase=10 to="call sigwaitinfo"'
        notes = mark_jobs(seen, [measure_of_words(words)])
        self.assertIn("measure 'c': from 69 on each job counts as later than it is, since a timer expired", notes[0])
        with self.assertRaisesRegex(NamesNothing, "none is done, for 'return c yield'"):
            mark_jobs(seen, [measure_of_words('thread=c period=10 phase=10 to="return c yield"')])

    def test_a_starved_thread_of_a_very_long_run(self) -> None:
        """5 * 10^17 jobs of low are open at the end: the first 10,000 are marked, so that the last release is at 19,998, and the reader is told."""
        seen = seen_of(b"0 start hog\n0 start low\n0 dispatch hog 9\n1000000000000000000 end\nthread hog ticks 1000000000000000000\nthread low ticks 0\n")
        notes = mark_jobs(seen, [measure_of_words("thread=low period=2")])
        released = [mark.time for mark in seen.threads[1].marks if mark.kind.value == "release"]
        self.assertEqual((len(released), max(released)), (10_000, 19_998))
        self.assertIn("measure 'low': of 500000000000000000 jobs that are not done the first 10000 are marked", notes)

    def test_jobs_that_end_by_a_line_without_a_thread(self) -> None:
        seen = seen_of(detail_of(b"thread a fifo 5 at 2\nrun 3\nend\n", 20))
        self.assertEqual(mark_jobs(seen, [measure_of_words('from="start a" to=idle')]), [])
        self.assertEqual([mark for thread in seen.threads for mark in thread.marks if mark.sentence], [])
        mark_jobs(seen, [measure_of_words('from="start a" to="exit a" deadline=3')])
        self.assertEqual([(mark.time, mark.kind.value) for mark in seen.threads[0].marks if mark.sentence], [(2, "release"), (5, "late")])
        seen = seen_of(detail_of(b"thread a fifo 5 at 2\nrun 3\nend\n", 20))
        mark_jobs(seen, [measure_of_words('from="start a" to=idle thread=a')])
        self.assertEqual([mark.sentence for mark in seen.threads[0].marks if mark.sentence], ["job 0 is released at 2; done at 6, 4 ticks"])

    def test_a_part_behind_the_end_of_a_thread(self) -> None:
        part = window(seen_of(detail_of(b"thread a fifo 5 at 0\nrun 2\nend\nthread b fifo 4 at 20\nrun 2\nend\n", 30)), 10, 30, None)
        dump = drawer("vcd")(part)
        self.assertEqual(re.findall(r"^s(ended|dormant) ", dump.partition("#20")[0], re.MULTILINE), ["ended", "dormant"])
        self.assertEqual([thread["ended"] for thread in data_of(part)["threads"]], [0, data_of(part)["ticks"].index("23")])

    def test_semaphores_begin_with_the_values_that_are_declared(self) -> None:
        """No fact tells the first values, 2 and 3; s is waited for at 5 and t is posted at 6."""
        seen = seen_of(detail_of(b"sem s 2\nsem t 3\nthread a fifo 5 at 0\nrun 4\nsem_wait s\nsem_post t\nsem_wait s\nend\n", 20))
        self.assertEqual(semaphores(seen), {"s": [(0, 2), (5, 1), (7, 0)], "t": [(0, 3), (6, 4)]})
        self.assertEqual(semaphores(window(seen, 3, 6, None)), {"s": [(3, 2), (5, 1)], "t": [(3, 3), (6, 4)]})

    def test_lists(self) -> None:
        titles = [rect.find(f"{SVG}title").text for rect in self.svg("01_fifo", lists=True).iter(f"{SVG}rect") if rect.get("class") == "list"]
        self.assertIn("list 5, head first, [2, 4): a b c", titles)
        self.assertIn("list 9, head first, [5, 8): urgent", titles)

    def test_a_long_run_is_drawn_as_density(self) -> None:
        script = b"quantum 3\nthread a rr 5 at 0\nforever\nrun 90\nend\nend\nthread b rr 5 at 0\nforever\nrun 90\nend\nend\n"
        text = drawer("svg")(seen_of(detail_of(script, 3000)))
        dense = [rect for rect in ElementTree.fromstring(text).iter(f"{SVG}rect") if rect.get("class") == "dense"]
        self.assertGreater(len(dense), 400)
        self.assertLess(len(text), 400_000)
        # Each has half of the processor, so each column is half full.
        high = [float(rect.get("height")) for rect in dense]
        self.assertAlmostEqual(sum(high) / len(high), 10, delta=1)

    def test_a_trace_alone_and_its_detail_agree(self) -> None:
        """Where a trace tells that a thread runs, is ready or waits, the detail tells the same."""
        for seed in range(SCRIPTS):
            text, horizon = accepted(seed)
            guessed, told = seen_of(trace_of(text, horizon)), seen_of(detail_of(text, horizon))
            for one, other in zip(guessed.threads, told.threads):
                self.assertEqual(one.runs, other.runs)
                for span in one.spans:
                    if span.state in (State.READY, State.WAITING):
                        for tick in {span.start, span.end - 1}:
                            self.assertIs(other.span_at(tick).state, span.state, (seed, one.name, tick))


if __name__ == "__main__":
    unittest.main()
