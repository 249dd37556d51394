"""A made log becomes a trace, and the audit finds in it what was put there."""
from __future__ import annotations

import subprocess
import sys
import unittest
from pathlib import Path

from ftrace.convert import NoLog, converted, head_of, kept
from ftrace.doubts import doubts
from ftrace.log import read_log
from ftrace.names import WrongMap, read_map

HERE = Path(__file__).resolve().parent
TOP = HERE.parents[2]
sys.path.append(str(TOP / "tools" / "reference"))
from audits import audit  # noqa: E402

TRACE = """\
0 start server
0 activate server 3
0 dispatch server 8
1 start urgent
1 dispatch urgent 9
13 exit urgent
13 dispatch server 8
15 exhaust server
15 plan server 3 10
15 refill server 3 3
15 activate server 3
18 exhaust server
18 plan server 3 25
18 dispatch other 1
19 idle
20 end
thread server ticks 6 high 6 init 3 refilled 3 capacity 0
thread urgent ticks 12
"""


def input_of(log: str) -> bytes:
    names = read_map((HERE / "server.map").read_text())
    return f"{head_of(names)}%%\n{converted(kept(read_log(log), names), names).text()}".encode()


def switch(at: str, prev: str, state: str, to: str) -> str:
    """A line of a log; a thread is told as its command name, pid and priority."""
    (comm, pid, prio), (next_comm, next_pid, next_prio) = prev.split(), to.split()
    return (f"  x-1 [000] d..2. {at}: sched_switch: prev_comm={comm} prev_pid={pid} prev_prio={prio} prev_state={state}"
            f" ==> next_comm={next_comm} next_pid={next_pid} next_prio={next_prio}\n")


def doubts_of(log: str, names: str) -> list[str]:
    return doubts(log, read_log(log), read_map(names))


class Ftrace(unittest.TestCase):
    def setUp(self) -> None:
        self.log = (HERE / "server.log").read_text()

    def test_a_log_becomes_a_trace(self) -> None:
        self.assertEqual(input_of(self.log).decode(), f"server server 10 3 4\n%%\n{TRACE}")

    def test_its_budgets_hold(self) -> None:
        self.assertEqual(audit(input_of(self.log)), (0, b"budgets hold\n"))

    def test_a_late_refill_is_found(self) -> None:
        late = self.log.replace("100.015008: tracing_mark_write: pse52 refill", "100.016008: tracing_mark_write: pse52 refill")
        self.assertNotEqual(late, self.log)
        self.assertEqual(audit(input_of(late)), (9, b"breach 10 3\n"))

    def test_a_server_that_runs_on_is_found(self) -> None:
        self.assertEqual(audit(input_of(self.log.replace("plan server 3 25", "plan server 2 25"))), (9, b"breach 13 2\n"))

    def test_totals_that_the_kernel_miscounted_are_found(self) -> None:
        self.assertEqual(audit(input_of(self.log.replace("totals server 6", "totals server 5"))), (9, b"breach 17 6\n"))

    def test_a_start_stands_at_the_wake_and_an_exit_at_the_end(self) -> None:
        idle, first, second, urgent = "swapper/0 0 120", "first 51 120", "second 52 120", "urgent_task 812 90"
        log = "".join((switch("100.000000", idle, "R", first), "  x-1 [000] d..2. 100.002000: sched_wakeup: comm=urgent_task pid=812 prio=90 cpu=000\n",
                       switch("100.003000", first, "R+", second), switch("100.005000", second, "S", urgent),
                       "  x-1 [000] d..2. 100.008000: sched_process_exit: comm=urgent_task pid=812 prio=90\n",
                       switch("100.009000", urgent, "X", idle)))
        names = read_map("tick 1000\nthread urgent urgent_task\n")
        self.assertEqual(converted(kept(read_log(log), names), names).text(),
                         "0 dispatch other 1\n2 start urgent\n5 dispatch urgent 9\n8 exit urgent\n9 idle\n9 end\nthread urgent ticks 4\n")

    def test_closing_lines(self) -> None:
        idle, server = "swapper/0 0 120", "server 811 91"
        totals = "  x-1 [000] d..2. 100.001000: tracing_mark_write: pse52 totals server {}\n"
        last = "  x-1 [000] d..2. 100.006000: tracing_mark_write: the last line\n"
        runs, ends = switch("100.000000", idle, "R", server), switch("100.004000", server, "X", idle)
        for log, told in ((runs + totals.format("6 3") + last, "6 end\nthread server ticks 6\n"),
                          (runs + totals.format("6 3 4 1") + last, "6 end\nthread server ticks 6 high 6 init 3 refilled 4 capacity 1\n"),
                          (runs + totals.format("4 3 2 1") + ends + last, "4 exit server\n4 idle\n6 end\nthread server ticks 4\n")):
            names = read_map("tick 1000\nserver server 811 10 3 4\n")
            self.assertEqual(converted(kept(read_log(log), names), names).text(), f"0 start server\n0 dispatch server 8\n{told}")

    def test_an_origin_leaves_out_what_is_before_it(self) -> None:
        names = read_map("tick 1000\norigin 100.013\nthread server 811\n")
        lines = converted(kept(read_log(self.log), names), names).text().splitlines()
        self.assertEqual(lines[:3], ["0 start server", "0 dispatch server 8", "2 exhaust server"])

    def test_wrong_maps(self) -> None:
        for text, part in (
                ("thread a 1\n", "no line `tick"), ("tick 0\n", "line 1 of the map, 'tick 0': a tick has"), ("tick -5\n", "a tick has"),
                ("tick 1ms\n", "no number .*; it is tick MICROSECONDS$"), ("tick inf\n", "no number"), ("tick 1e9999999\n", "no number"), ("tick 1\norigin inf\n", "line 2 .* no number"),
                ("tick 1\nthread A 1\n", "a name is"), ("tick 1\nthread idle 1\n", "calls"), ("tick 1\nthread other 1\n", "calls"),
                ("tick 1\nthread a 1\nthread a 2\n", "line 3 .* has this name"), ("tick 1\nthread a 1\nthread b 1\n", "has the thread 1"),
                ("tick 1\nfoo\n", "a line is one of"), ("tick 1\nserver a 1 10 3\n", "server NAME PID PERIOD BUDGET MAX"),
                ("tick 1\nserver a 1 10 30 4\n", "the budget"), ("tick 1\nserver a 1 10 0 4\n", "the budget"), ("tick 1\nserver a 1 10 3 17\n", "MAX")):
            with self.assertRaisesRegex(WrongMap, part):
                read_map(text)

    def test_what_is_no_log(self) -> None:
        for text, part in (("tick 1\n", "no line of ftrace's text"), ("tick 1\ncpu 7\n", "processor 7"), ("tick 1\norigin 999\n", "before the origin")):
            with self.assertRaisesRegex(NoLog, part):
                kept(read_log("" if part.startswith("no line of ftrace") else self.log), read_map(text))

    def test_what_the_map_and_the_log_do_not_share(self) -> None:
        names = read_map("tick 1000\nserver ghost 4711 10 3 4\nthread urgent urgent_task\n")
        self.assertEqual(converted(kept(read_log(self.log), names), names).remarks(),
                         ["no line of the log has '4711', which the map calls ghost", "a marker names 'server', which the map does not"])

    def test_a_log_without_switches_is_no_log(self) -> None:
        report = self.log.replace("prev_comm=", "").replace(" ==> next_comm=", " ==> ")
        with self.assertRaisesRegex(NoLog, "sched_switch"):
            kept(read_log(report), read_map("tick 1000\n"))

    def test_markers_of_the_kernel_and_of_trace_cmd(self) -> None:
        for other in ("dl_task_tick+0x1c/0x90", "print: tracing_mark_write", "bprint:   server_tick"):
            changed = self.log.replace("tracing_mark_write", other)
            self.assertEqual(input_of(changed).decode(), f"server server 10 3 4\n%%\n{TRACE}", other)

    def test_an_end_in_the_letter_of_an_older_kernel(self) -> None:
        self.assertEqual(input_of(self.log.replace("prev_state=X", "prev_state=x")), input_of(self.log))

    def test_a_good_log_leaves_no_doubt(self) -> None:
        self.assertEqual(doubts_of(self.log, (HERE / "server.map").read_text()), [])

    def test_events_that_the_kernel_lost(self) -> None:
        lines = self.log.splitlines(keepends=True)
        for lost in ("CPU:0 [LOST 523 EVENTS]\n", "CPU:1 [LOST EVENTS]\n", "CPU:0 [12 EVENTS DROPPED]\n"):
            self.assertEqual(doubts_of("".join([*lines[:8], lost, *lines[8:]]), "tick 1000\ncpu 0\n"),
                             ["the kernel lost events at one line of the log: the trace lacks what was there"], lost)

    def test_switches_of_two_processors(self) -> None:
        self.assertEqual(doubts_of(self.log, "tick 1000\n"),
                         ["the log has switches of processors 0, 1, and a trace has one: name it in the map, as `cpu 0`"])

    def test_lines_that_could_not_be_read(self) -> None:
        broken = self.log.replace("comm=urgent_task pid=812 prio=90 target_cpu=000", "urgent_task:812 [90]", 1)
        self.assertEqual(doubts_of(broken, "tick 1000\ncpu 0\n"), ["one line could not be read, the first: sched_wakeup: urgent_task:812 [90]"])

    def test_markers_that_say_nothing(self) -> None:
        wrong = self.log.replace("pse52 exhaust server", "pse52 exhausted server")
        self.assertEqual(doubts_of(wrong, "tick 1000\ncpu 0\n"), ["2 lines of markers say nothing of a server, the first: pse52 exhausted server"])

    def test_markers_that_break_off(self) -> None:
        """A marker of one word or two, and of each word one that has a number too few or too many, are told; a whole one of each is not."""
        good = {"activate s 3", "exhaust s", "plan s 2 9", "refill s 2 3", "cancel s", "totals s 1 2 3 4"}
        wrong = ["", "exhaust", *(f"{said} 5" for said in sorted(good)), "activate s", "plan s 2", "refill s 2", "totals s 1 2 3"]

        def told(markers: list[str]) -> list[str]:
            return doubts_of(self.log + "".join(f"  x-1 [000] d..2. 101.0: print: tracing_mark_write: pse52 {said}\n" for said in markers), "tick 1000\ncpu 0\n")
        self.assertEqual(told(sorted(good)), [])
        for said in wrong:
            self.assertEqual(told([said]), [f"one line of markers say nothing of a server, the first: {f'pse52 {said}'.strip()}"], said)

    def test_markers_of_another_processor(self) -> None:
        moved = self.log.replace("[000] d.h2.   100.015008: tracing_mark_write", "[001] d.h2.   100.015008: tracing_mark_write")
        self.assertEqual(doubts_of(moved, "tick 1000\ncpu 0\n"),
                         ["left out, since of other processors than the map names: one line of markers, the first: pse52 refill server 3 3"])

    def test_two_threads_of_one_command_name(self) -> None:
        shared = self.log.replace("urgent_task", "server")
        self.assertEqual(doubts_of(shared, "tick 1000\ncpu 0\nthread both server\n"),
                         ["2 threads of the log are called 'server', and the map makes one of them, both: name it by its number"])
        self.assertEqual(doubts_of(shared, "tick 1000\ncpu 0\nthread both server\nthread one 812\n"), [])

    def test_wrong_words_and_files(self) -> None:
        for words, text, status, part in (([], "", 1, "--help"), (["none.map"], "", 4, "none.map was not read"),
                                          ([HERE / "server.log"], "", 2, "of the map"), ([HERE / "server.map"], "\xff", 2, "no line")):
            ended = subprocess.run([TOP / "bin" / "pse52-from-ftrace", *words], input=text.encode("latin-1"), capture_output=True, check=False)
            self.assertEqual((ended.returncode, ended.stdout, ended.stderr.count(b"\n")), (status, b"", 1), words)
            self.assertIn(part, ended.stderr.decode())

    def test_the_command(self) -> None:
        done = subprocess.run([TOP / "bin" / "pse52-from-ftrace", "--trace", HERE / "server.map"], input=self.log, text=True,
                              capture_output=True, check=True)
        self.assertEqual((done.stdout, done.stderr), (TRACE, ""))

    def test_the_command_says_its_doubts(self) -> None:
        done = subprocess.run([TOP / "bin" / "pse52-from-ftrace", HERE / "server.map"], input=f"CPU:0 [LOST EVENTS]\n{self.log}", text=True,
                              capture_output=True, check=True)
        self.assertIn("pse52-from-ftrace: the kernel lost events", done.stderr)


if __name__ == "__main__":
    unittest.main()
