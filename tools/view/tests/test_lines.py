"""The reader: which lines are trace lines, and where a line may stand."""
from __future__ import annotations

import os
import pty
import select
import signal
import subprocess
import sys
import tempfile
import unittest
from pathlib import Path

from view.facts import Fact, ThreadFact, WrongFact, thread_fact_of
from view.lines import CALLS, Budget, Closing, Deliver, Dispatch, NotATraceLine, Plan, Return, read_trace
from view.main import FORMATS

from .worked import TOP, VIEW, all_worked, text_of, view


def refused(*lines: str) -> tuple[int, str]:
    with unittest.TestCase().assertRaises(NotATraceLine) as caught:
        read_trace([line.encode() + b"\n" for line in lines])
    return caught.exception.number, caught.exception.text


class Lines(unittest.TestCase):
    def test_each_part_of_a_line_is_read(self) -> None:
        events = read_trace([
            b"0 dispatch a 5\n", b"3 return a sem_wait ETIMEDOUT 0\n", b"4 deliver a rt31 MESGQ 18446744073709551615\n",
            b"4 plan a 3 2000000000000000000\n", b"5 end\n",
            b"thread a ticks 5 high 3 init 4 refilled 1 capacity 2\n", b"thread b ticks 0\n"]).events
        self.assertEqual(events[0], Dispatch(0, "a", 5))
        self.assertEqual(events[1], Return(3, "a", "sem_wait", "ETIMEDOUT", 0))
        self.assertEqual(events[2], Deliver(4, "a", "rt31", "MESGQ", 2**64 - 1))
        self.assertEqual(events[3], Plan(4, "a", 3, 2 * 10**18))
        self.assertEqual(events[5], Closing("a", 5, Budget(3, 4, 1, 2)))
        self.assertEqual(events[6], Closing("b", 0, None))

    def test_every_worked_trace_is_read(self) -> None:
        for name in all_worked():
            lines = text_of(name).splitlines(keepends=True)
            self.assertEqual(len(read_trace(lines).events), len(lines), name)

    def test_lines_that_are_none(self) -> None:
        for line in ("", " ", "0", "0 idle ", "0  idle", "x idle", "-1 idle", "00 idle", "0 idle 1", "0 dispatch a",
                     "0 dispatch a 0", "0 dispatch a 256", "0 dispatch A 5", "0 dispatch a 05", "0 return a lock OK 0",
                     "0 return a fly 0 0", "0 return a lock 0 18446744073709551616", "0 deliver a rt32 USER 0",
                     "0 deliver a rt01 USER 0", "0 deliver a rt1 user 0", "0 plan a 0 5", "0 killed a", "0 sleep a",
                     "1000000000000000001 idle", "thread a ticks 5", "refused 2 2 UnknownWord", "0 idle\r",
                     "0 dispatch " + "a" * 33 + " 5", "0 start \u00e9", "0 dispatch a \u0665"):
            self.assertEqual(refused("0 start a", line)[0], 2, line)

    def test_where_a_line_may_stand(self) -> None:
        self.assertEqual(refused("5 start a", "4 idle"), (2, "4 idle"))
        self.assertEqual(refused("5 end", "5 idle")[0], 2)
        self.assertEqual(refused("5 end", "thread a ticks 0", "thread a ticks 0")[0], 3)
        self.assertEqual(refused("5 killed rt1", "5 idle")[0], 2)
        self.assertEqual(refused("5 end", "thread a ticks 1 high 1 init 1 refilled 0")[0], 2)
        self.assertEqual(refused()[0], 1)

    def test_every_call_of_the_language_is_known(self) -> None:
        sys.path.append(str(TOP / "tools" / "reference"))
        from forms import FORMS, Role
        no_calls = {"run", "set", "add", "take", "end", "if", "unless", "loop", "forever"}
        heads = {form.head for form in FORMS if form.role in (Role.STEP, Role.BLOCK, Role.CLOSE)}
        self.assertLessEqual(heads - no_calls, CALLS)
        self.assertLessEqual(CALLS - heads, {"clock_settime", "real_gettime"})

    def test_a_beginning_is_read(self) -> None:
        self.assertEqual(len(read_trace([b"0 start a\n", b"0 dispatch a 5"]).events), 2)


class FactLines(unittest.TestCase):
    def test_facts_stand_beside_the_events(self) -> None:
        trace = read_trace([b"0 start a\n", b"0 list 5 a\n", b"0 thread a ready 5 5\n", b"1 mutex m a 1\n", b"2 end\n", b"thread a ticks 2\n"])
        self.assertEqual(len(trace.events), 3)
        self.assertEqual(trace.facts, [Fact(0, "list", "5", ("a",), 1), Fact(0, "thread", "a", ("ready", "5", "5"), 1), Fact(1, "mutex", "m", ("a", "1"), 1)])

    def test_what_a_thread_is(self) -> None:
        for words, wanted in (("dormant", ThreadFact("dormant")), ("ready 1 6", ThreadFact("ready", 1, 6)),
                              ("blocked 3 6 lock m1", ThreadFact("blocked", 3, 6, "lock", "m1")),
                              ("blocked 5 5 nanosleep until 7", ThreadFact("blocked", 5, 5, "nanosleep", "", 7)),
                              ("blocked 6 6 mq_timedsend q until 30", ThreadFact("blocked", 6, 6, "mq_timedsend", "q", 30))):
            self.assertEqual(thread_fact_of(words.split()), wanted)
        for words in ("", "asleep", "ready 1", "ready a b", "blocked 1 1", "blocked 1 1 lock m n", "blocked 1 1 lock m until"):
            with self.assertRaises(WrongFact, msg=words):
                thread_fact_of(words.split())

    def test_facts_that_stand_wrong(self) -> None:
        self.assertEqual(refused("5 start a", "4 list 5 a")[0], 2)
        self.assertEqual(refused("5 end", "5 list 5 a")[0], 2)
        self.assertEqual(refused("0 start a", "0 thread a")[0], 2)
        self.assertEqual(refused("0 start a", "0 sem s")[0], 2)


class Command(unittest.TestCase):
    def test_a_refused_line_is_named_and_nothing_is_written(self) -> None:
        for name in FORMATS:
            ended = view([name], b"0 start a\n0 dispatch a 5\n3 flies a\n")
            self.assertEqual((ended.returncode, ended.stdout), (2, b""))
            self.assertIn(b"line 3 is no trace line", ended.stderr)
            self.assertIn(b"3 flies a", ended.stderr)

    def test_a_refused_script_is_told_as_its_line(self) -> None:
        ended = view(["svg"], b"refused 1 14 NoThread\n")
        self.assertEqual((ended.returncode, ended.stdout), (2, b""))
        self.assertIn(b"refused 1 14 NoThread", ended.stderr)

    def test_bytes_that_are_not_printed_are_escaped(self) -> None:
        ended = view(["text"], b"0 start a\n\x1b[31m\xff\n")
        self.assertEqual(ended.returncode, 2)
        self.assertNotIn(b"\x1b", ended.stderr)

    def test_words_that_are_no_command(self) -> None:
        for words, why in (([], "FORMAT"), (["pdf"], "'pdf'"), (["svg", "--width"], "--width"), (["svg", "--width", "0"], "no width"),
                           (["svg", "--width", "x"], "no width"), (["vcd", "--width", "9"], "'vcd' has no --width"), (["html", "--lists"], "no --lists"),
                           (["text", "--tick", "5"], "no length of a tick"), (["text", "--from", "-1"], "no number"), (["--versions"], "FORMAT"),
                           (["text", "--horizon", "5"], "--horizon is for a script"), (["text", "--colour"], "--colour")):
            ended = view(words, b"0 end\n")
            self.assertEqual((ended.returncode, ended.stdout), (1, b""), words)
            self.assertIn(why, ended.stderr.decode(), words)

    def test_options_stand_anywhere(self) -> None:
        file = str(TOP / "examples" / "06_protect.trace")
        drawn = {view(words, b"").stdout for words in (["text", file, "--from", "2", "--to", "9"], ["text", "--from", "2", file, "--to", "9"],
                                                       ["--from", "2", "--to", "9", "text", file], ["--from", "2", "text", "--to", "9", file])}
        self.assertEqual(len(drawn), 1)
        self.assertTrue(drawn.pop().startswith(b"ticks 2 to 9"))

    def test_a_tick_is_a_microsecond_where_linux_counts_them(self) -> None:
        file = str(TOP / "examples" / "06_protect.trace")
        self.assertIn(b" 0.000024000: sched_switch", view(["ftrace", file], b"").stdout)
        self.assertIn(b" 0.000000024: sched_switch", view(["ftrace", "--tick", "1ns", file], b"").stdout)

    def test_closed_streams(self) -> None:
        for closed, status, words in (("<&-", 4, "text"), (">&-", 5, "svg"), (">&-", 5, "text")):
            ended = subprocess.run(["sh", "-c", f"{sys.executable} {VIEW} {words} {closed}"], input=b"0 end\n" if ">" in closed else None,
                                   capture_output=True, check=False)
            self.assertEqual(ended.returncode, status, ended.stderr)
            self.assertNotIn(b"Traceback", ended.stderr)

    def test_a_terminal_that_is_read_is_told(self) -> None:
        for tool, words, what in (("view", ["text"], "a trace or a script"), ("measure", [], "a trace or a script"),
                                  ("from-ftrace", [str(TOP / "tools/ftrace/tests/server.map")], "the text of ftrace")):
            ours, theirs = pty.openpty()
            with open(theirs, "r+b", buffering=0) as terminal:
                process = subprocess.Popen([sys.executable, str(TOP / "bin" / f"pse52-{tool}"), *words], stdin=terminal, stderr=terminal)
            said = os.read(ours, 4096).decode() if select.select([ours], [], [], 20)[0] else "nothing"
            os.write(ours, b"\x04\x04")
            self.assertEqual(process.wait(60), 2)
            os.close(ours)
            self.assertIn(f"pse52-{tool}: {what} is read from this terminal, up to Ctrl-D", said)

    def test_progress_is_told_where_a_line_can_be_written_over(self) -> None:
        for term, is_told in (("xterm", True), ("dumb", False)):
            ours, theirs = pty.openpty()
            with open(theirs, "r+b", buffering=0) as terminal:
                subprocess.run([sys.executable, str(VIEW), "text", str(TOP / "examples" / "06_protect.trace")], stdout=subprocess.DEVNULL,
                               stderr=terminal, env=dict(os.environ, TERM=term), check=True)
                said = os.read(ours, 4096) if select.select([ours], [], [], 1)[0] else b""
            os.close(ours)
            self.assertEqual(b"\x1b[K" in said, is_told, term)
            self.assertEqual(bool(said), is_told, term)

    def test_without_standard_error_the_status_tells(self) -> None:
        script = TOP / "examples" / "06_protect.task"
        for where in ("2>&-", "2>/dev/full"):
            for words, status in ((f"text {script}", 0), ("text /nowhere/x", 4), ("text --colour", 1)):
                ended = subprocess.run(["sh", "-c", f"{sys.executable} {VIEW} {words} {where}"], stdout=subprocess.PIPE, check=False)
                self.assertEqual((ended.returncode, bool(ended.stdout)), (status, status == 0), (words, where))

    def test_what_is_wrong_with_a_line(self) -> None:
        for trace, why in ((b"0 idle\n\n", "it is empty"), (b"0 idle\r\n", "Windows line end"), (b"refused 4 2 UnknownWord\n", "mend the script")):
            self.assertIn(why, view(["text"], trace).stderr.decode())

    def test_scripts(self) -> None:
        script = b"# horizon 6\nthread a fifo 5 at 0\nrun 2\nend\n"
        words = ["text", "--title", "one"]
        told = view(words, script)
        self.assertEqual((told.returncode, told.stdout[:20]), (0, b"one: ticks 0 to 6, a"), told.stderr)
        self.assertIn(b"one: ticks 0 to 9", view([*words, "--horizon", "9"], script).stdout)
        self.assertIn("--horizon N", view(words, script.replace(b"# horizon 6\n", b"")).stderr.decode())
        self.assertIn("refused at line 3: UnknownWord", view(words, script.replace(b"run", b"rum")).stderr.decode())
        file = TOP / "examples" / "06_protect.task"
        for given in ([str(file)], ["--script", str(file)]):
            self.assertIn("06_protect: ticks 0 to 26", view(["text", *given], b"").stdout.decode())
        self.assertEqual(view(["text", "/nowhere/x"], b"").returncode, 4)
        self.assertIn("the text is empty", view(["text", "--horizon", "9"], b"").stderr.decode())
        self.assertIn("more than 1048576 bytes; shorten it", view([*words, "--horizon", "9"], b"#" * 1_048_577).stderr.decode())

    def test_the_input_of_an_audit_is_no_script(self) -> None:
        ftrace = TOP / "tools" / "ftrace" / "tests"
        converter = [sys.executable, str(TOP / "bin" / "pse52-from-ftrace"), str(ftrace / "server.map")]
        log = (ftrace / "server.log").read_bytes()
        audited, trace = (subprocess.run([*converter, *more], input=log, capture_output=True, check=True).stdout for more in ([], ["--trace"]))
        for words in (["text"], ["text", "--horizon", "9"]):
            told = view(words, audited)
            self.assertEqual((told.returncode, told.stdout), (2, b""))
            self.assertIn("a line is %%, so this is the input of audit or check", told.stderr.decode())
            self.assertIn("'pse52-from-ftrace --trace MAP < LOG', or by: sed '1,/^%%$/d' FILE", told.stderr.decode())
        cut = subprocess.run(["sed", "1,/^%%$/d"], input=audited, capture_output=True, check=True).stdout
        self.assertEqual(cut, trace)
        self.assertEqual(view(["text"], trace).returncode, 0)

    def test_through_links_from_anywhere(self) -> None:
        with tempfile.TemporaryDirectory(suffix=" with blanks") as folder:
            for name in ("pse52-view", "pse52-measure", "pse52-sweep"):
                (Path(folder) / name).symlink_to(TOP / "bin" / name)
                ended = subprocess.run([f"./{name}", "--help"], cwd=folder, capture_output=True, check=False)
                self.assertEqual((ended.returncode, ended.stderr), (0, b""))

    def test_help(self) -> None:
        ended = view(["--help"], b"")
        self.assertEqual(ended.returncode, 0)
        self.assertIn(b"perfetto", ended.stdout)

    def test_a_script_without_end(self) -> None:
        process = subprocess.Popen([sys.executable, str(VIEW), "text", "--horizon", "9"], stdin=subprocess.PIPE, stdout=subprocess.DEVNULL,
                                   stderr=subprocess.PIPE)
        process.stdin.write(b"#" * 1_048_577)
        process.stdin.flush()
        try:
            self.assertEqual(process.wait(60), 2)
            self.assertIn(b"more than 1048576 bytes", process.stderr.read())
        finally:
            process.kill()
            process.communicate()

    def test_a_full_device(self) -> None:
        if not os.path.exists("/dev/full"):
            self.skipTest("there is no /dev/full here")
        with open("/dev/full", "wb") as full:
            ended = subprocess.run([sys.executable, str(VIEW), "svg"], input=b"0 end\n", stdout=full,
                                   stderr=subprocess.PIPE, check=False)
        self.assertEqual(ended.returncode, 5)
        self.assertNotIn(b"Traceback", ended.stderr)

    def test_a_reader_that_has_gone_is_no_complaint(self) -> None:
        reader, writer = os.pipe()
        os.close(reader)
        ended = subprocess.run([sys.executable, str(VIEW), "svg"], input=b"0 end\n", stdout=writer, stderr=subprocess.PIPE, check=False)
        os.close(writer)
        self.assertEqual((ended.returncode, ended.stderr), (5, b""))

    def test_an_interrupt_is_no_fault_of_the_program(self) -> None:
        process = subprocess.Popen([sys.executable, str(VIEW), "text"], stdin=subprocess.PIPE, stdout=subprocess.PIPE, stderr=subprocess.PIPE,
                                   preexec_fn=lambda: signal.signal(signal.SIGINT, signal.default_int_handler))
        for _ in range(2):  # it is read in blocks of some size, and an interrupt counts once it reads
            process.stdin.write(b"0 start a\n" * 100_000)
        process.stdin.flush()
        process.send_signal(signal.SIGINT)
        said = process.communicate()[1]
        self.assertEqual((process.returncode, said), (-signal.SIGINT, b""))

    def test_names_that_are_no_utf8(self) -> None:
        with tempfile.TemporaryDirectory() as folder:
            for name, title in ((b"\xc3\xa4", "\u00e4"), (b"\xe4", "\ufffd")):
                path = os.fsencode(folder) + b"/" + name + b".task"
                Path(os.fsdecode(path)).write_bytes(b"# horizon 6\nthread a fifo 5 at 0\nrun 2\nend\n")
                for locale in ("C", "C.UTF-8"):
                    ended = subprocess.run([sys.executable, str(VIEW), "text", path], capture_output=True, check=False, env=dict(
                        os.environ, LC_ALL=locale, PYTHONUTF8="0", PYTHONCOERCECLOCALE="0"))
                    self.assertEqual((ended.returncode, ended.stdout.decode()[:9]), (0, f"{title}: ticks "), ended.stderr)

    def test_each_format_in_a_locale_of_ascii(self) -> None:
        for form in FORMATS:
            ended = subprocess.run([sys.executable, str(VIEW), form], input=b"0 start a\n0 dispatch a 5\n2 exit a\n2 end\n", capture_output=True,
                                   check=False, env=dict(os.environ, LC_ALL="C", PYTHONUTF8="0", PYTHONCOERCECLOCALE="0"))
            self.assertEqual((ended.returncode, ended.stderr), (0, b""), form)
            if form == "html":
                self.assertIn((TOP / "tools/view/page/draw.js").read_bytes(), ended.stdout)

    def test_it_says_how_far_it_is_on_a_terminal(self) -> None:
        trace = b"0 start a\n" + b"0 return a yield 0 0\n" * 45_000 + b"0 end\n"
        ours, theirs = pty.openpty()
        with open(theirs, "wb") as terminal:
            ended = subprocess.run([sys.executable, str(VIEW), "text"], input=trace, stdout=subprocess.PIPE, stderr=terminal,
                                   check=False)
        said = os.read(ours, 4096)
        os.close(ours)
        self.assertEqual(ended.returncode, 0)
        self.assertIn(b"20000 lines read", said)
        self.assertIn(b"40000 lines read", said)
        self.assertEqual(view(["text"], trace).stderr, b"")

    def test_how_far_it_is_in_a_file_beside_a_standard_input(self) -> None:
        """All lines but the first and the last have the same length, so that 20000 of 40002 lines are half of the file."""
        with tempfile.TemporaryDirectory() as folder:
            trace, other = Path(folder, "trace"), Path(folder, "other")
            trace.write_bytes(b"0 start a\n" + b"0 return a yield 0 0\n" * 40_000 + b"0 end\n")
            other.write_bytes(b"x\n")
            ours, theirs = pty.openpty()
            with open(theirs, "wb") as terminal, other.open("rb") as source:
                subprocess.run([sys.executable, str(VIEW), "text", str(trace)], stdin=source, stdout=subprocess.PIPE, stderr=terminal,
                               env=dict(os.environ, TERM="xterm"), check=True)
            said = os.read(ours, 4096)
            os.close(ours)
        self.assertIn(b"20000 lines read, 49 %", said)
        self.assertIn(b"40000 lines read, 99 %", said)


if __name__ == "__main__":
    unittest.main()
