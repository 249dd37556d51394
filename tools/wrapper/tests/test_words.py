"""What bin/pse52 answers to words."""
from __future__ import annotations

import os
import pty
import re
import signal
import subprocess
import sys
import tempfile
import unittest
from pathlib import Path

from .scratch import SCRIPT, Checkout

# Words that are no command, and a part of what is said of them.
WRONG = [
    ("run", "needs a number of ticks"), ("run 1e3", "as in 1000"), ("run 1_000", "as in 1000"), ("run 10k", "as in 1000"),
    ("run -5", "no number is negative"), ("run 2.5", "ticks are whole numbers"), ("run 10ms", "without a unit"),
    ("run s.task", "pse52 run 100 s.task"), ("run s.task 20", "pse52 run 20 s.task"), ("run 1000000000000000001", "10^18"),
    ("run 1 s.task s.task", "a word too many"), ("show", "pse52 show N SCRIPT"), ("show 1 2 3", "a word too many"), ("shov 7", "did you mean 'show'?"),
    ("sohw 7", "did you mean 'show'?"), ("rnu 7 s.task", "did you mean 'run'?"), ("view svg s.task", "pse52-view"), ("check 7 - -", "only one"),
    ("check s.task 7 s.task", "pse52 check N SCRIPT TRACE"), ("gen s.task", "pse52 gen S"), ("soak s.task 7", "pse52 soak S N"),
    ("detail", "pse52 detail N SCRIPT"), ("detail 1 2 3", "a word too many"), ("details 7", "did you mean 'detail'?"), ("rta 100000001", "100000000"), ("7", "a command comes before its numbers"),
    ("s.task", "pse52 run 100 s.task"), ("rum 7", "did you mean 'run'?"), ("SHOW 7", "did you mean 'show'?"), ("run 7 --frob", "no option and no file"), ("frobnicate", "--help"), ("--frob", "no option"),
    ("soak 7", "needs two numbers"), ("gen", "pse52 gen S"), ("gen x", "a number from 0 to 10^18"), ("check 7 s.task", "a script and a trace"),
    ("upgrade 3", "takes no number"), ("audit 3", "takes no number"),
    ("upgrade s.task s.task", "a word too many"), ("audit s.task", "a head and a trace"), ("audit s.task s.task s.task", "a word too many"),
    ("explain s.task s.task", "one script")]


class Words(unittest.TestCase):
    def setUp(self) -> None:
        self.folder = tempfile.TemporaryDirectory()
        self.addCleanup(self.folder.cleanup)
        self.checkout = Checkout.make(Path(self.folder.name))

    def test_wrong_words_are_answered_without_a_program(self) -> None:
        for words, part in WRONG:
            ended = self.checkout.run(*words.split())
            self.assertEqual((ended.status, ended.out, ended.err.count("\n")), (1, "", 1), words)
            self.assertIn(part, ended.err, words)

    def test_empty_words(self) -> None:
        self.assertEqual(self.checkout.run("").status, 1)
        self.assertEqual(self.checkout.run("run", "").status, 1)

    def test_help_and_version(self) -> None:
        for word in ("--help", "-h", "help"):
            ended = self.checkout.run(word)
            self.assertEqual((ended.status, ended.err), (0, ""))
            for command in ("run N", "show N", "detail N", "check N", "rta N", "gen S", "soak S N", "upgrade", "audit", "explain", "--prove", "--released"):
                self.assertIn(f"\n  {command}", ended.out)
        self.assertEqual(self.checkout.run().err, self.checkout.run("--help").out)
        self.assertEqual(self.checkout.run().status, 1)
        self.assertEqual(self.checkout.run("--version").out, "pse52 1.2.3\n")
        self.checkout.put_release()
        self.assertIn("release 1.2.3 of 2026-01-02", self.checkout.run("-V").out)
        self.assertIn("usage", self.checkout.run("run", "1", "--help").out)

    def test_commands_reach_the_program_as_they_are(self) -> None:
        self.checkout.put_release()
        for words in ("run 000", "show 0", "detail 0", "run 1000000000000000000", "rta 100000000", "check 7", "upgrade", "audit"):
            self.assertEqual(self.checkout.run(*words.split(), text="x\n").out, f"release: {words}\nx\n", words)
        self.assertEqual(self.checkout.run("gen", "7").out, "release: gen 7\n")
        self.assertEqual(self.checkout.run("soak", "7", "9").status, 5)

    def test_numbers_at_their_limits(self) -> None:
        self.checkout.put_release()
        zeros = "0" * 20
        for words in (f"gen {zeros}7", f"run {zeros}1000000000000000000", "run 999999999999999999", f"rta {zeros}100000000", "rta 99999999"):
            self.assertEqual(self.checkout.run(*words.split()).out, f"release: {words}\n", words)
        for words in ("gen 1000000000000000001", "gen 9999999999999999999", "rta 100000000000", "soak 1000000000000000001 5",
                      "soak 7 1000000000000000001", "soak 7 x"):
            ended = self.checkout.run(*words.split())
            self.assertEqual((ended.status, ended.out), (1, ""), words)
            self.assertIn(f"'{words.split()[-2 if words.endswith(' 5') else -1]}' is not a number", ended.err, words)

    def test_files(self) -> None:
        self.checkout.put_release()
        self.checkout.write("t.trace", "trace\n")
        self.assertEqual(self.checkout.run("run", "7", "s.task").out, "release: run 7\n" + SCRIPT)
        self.assertEqual(self.checkout.run("show", "7", "s.task").out, "release: show 7\n" + SCRIPT)
        self.assertEqual(self.checkout.run("detail", "7", "s.task").out, "release: detail 7\n" + SCRIPT)
        self.assertEqual(self.checkout.run("run", "7", "-", text="x\n").out, "release: run 7\nx\n")
        self.assertEqual(self.checkout.run("upgrade", "s.task").out, "release: upgrade\n" + SCRIPT)
        self.assertEqual(self.checkout.run("check", "7", "s.task", "t.trace").out, f"release: check 7\n{SCRIPT}%%\ntrace\n")
        self.assertEqual(self.checkout.run("audit", "s.task", "t.trace").out, f"release: audit\n{SCRIPT}%%\ntrace\n")
        for words, part in (("run 7 none.task", "no file"), ("upgrade none", "no file"), ("run 7 bin", "folder"), ("check 7 s.task none", "no file")):
            ended = self.checkout.run(*words.split())
            self.assertEqual((ended.status, ended.out), (4, ""), words)
            self.assertIn(part, ended.err)

    def test_a_script_without_its_last_line_end_is_divided_from_its_trace(self) -> None:
        self.checkout.put_release()
        self.checkout.write("t.trace", "trace\n")
        self.checkout.write("open.task", SCRIPT.rstrip("\n"))
        self.assertEqual(self.checkout.run("check", "7", "open.task", "t.trace").out, f"release: check 7\n{SCRIPT}%%\ntrace\n")

    def test_each_status_is_explained(self) -> None:
        self.checkout.put_built()
        for status, part in ((3, "1048576 of a script, 67108864"), (4, "the text could not be read"), (6, "not enough memory"),
                             (7, "the first line that differs"), (8, "no line %%"), (9, "breaks a rule"), (71, "the status 71")):
            self.checkout.write("crates/pse52/out/pse52", f"#!/bin/sh\nexit {status}\n")
            subprocess.run(["sh", str(self.checkout.top / "tools/wrapper/record.sh"), self.checkout.sum("sources")], check=True)
            ended = self.checkout.run("run", "7", "s.task", "--explain")
            self.assertEqual((ended.status, ended.out, ended.err.count("\n")), (status, "", 1))
            self.assertIn(part, ended.err)

    def test_an_upgrade_that_would_be_too_long_is_told(self) -> None:
        self.checkout.put_built()
        self.checkout.write("crates/pse52/out/pse52", "#!/bin/sh\nexit 3\n")
        subprocess.run(["sh", str(self.checkout.top / "tools/wrapper/record.sh"), self.checkout.sum("sources")], check=True)
        ended = self.checkout.run("upgrade", "s.task", "--explain")
        self.assertEqual((ended.status, ended.out), (3, ""))
        self.assertIn("the one of version 2 that it would be", ended.err)

    def test_a_line_of_another_text_that_is_refused_is_shown(self) -> None:
        self.checkout.put_built()
        self.checkout.write("crates/pse52/out/pse52", "#!/bin/sh\nprintf 'refused 2 6 PeriodRange\\n'\nexit 2\n")
        subprocess.run(["sh", str(self.checkout.top / "tools/wrapper/record.sh"), self.checkout.sum("sources")], check=True)
        self.checkout.write("t.rta", "first\nsecond\nthird\n")
        ended = self.checkout.run("rta", "7", "t.rta", "--explain")
        self.assertEqual((ended.status, ended.out), (2, "refused 2 6 PeriodRange\n"))
        self.assertEqual(ended.err, "pse52: line 2 is refused, PeriodRange: 'second'; a line is: task NAME PRIORITY COST PERIOD BLOCKING (docs/RTA.md)\n")

    def test_a_line_that_differs_is_shown(self) -> None:
        self.checkout.put_built()
        self.checkout.write("crates/pse52/out/pse52", "#!/bin/sh\nprintf 'differs 2\\nwant x\\nhave text\\n'\nexit 7\n")
        subprocess.run(["sh", str(self.checkout.top / "tools/wrapper/record.sh"), self.checkout.sum("sources")], check=True)
        self.checkout.write("t.trace", "one\ntwo\n")
        ended = self.checkout.run("check", "7", "s.task", "t.trace", "--explain")
        self.assertEqual((ended.status, ended.out), (7, "differs 2\nwant x\nhave text\n"))
        self.assertIn("line 2 of t.trace: two\n", ended.err)
        self.assertEqual(self.checkout.run("check", "7", "s.task", "t.trace").err, "")

    def test_what_the_eye_does_not_see_of_a_line_is_told(self) -> None:
        self.checkout.put_built()
        self.checkout.write("crates/pse52/out/pse52", "#!/bin/sh\nprintf 'differs 2\\nwant two\\nhave text\\n'\nexit 7\n")
        subprocess.run(["sh", str(self.checkout.top / "tools/wrapper/record.sh"), self.checkout.sum("sources")], check=True)
        for trace, shown in (("one\ntwo\r\n", "two (it ends with byte 13, as lines of Windows do)"), ("one\ntwo \n", "two  (a blank stands at its end)"),
                             ("one\ntwo", "two (its line end is missing)"), ("one\n", "the file ends before it"), ("", "the file ends before it"),
                             ("one\nt\x1bo\nthree", "t?o"), ("one\n\n", "")):
            (self.checkout.top / "t.trace").write_bytes(trace.encode())
            ended = self.checkout.run("check", "7", "s.task", "t.trace", "--explain")
            self.assertIn(f"line 2 of t.trace: {shown}\n", ended.err, trace)

    def test_a_line_of_the_script_that_is_refused_is_shown(self) -> None:
        self.checkout.put_built()
        self.checkout.write("crates/pse52/out/pse52", "#!/bin/sh\nprintf 'refused 2 1 BadByte\\n'\nexit 2\n")
        subprocess.run(["sh", str(self.checkout.top / "tools/wrapper/record.sh"), self.checkout.sum("sources")], check=True)
        self.checkout.write("head", "first\nsecond\n")
        self.checkout.write("t.trace", "one\ntwo\n")
        for words in (("check", "7", "head", "t.trace"), ("audit", "head", "t.trace")):
            ended = self.checkout.run(*words, "--explain")
            self.assertEqual((ended.status, ended.out), (2, "refused 2 1 BadByte\n"), words)
            self.assertIn("line 2 of head: second\n", ended.err, words)

    def test_a_line_that_breaks_a_rule_is_shown(self) -> None:
        self.checkout.put_built()
        self.checkout.write("crates/pse52/out/pse52", "#!/bin/sh\ncat >/dev/null\nprintf 'breach 2 4\\n'\nexit 9\n")
        subprocess.run(["sh", str(self.checkout.top / "tools/wrapper/record.sh"), self.checkout.sum("sources")], check=True)
        self.checkout.write("t.trace", "one\ntwo\n")
        ended = self.checkout.run("audit", "s.task", "t.trace", "--explain")
        self.assertEqual((ended.status, ended.out), (9, "breach 2 4\n"))
        self.assertIn("line 2 of t.trace: two\n", ended.err)
        ended = self.checkout.run("audit", "--explain", text="server a 10 2 4\n%%\none\n5 activate a 3\n")
        self.assertEqual((ended.status, ended.out), (9, "breach 2 4\n"))
        self.assertIn("pse52: line 2 of the trace breaks rule 4 for the server 'a': 5 activate a 3\npse52: rule 4 of docs/AUDIT.md: An", ended.err)

    def test_files_of_any_name_beside_one_another(self) -> None:
        self.checkout.put_release()
        self.checkout.write("-n", "trace\n")
        text = f"release: check 7\n{SCRIPT}%%\ntrace\n"
        self.assertEqual(self.checkout.run("check", "7", "s.task", "-n").out, text)
        self.assertEqual(self.checkout.run("check", "7", "s.task", "-", text="trace\n").out, text)
        self.assertEqual(self.checkout.run("check", "7", "-", "-n", text=SCRIPT).out, text)
        self.checkout.write("-e", SCRIPT)
        self.assertEqual(self.checkout.run("check", "7", "-e", "-n").out, text)

    def test_by_its_name_alone(self) -> None:
        self.checkout.put_release()
        ended = subprocess.run(["sh", "pse52", "check", "7", "../s.task", "../s.task"], cwd=self.checkout.top / "bin", text=True,
                               capture_output=True, check=False)
        self.assertEqual((ended.returncode, ended.stdout), (0, f"release: check 7\n{SCRIPT}%%\n{SCRIPT}"))

    def test_an_output_that_is_not_written(self) -> None:
        self.checkout.put_release()
        for words in ("--help", "--version", "--which", "check 7 s.task s.task", "explain s.task"):
            with open("/dev/full", "wb") as full:
                ended = subprocess.run([self.checkout.top / "bin/pse52", *words.split()], stdout=full, stderr=subprocess.PIPE, text=True,
                                       cwd=self.checkout.top, check=False)
            self.assertEqual((ended.returncode, ended.stderr.count("\n")), (5, 1), words)
            self.assertIn("not", ended.stderr)
            reader, writer = os.pipe()
            os.close(reader)
            ended = subprocess.run([self.checkout.top / "bin/pse52", *words.split()], stdout=writer, stderr=subprocess.PIPE, text=True,
                                   cwd=self.checkout.top, check=False)
            os.close(writer)
            self.assertEqual((ended.returncode, ended.stderr), (5, ""), words)

    def test_which(self) -> None:
        self.checkout.put_built()
        self.assertEqual(self.checkout.run("--which").out, f"{self.checkout.top.resolve()}/crates/pse52/out/pse52\n")


class Explanations(unittest.TestCase):
    """The reference stands in for the program."""

    def setUp(self) -> None:
        self.folder = tempfile.TemporaryDirectory()
        self.addCleanup(self.folder.cleanup)
        self.checkout = Checkout.make(Path(self.folder.name))
        self.checkout.put_built()
        self.checkout.write("crates/pse52/out/pse52", f'#!/bin/sh\nexec python3 {self.checkout.top}/tools/reference/simulate.py "$@"\n')
        subprocess.run(["sh", str(self.checkout.top / "tools/wrapper/record.sh"), self.checkout.sum("sources")], check=True)
        self.wrong = "thread a fifo 5 at 0\nrum 3\nend\n"
        self.checkout.write("wrong.task", self.wrong)

    def test_explain_needs_no_program(self) -> None:
        (self.checkout.top / "crates/pse52/out/pse52.record").unlink()
        self.assertEqual(self.checkout.run("explain", "s.task").out, "no fault\n")
        for ended in (self.checkout.run("explain", "wrong.task"), self.checkout.run("explain", text=self.wrong)):
            self.assertEqual(ended.status, 2)
            self.assertIn("line 2, column 1: UnknownWord", ended.out)
        lines = self.checkout.run("explain", "--lines", "wrong.task").out
        self.assertTrue(lines.startswith("wrong.task:2:1: UnknownWord: "), lines)
        self.assertEqual(self.checkout.run("explain", "wrong.task", "--lines").out, lines)

    def test_by_a_flag(self) -> None:
        for words, text in ((("--explain", "run", "7"), self.wrong), (("run", "7", "wrong.task", "--explain"), "")):
            ended = self.checkout.run(*words, text=text)
            self.assertEqual((ended.status, ended.out), (2, "refused 2 2 UnknownWord\n"))
            self.assertIn("did you mean `run`?", ended.err)

    def test_an_input_that_cannot_be_read(self) -> None:
        self.checkout.write("crates/pse52/out/pse52", "#!/bin/sh\ncat >/dev/null 2>&1 || exit 4\n")
        subprocess.run(["sh", str(self.checkout.top / "tools/wrapper/record.sh"), self.checkout.sum("sources")], check=True)
        for closed in ("<&-", "<bin"):
            ended = subprocess.run(["sh", "-c", f"bin/pse52 --explain run 7 {closed}"], capture_output=True, text=True, cwd=self.checkout.top,
                                   check=False)
            self.assertEqual((ended.returncode, ended.stderr), (4, "pse52: the text could not be read\n"), closed)

    def test_without_a_flag_standard_error_stays_empty(self) -> None:
        ended = self.checkout.run("run", "7", "wrong.task")
        self.assertEqual((ended.status, ended.out, ended.err), (2, "refused 2 2 UnknownWord\n", ""))

    def on_a_terminal(self, words: str) -> str:
        """What a shell's words write on a terminal."""
        leader, follower = pty.openpty()
        process = subprocess.Popen(["sh", "-c", words], stdin=subprocess.DEVNULL, stdout=follower, stderr=follower, cwd=self.checkout.top)
        os.close(follower)
        told = b""
        try:
            while block := os.read(leader, 4096):
                told += block
        except OSError:
            pass
        os.close(leader)
        process.wait()
        return told.decode().replace("\r\n", "\n")

    def test_on_a_terminal(self) -> None:
        for words in ("bin/pse52 run 7 wrong.task", "bin/pse52 run 7 < wrong.task", "cat wrong.task | bin/pse52 run 7"):
            told = self.on_a_terminal(words)
            self.assertIn("refused 2 2 UnknownWord\n", told)
            self.assertIn("did you mean `run`?", told, words)

    def test_an_interrupted_run_leaves_nothing(self) -> None:
        self.checkout.write("crates/pse52/out/pse52", "#!/bin/sh\necho ready\nexec sleep 60\n")
        subprocess.run(["sh", str(self.checkout.top / "tools/wrapper/record.sh"), self.checkout.sum("sources")], check=True)
        kept = self.checkout.top / "kept"
        kept.mkdir()
        for number in (signal.SIGINT, signal.SIGTERM, signal.SIGHUP):
            # A shell without a terminal has SIGINT ignored, and nohup SIGHUP; what is ignored cannot be trapped.
            process = subprocess.Popen([self.checkout.top / "bin/pse52", "--explain", "run", "7"], stdin=subprocess.PIPE, stdout=subprocess.PIPE,
                                       stderr=subprocess.DEVNULL, env=dict(os.environ, TMPDIR=str(kept)), start_new_session=True,
                                       preexec_fn=lambda: signal.signal(number, signal.SIG_DFL))
            process.stdin.write(SCRIPT.encode())
            process.stdin.close()
            self.assertEqual(process.stdout.readline(), b"ready\n")
            self.assertEqual(len(list(kept.iterdir())), 1)
            os.killpg(process.pid, number)
            self.assertEqual(process.wait(), -number)
            process.stdout.close()
            self.assertEqual(list(kept.iterdir()), [])

    def test_a_terminal_beside_a_file_is_told(self) -> None:
        leader, follower = pty.openpty()
        os.write(leader, b"\x04\x04")
        ended = subprocess.run([self.checkout.top / "bin/pse52", "check", "7", "s.task", "-"], stdin=follower, capture_output=True, text=True,
                               cwd=self.checkout.top, timeout=60, check=False)
        os.close(leader)
        os.close(follower)
        self.assertIn("'-' is read from this terminal, up to Ctrl-D", ended.stderr)

    def test_a_reader_that_has_gone_is_no_complaint(self) -> None:
        self.checkout.write("crates/pse52/out/pse52", "#!/bin/sh\nexit 5\n")
        subprocess.run(["sh", str(self.checkout.top / "tools/wrapper/record.sh"), self.checkout.sum("sources")], check=True)
        self.assertEqual(self.on_a_terminal("bin/pse52 gen 7 | cat"), "")
        self.assertIn("could not be written", self.on_a_terminal("bin/pse52 gen 7"))


class Pythons(unittest.TestCase):
    def test_an_older_python_is_told(self) -> None:
        top = Path(__file__).parents[3]
        for tool in ("view", "measure", "sweep", "live", "lab", "from-ftrace"):
            older = f"import runpy, sys; sys.version_info = (3, 10, 2); runpy.run_path({str(top / 'bin' / f'pse52-{tool}')!r}, run_name='__main__')"
            ended = subprocess.run([sys.executable, "-c", older], capture_output=True, text=True, check=False)
            self.assertEqual((ended.returncode, ended.stderr), (70, f"pse52-{tool}: Python 3.11 or later is needed, and this is 3.10\n"))


class Completion(unittest.TestCase):
    """What bash offers behind words."""

    def offered(self, *words: str, function: str = "_pse52") -> list[str]:
        file = Path(__file__).parents[3] / "completions/pse52.bash"
        asked = f'. "$0"; COMP_WORDS=("$@"); COMP_CWORD=$(($# - 1)); {function}; printf "%s\\n" "${{COMPREPLY[@]}}"'
        return subprocess.run(["bash", "-c", asked, str(file), *words], capture_output=True, text=True, check=True).stdout.split()

    def test_options(self) -> None:
        self.assertEqual(self.offered("pse52", "explain", "-"), ["--lines"])
        self.assertEqual(self.offered("pse52", "run", "5", "--rel"), ["--released"])
        self.assertEqual(self.offered("pse52", "expl"), ["explain"])

    def test_each_option_of_help_is_in_the_manual_and_offered(self) -> None:
        top = Path(__file__).parents[3]
        texts = {name: (top / "completions" / name).read_text() for name in ("pse52.bash", "_pse52", "pse52.fish")}
        for tool in ("", "-view", "-measure", "-sweep", "-live", "-lab", "-from-ftrace"):
            told = subprocess.run([top / f"bin/pse52{tool}", "--help"], capture_output=True, text=True, check=True).stdout
            options = set(re.findall(r"(?<![\w-])--([a-z]+)", told))
            bash = re.search(rf"_pse52{tool.replace('-', '_')}\(\) \{{(.*?)\n\}}", texts["pse52.bash"], re.S)[1]
            zsh = re.search(rf"\n  pse52{tool}\)(.*?);;", texts["_pse52"], re.S)[1]
            self.assertEqual({f"--{option}" for option in options}, set(re.findall(r"--[a-z]+", bash)), tool)
            self.assertEqual({f"--{option}" for option in options}, set(re.findall(r"--[a-z]+", zsh)), tool)
            self.assertEqual(options, set(re.findall(rf"complete -c pse52{tool} .*-l ([a-z]+)", texts["pse52.fish"])), tool)
            self.assertEqual(options, set(re.findall(r"Fl -([a-z]+)", (top / f"docs/pse52{tool}.1").read_text())), tool)

    def test_words_of_an_operand(self) -> None:
        self.assertEqual(self.offered("pse52", "check", ""), [])
        self.assertNotEqual(self.offered("pse52", "check", "7", ""), [])
        self.assertEqual(self.offered("pse52-sweep", "--engine", "", function="_pse52_sweep"), ["parallel", "xargs"])


if __name__ == "__main__":
    unittest.main()
