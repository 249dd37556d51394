"""The server: who may ask, for what, and how much."""
from __future__ import annotations

import json
import os
import re
import socket
import subprocess
import sys
import tempfile
import threading
import unittest
from pathlib import Path
from unittest import mock

TOOLS = Path(__file__).resolve().parents[2]
sys.path.append(str(TOOLS / "reference"))

from lab.desk import NEWER, Desk, Request, Stopped  # noqa: E402
from lab.runs import NoRun, Sources, answer, run, trace_of  # noqa: E402
from lab.server import Lab  # noqa: E402
from view.html import SCRIPTS  # noqa: E402

from .served import TOP, Served, alive, children_of  # noqa: E402
from .waiting import LONGEST  # noqa: E402

SCRIPT = b"thread a fifo 5 at 0\nrun 3\nend\n"
# A run to that horizon takes any program many minutes, and tells nothing on its way. Where no program is here the reference is asked, which
# goes tick by tick, and no further than that.
LONG = b"thread a fifo 5 at 0\nforever\nrun 1\nend\nend\n"
FAR = 10 ** 12 if Sources.found().program else 10 ** 7
OVER = {"why": "the run took longer than 8 s and was ended; take a smaller horizon"}


class Server(unittest.TestCase):
    def setUp(self) -> None:
        self.lab = Served()
        self.addCleanup(self.lab.end)

    def test_the_page_and_a_run(self) -> None:
        status, text, headers = self.lab.ask("GET", f"/{self.lab.token}/")
        self.assertEqual((status, headers["Content-Type"]), (200, "text/html; charset=utf-8"))
        self.assertIn(b"lab.js", text)
        self.assertIn("default-src 'none'", headers["Content-Security-Policy"])
        self.assertNotIn("unsafe-eval", headers["Content-Security-Policy"])
        status, text, _ = self.lab.run(SCRIPT, form="trace")
        self.assertEqual((status, json.loads(text)), (200, {"text": "0 start a\n0 dispatch a 5\n4 exit a\n4 idle\n20 end\nthread a ticks 4\n"}))

    def test_the_picture_loads_all_of_the_page_of_pse52_view_that_it_needs(self) -> None:
        """All but the one that shows the run in that page, in the same order."""
        page = self.lab.ask("GET", f"/{self.lab.token}/picture.html")[1].decode()
        scripts = re.findall(r'<script src="(.*?)"', page)
        self.assertEqual([name for name in scripts if "/" in name], [f"view/{name}" for name in SCRIPTS if name != "start.js"])
        for name in scripts:
            self.assertEqual(self.lab.ask("GET", f"/{self.lab.token}/{name}")[0], 200, name)

    def test_nothing_is_loaded_from_elsewhere(self) -> None:
        for name in ("", "lab.css", "lab.js", "picture.html", "picture.css", "mode.js", "editor.js", "runs.js"):
            _, text, _ = self.lab.ask("GET", f"/{self.lab.token}/{name}")
            self.assertNotRegex(text, rb"(src|href|from|import|fetch\()[ =(\"']+(https?:)?//")

    def test_it_listens_on_this_machine_alone(self) -> None:
        said = [line.split() for file in ("/proc/net/tcp", "/proc/net/tcp6") for line in Path(file).read_text().splitlines()[1:]]
        listens = [words[1] for words in said if words[3] == "0A" and words[1].endswith(f":{self.lab.port:04X}")]
        self.assertEqual(listens, [f"0100007F:{self.lab.port:04X}"])

    def test_another_host(self) -> None:
        for host in ("example.com", f"example.com:{self.lab.port}", "127.0.0.1", f"127.0.0.1.nip.io:{self.lab.port}", ""):
            self.assertEqual(self.lab.ask("GET", f"/{self.lab.token}/", Host=host)[0], 421)
            self.assertEqual(self.lab.run(SCRIPT, Host=host)[0], 421)
        self.assertEqual(self.lab.ask("GET", f"/{self.lab.token}/", Host=f"localhost:{self.lab.port}")[0], 200)

    def test_another_page(self) -> None:
        for origin in ("https://example.com", "null", f"http://example.com:{self.lab.port}"):
            self.assertEqual(self.lab.run(SCRIPT, Origin=origin)[0], 403)
        self.assertEqual(self.lab.run(SCRIPT, Origin=f"http://127.0.0.1:{self.lab.port}")[0], 200)

    def test_no_token(self) -> None:
        for path in ("/", "/lab.js", "/run?horizon=3&pane=a", f"/{self.lab.token[:-1]}/", f"/{self.lab.token}x/", "//"):
            self.assertEqual(self.lab.ask("GET", path)[0], 403)
            self.assertEqual(self.lab.ask("POST", path, SCRIPT)[0], 403)

    def test_a_path_outside(self) -> None:
        for name in ("../server.py", "../../../etc/passwd", "%2e%2e/server.py", "..%2fserver.py", "view/../../main.py", "/etc/passwd", "view/html.py",
                     "codemirror/../../jquery/jquery.js", "about.json/", "changes.toml"):
            status, text, _ = self.lab.ask("GET", f"/{self.lab.token}/{name}")
            self.assertEqual((status, text), (404, b"There is no such part.\n"), name)

    def test_a_script_of_two_megabytes(self) -> None:
        status, text, _ = self.lab.run(b"#" * 2_000_000)
        self.assertEqual((status, text), (413, b"A script has at most 1048576 bytes.\n"))
        self.assertEqual(self.lab.run(SCRIPT, Content_Length="9" * 30)[0], 413)
        self.assertEqual(self.lab.run(SCRIPT, Content_Length="-1")[0], 411)
        self.assertEqual(self.lab.run(b"0\r\n\r\n", Content_Length="5", Transfer_Encoding="chunked")[0], 411)
        self.assertEqual(self.lab.run(b"#" * 1_048_540 + b"\n" + SCRIPT)[0], 200)

    def test_a_horizon_that_is_none(self) -> None:
        for horizon in ("-1", "", "1e3", "9" * 30, "1000000000000000001"):
            self.assertEqual(self.lab.ask("POST", f"/{self.lab.token}/run?horizon={horizon}&pane=a", SCRIPT)[0], 400)
        self.assertEqual(self.lab.run(SCRIPT, pane="c")[0], 400)
        self.assertEqual(self.lab.run(SCRIPT, form="show")[0], 400)

    def short_runs_beside_a_long_one(self, lab: Served, of_long: str, of_short: str) -> tuple[list[dict[str, str]], dict[str, str]]:
        """The answers to short runs of one tab, which are asked for again and again up to the answer to a long run of another, and that one."""
        lab.run(SCRIPT)
        answers: list[bytes] = []
        long = threading.Thread(target=lambda: answers.append(lab.run(LONG, FAR, tab=of_long)[1]))
        long.start()
        short = [json.loads(lab.run(SCRIPT, form="trace", tab=of_short)[1])]
        while long.is_alive():
            short.append(json.loads(lab.run(SCRIPT, form="trace", tab=of_short)[1]))
        long.join()
        return short, json.loads(answers[0])

    def test_a_run_that_takes_too_long(self) -> None:
        lab = Served("--seconds", "8")
        self.addCleanup(lab.end)
        lab.run(SCRIPT)
        status, text, _ = lab.run(LONG, FAR)
        self.assertEqual((status, json.loads(text)), (200, OVER))
        status, text, _ = lab.run(SCRIPT, form="trace")
        self.assertIn("4 exit a", json.loads(text)["text"])

    def test_a_newer_run_ends_the_one_before(self) -> None:
        short, long = self.short_runs_beside_a_long_one(self.lab, "one", "one")
        self.assertEqual(long, {"why": NEWER})
        self.assertIn("4 exit a", short[-1]["text"])  # the long run may have come later than the first of them

    def test_a_run_of_another_tab_is_left_alone(self) -> None:
        """The long run of one tab comes to its own limit, and the short ones of another have their answers meanwhile."""
        lab = Served("--seconds", "8")
        self.addCleanup(lab.end)
        short, long = self.short_runs_beside_a_long_one(lab, "one", "two")
        self.assertEqual([answer for answer in short if "4 exit a" not in answer.get("text", "")], [])
        self.assertEqual(long, OVER)

    def test_many_tabs_have_few_workers(self) -> None:
        """Sixteen tabs ask at once: each has its answer, and no more than four workers and the two of the start are left."""
        answers: list[bytes] = []
        tabs = [threading.Thread(target=lambda tab=str(n): answers.append(self.lab.run(SCRIPT, form="trace", tab=tab)[1])) for n in range(16)]
        for tab in tabs:
            tab.start()
        for tab in tabs:
            tab.join()
        self.assertEqual(["4 exit a" in json.loads(answer)["text"] for answer in answers], [True] * 16)
        self.assertLessEqual(len(self.lab.children), 6)

    def test_connections_that_come_at_once_are_kept(self) -> None:
        """Sixteen come before the server takes one: none is lost."""
        lab = Lab(0, "token", {}, Desk(4))
        self.addCleanup(lab.server_close)
        for _ in range(16):
            self.addCleanup(socket.create_connection(("127.0.0.1", lab.server_port), timeout=LONGEST).close)

    def test_what_is_refused(self) -> None:
        _, text, _ = self.lab.run(b"thread a fifo 5 at 0\n    rum 3\nend\n")
        fault = json.loads(text)["faults"][0]
        self.assertEqual((fault["line"], fault["column"], fault["word"], fault["kind"]), (2, 5, "rum", "UnknownWord"))
        self.assertIn("run", fault["mend"])

    def test_an_address_that_nobody_gets(self) -> None:
        for device, said in (("/dev/full", "pse52-lab: the output was not written: No space left on device\n"), (None, "")):
            reader, writer = os.pipe()
            os.close(reader)
            if device is not None:
                os.close(writer)
                writer = os.open(device, os.O_WRONLY)
            ended = subprocess.run([sys.executable, str(TOP / "bin" / "pse52-lab")], stdout=writer, stderr=subprocess.PIPE, text=True,
                                   timeout=LONGEST, check=False)
            os.close(writer)
            self.assertEqual((ended.returncode, ended.stderr), (5, said))

    def test_the_workers_end_with_the_server(self) -> None:
        lab = Served()
        self.addCleanup(lab.end)
        lab.run(SCRIPT)
        workers = lab.children
        self.assertTrue(workers)
        self.assertEqual(lab.end(), 0)
        self.assertEqual([worker for worker in workers if alive(worker)], [])

    def test_no_worker_begins_behind_the_end(self) -> None:
        """Neither one that was to be there before it is asked, nor that of a run which waited for its turn."""
        desk, before = Desk(600), children_of(os.getpid())
        desk.close()
        desk.prepare()
        with self.assertRaisesRegex(Stopped, "the page is closed"):
            desk.ask("", "a", Request(SCRIPT, 20, "trace", ""))
        self.assertEqual(children_of(os.getpid()), before)

    def test_no_time_for_a_run(self) -> None:
        for word in ("0", "-3", "nan", "inf", "soon"):
            ended = subprocess.run([sys.executable, str(TOP / "bin" / "pse52-lab"), f"--seconds={word}"], capture_output=True, text=True,
                                   timeout=LONGEST, check=False)
            self.assertEqual((ended.returncode, ended.stdout), (1, ""), ended.stderr)
            self.assertIn(f"'{word}' gives no run the time to end", ended.stderr)

    def test_a_second_signal_does_not_disturb_the_end(self) -> None:
        """As of a Ctrl-C that is pressed twice."""
        lab = Served()
        self.addCleanup(lab.end)
        lab.run(SCRIPT)
        workers = lab.children
        self.assertEqual(lab.end_by_many(), 0)
        self.assertEqual([worker for worker in workers if alive(worker)], [])


class Program(unittest.TestCase):
    def test_the_trace_in_a_detail(self) -> None:
        detail = b"0 start list\n0 dispatch list 5\n0 list 5 list\n0 thread list ready 5 5\n4 end\nthread list ticks 4\n"
        self.assertEqual(trace_of(detail), b"0 start list\n0 dispatch list 5\n4 end\nthread list ticks 4\n")

    def program(self, text: str) -> list[str]:
        """The words of a program that does what this text of a shell says."""
        file = Path(self.enterContext(tempfile.TemporaryDirectory())) / "pse52"
        file.write_text(text)
        return ["sh", str(file)]

    def test_a_detail_of_more_lines_than_are_read(self) -> None:
        with mock.patch("view.lines.MOST_LINES", 3):
            self.assertEqual(answer(SCRIPT, 20, "picture", "", Sources(None)), {"why": "the run has more than 3 lines, and no more are read; take a nearer horizon"})

    def test_a_program_of_another_version(self) -> None:
        """It refuses what has no fault: the reference makes the trace, and the page says so."""
        old = Sources(self.program("echo 'refused 9 2 UnknownWord'; [ $1 = run ] && exit 2; exit 1"))
        script = (TOP / "examples" / "26_strict_window.task").read_bytes()
        ran = run(script, 26, old)
        self.assertEqual((ran.trace_by, ran.facts_by), ("the reference", "the reference"))
        self.assertEqual(ran.trace, (TOP / "examples" / "26_strict_window.trace").read_bytes())
        self.assertIn("does not take this script (refused 9 2 UnknownWord)", str(answer(script, 26, "picture", "", old)["warning"]))

    def test_a_program_that_says_otherwise(self) -> None:
        liar = Sources(self.program("[ $1 = run ] || exit 1; printf '0 start a\\n0 dispatch a 5\\n3 exit a\\n3 idle\\n20 end\\nthread a ticks 3\\n'"))
        self.assertIn("differ from line 3 of the trace on", run(SCRIPT, 20, liar).warning)
        self.assertEqual(run(SCRIPT, 20, liar).facts_by, "the reference")

    def test_a_program_that_fails(self) -> None:
        with self.assertRaisesRegex(NoRun, "ended with the status 70: no space"):
            run(SCRIPT, 20, Sources(self.program("[ $1 = run ] || exit 1; echo no space; exit 70")))
        with self.assertRaisesRegex(NoRun, "cannot be started"):
            run(SCRIPT, 20, Sources([str(TOP / "nothing")]))

    def test_a_program_with_facts_and_a_long_trace(self) -> None:
        """It writes more than a pipe holds before it is read."""
        program = [sys.executable, str(TOOLS / "reference" / "simulate.py")]
        script = LONG.replace(b"forever", b"loop 5000").replace(b"run 1", b"yield")
        ran = run(script, 7000, Sources(program))
        self.assertGreater(len(ran.trace), 65536)
        self.assertEqual((ran.facts_by, ran.warning), (" ".join(program), ""))

    def test_an_example_is_run_as_its_trace_says(self) -> None:
        lab = Served()
        self.addCleanup(lab.end)
        for name, horizon in (("20_controller", 120), ("14_two_budgets", 24)):
            _, text, _ = lab.run((TOP / "examples" / f"{name}.task").read_bytes(), horizon, form="trace")
            self.assertEqual(json.loads(text)["text"], (TOP / "examples" / f"{name}.trace").read_text())
