"""Which program bin/pse52 runs."""
from __future__ import annotations

import os
import re
import shutil
import signal
import subprocess
import tempfile
import time
import unittest
from pathlib import Path

from .scratch import SCRIPT, Checkout

RUN = "release: run 7\n" + SCRIPT
BUILT = "built: run 7\n" + SCRIPT


def is_running(process: int) -> bool:
    """Whether there is such a process, and not only what is left of it until its parent asks."""
    try:
        return Path(f"/proc/{process}/stat").read_text().rpartition(")")[2].split()[0] != "Z"
    except OSError:
        return False


class Programs(unittest.TestCase):
    def setUp(self) -> None:
        self.folder = tempfile.TemporaryDirectory(prefix="a checkout's [copy], with blanks ")
        self.addCleanup(self.folder.cleanup)
        self.checkout = Checkout.make(Path(self.folder.name))

    def runs(self, **more: object) -> str:
        """What a run says: the program's text, or that there is none."""
        ended = self.checkout.run("run", "7", "s.task", **more)
        if ended.status == 70:
            self.assertEqual(ended.out, "")
            self.assertEqual(ended.err.count("\n"), 1)
            return "none"
        self.assertEqual((ended.status, ended.err), (0, ""))
        return ended.out

    def test_without_a_program_nothing_is_run_or_proved(self) -> None:
        ended = self.checkout.run("run", "7", text=SCRIPT)
        self.assertEqual((ended.status, ended.out), (70, ""))
        self.assertIn("--prove", ended.err)
        self.assertIn("no release", ended.err)
        self.assertFalse((self.checkout.top / "crates/low/out").exists())

    def test_the_release_runs_where_it_is_of_the_code(self) -> None:
        self.checkout.put_release()
        self.assertEqual(self.runs(), RUN)
        self.assertEqual(self.runs(), RUN)

    def test_a_change_of_code_or_definitions_ends_the_release(self) -> None:
        for path in ("crates/low/src/lib.rt", "crates/low/specs/Lib.antt", "HANDLES"):
            self.checkout.put_release()
            self.assertEqual(self.runs(), RUN)
            before = (self.checkout.top / path).read_text()
            self.checkout.write(path, before + "more\n")
            self.assertEqual(self.runs(), "none", path)
            self.checkout.write(path, before)
            self.assertEqual(self.runs(), RUN, path)

    def test_an_old_time_hides_no_change(self) -> None:
        self.checkout.put_release()
        self.assertEqual(self.runs(), RUN)
        path = self.checkout.top / "crates/low/src/lib.rt"
        path.write_text("else")
        os.utime(path, (1, 1))
        self.assertEqual(self.runs(), "none")

    def test_new_and_lost_files_end_the_release(self) -> None:
        self.checkout.put_release()
        self.assertEqual(self.runs(), RUN)
        self.checkout.write("crates/low/src/more.rt", "more\n")
        self.assertEqual(self.runs(), "none")
        (self.checkout.top / "crates/low/src/more.rt").unlink()
        self.assertEqual(self.runs(), RUN)
        self.checkout.write("crates/pse52/specs/Lib.antt", "new\n")
        self.assertEqual(self.runs(), "none")

    def test_proofs_and_other_crates_do_not_count(self) -> None:
        self.checkout.put_release()
        self.checkout.write("crates/low/proofs/Lib.antt", "another proof\n")
        self.checkout.write("crates/other/src/lib.rt", "more\n")
        self.checkout.write("crates.txt", "other:\npse52: low\nlow: # the lowest\n")
        self.assertEqual(self.runs(), RUN)

    def test_a_program_that_is_not_the_manifests_is_not_run(self) -> None:
        self.checkout.put_release()
        self.assertEqual(self.runs(), RUN)
        self.checkout.write("release/pse52", "#!/bin/sh\necho another\n")
        self.assertEqual(self.runs(), "none")
        self.assertEqual(self.checkout.run("--released", "run", "7").status, 70)

    def test_a_program_proved_here_runs_where_no_release_is(self) -> None:
        self.checkout.put_built()
        self.assertEqual(self.runs(), BUILT)
        self.assertEqual(self.runs(), BUILT)
        self.checkout.put_release()
        self.assertEqual(self.runs(), RUN)

    def test_a_program_without_a_record_is_not_run(self) -> None:
        self.checkout.put_built()
        (self.checkout.top / "crates/pse52/out/pse52.record").unlink()
        self.assertEqual(self.runs(), "none")

    def test_a_record_of_sources_that_changed_is_not_made(self) -> None:
        self.checkout.put_built()
        record = ["sh", str(self.checkout.top / "tools/wrapper/record.sh"), "0" * 64]
        self.assertEqual(subprocess.run(record, capture_output=True, check=False).returncode, 1)
        self.assertEqual(self.runs(), "none")

    def test_released_runs_whatever_stands_here(self) -> None:
        self.checkout.put_release()
        self.checkout.write("crates/low/src/lib.rt", "changed\n")
        refused = self.checkout.run("run", "7", "s.task")
        self.assertIn("the release 1.2.3", refused.err)
        ended = self.checkout.run("--released", "run", "7", "s.task")
        self.assertEqual((ended.status, ended.out), (0, RUN))
        self.assertIn("of other code than stands here", ended.err)

    def test_a_release_that_does_not_start_here(self) -> None:
        self.checkout.put_release()
        manifest = self.checkout.top / "release/MANIFEST"
        manifest.write_text(manifest.read_text().replace("machine Linux", "machine Plan9"))
        for words in (("run", "7"), ("--released", "run", "7")):
            ended = self.checkout.run(*words, text=SCRIPT)
            self.assertEqual((ended.status, ended.out), (70, ""))
            self.assertIn("with glibc 2.34 or later, and does not start on this machine", ended.err)

    def test_a_copy_looks_again(self) -> None:
        self.checkout.put_release()
        self.assertEqual(self.runs(), RUN)
        with tempfile.TemporaryDirectory() as other:
            copy = Checkout(Path(other) / "copy")
            self.checkout.write("crates/low/src/lib.rt", "changed\n")
            subprocess.run(["cp", "-a", str(self.checkout.top), str(copy.top)], check=True)
            self.assertEqual(copy.run("run", "7", "s.task").status, 70)

    def test_links_and_other_folders(self) -> None:
        self.checkout.put_release()
        with tempfile.TemporaryDirectory() as other:
            link, second = Path(other) / "pse52", Path(other) / "second"
            link.symlink_to(self.checkout.top / "bin" / "pse52")
            second.symlink_to("pse52")
            for path in (link, second):
                ended = self.checkout.run("run", "7", text=SCRIPT, path=path, cwd=Path(other))
                self.assertEqual((ended.status, ended.out), (0, RUN))
            self.assertEqual(sorted(path.name for path in Path(other).iterdir()), ["pse52", "second"])
            folder = Path(other) / "folder"
            folder.symlink_to(self.checkout.top / "bin")
            self.assertEqual(self.checkout.run("run", "7", text=SCRIPT, path=folder / "pse52", cwd=Path("/")).out, RUN)

    @unittest.skipIf(os.geteuid() == 0 and shutil.which("setpriv") is None, "root may write everywhere")
    def test_a_checkout_that_may_not_be_written(self) -> None:
        self.checkout.put_release()
        top = self.checkout.top
        subprocess.run(["chmod", "-R", "a+rX,a-w", str(top)], check=True)
        words = [str(top / "bin" / "pse52"), "run", "7"]
        if os.geteuid() == 0:
            words = ["setpriv", "--reuid", "65534", "--clear-groups", "--", *words]
        with tempfile.TemporaryDirectory() as home:
            os.chmod(home, 0o777)
            for _ in range(2):
                ended = subprocess.run(words, input=SCRIPT, capture_output=True, text=True, env=dict(os.environ, HOME=home), check=False)
                self.assertEqual((ended.returncode, ended.stdout, ended.stderr), (0, RUN, ""))
            self.assertEqual(len(list(Path(home).rglob("known"))), 1)
        subprocess.run(["chmod", "-R", "u+w", str(top)], check=True)

    def test_a_start_costs_little(self) -> None:
        self.checkout.put_release()
        self.runs()
        began = time.monotonic()
        for _ in range(20):
            self.checkout.run("gen", "7")
        self.assertLess((time.monotonic() - began) / 20, 0.5)

    def test_a_release_that_lost_its_mode(self) -> None:
        self.checkout.put_release()
        (self.checkout.top / "release/pse52").chmod(0o644)
        for words in (("run", "7"), ("--released", "run", "7")):
            ended = self.checkout.run(*words, text=SCRIPT)
            self.assertEqual((ended.status, ended.out, ended.err.count("\n")), (70, "", 1))
            self.assertIn("chmod +x release/pse52", ended.err)


class Proofs(unittest.TestCase):
    """--prove, with a toolchain that proves nothing."""

    TOOLCHAIN = """#!/bin/sh
case $1 in
    version) echo stand-in; exit ;;
esac
[ "$*" = ci ] || exit 1
cat crates.txt crates/*/src/*.rt >>"$CALLS"
[ ! -e "$FAILS" ] || { echo 'rt: low NOT PROVED'; echo '1 passed, 1 failed'; exit 1; }
mkdir -p crates/pse52/out
printf '#!/bin/sh\\necho built: "$@"; cat\\n' >crates/pse52/out/pse52
chmod +x crates/pse52/out/pse52
echo 'rt: low is kept: an earlier run proved the same'
echo 'rt: pse52 proved'
echo '2 passed, 0 failed'
"""

    def setUp(self) -> None:
        self.folder = tempfile.TemporaryDirectory()
        self.addCleanup(self.folder.cleanup)
        self.checkout = Checkout.make(Path(self.folder.name) / "checkout")
        self.tools = Path(self.folder.name) / "tools"
        self.tools.mkdir()
        (self.tools / "rt").write_text(self.TOOLCHAIN)
        (self.tools / "rt").chmod(0o755)
        self.calls, self.fails = Path(self.folder.name) / "calls", Path(self.folder.name) / "fails"
        self.more = {"PATH": f"{self.tools}:{os.environ['PATH']}", "CALLS": str(self.calls), "FAILS": str(self.fails)}

    def test_it_proves_what_the_program_stands_on_and_runs(self) -> None:
        ended = self.checkout.run("--prove", "run", "7", "s.task", **self.more)
        self.assertEqual((ended.status, ended.out), (0, BUILT))
        self.assertEqual(self.calls.read_text(), "low: \npse52: low\nlow\nmain\n")
        self.assertIn("crate 1 of 2, after 0 min: low, as it was proved before", ended.err)
        self.assertIn("crate 2 of 2, after 0 min: pse52\n", ended.err)
        self.assertEqual(self.checkout.run("run", "7", "s.task").out, BUILT)

    def test_it_leaves_nothing_behind(self) -> None:
        with tempfile.TemporaryDirectory() as rooms:
            self.assertEqual(self.checkout.run("--prove", TMPDIR=rooms, **self.more).status, 0)
            self.assertEqual(os.listdir(rooms), [])
        self.assertFalse((self.checkout.top / "crates/pse52/out/proving").exists())

    def test_a_crate_that_is_not_proved(self) -> None:
        self.fails.touch()
        ended = self.checkout.run("--prove", **self.more)
        self.assertEqual((ended.status, ended.out), (70, ""))
        self.assertIn("the crate low was not proved", ended.err)
        self.assertFalse((self.checkout.top / "crates/pse52/out/proving").exists())

    def test_a_run_that_is_interrupted(self) -> None:
        (self.tools / "rt").write_text("#!/bin/sh\nsleep 60 & echo $! >\"$CALLS\"\nwait\n")
        with subprocess.Popen([str(self.checkout.top / "bin" / "pse52"), "--prove"], stderr=subprocess.PIPE, text=True,
                              env=dict(os.environ, HOME=str(self.checkout.top), **self.more), start_new_session=True) as run:
            while not self.calls.exists() or not self.calls.read_text():
                time.sleep(0.05)
            os.killpg(run.pid, signal.SIGTERM)
            self.assertIn("interrupted after 0 min", run.communicate()[1])
        self.assertFalse(is_running(int(self.calls.read_text())))
        self.assertFalse((self.checkout.top / "crates/pse52/out/proving").exists())

    def test_without_the_toolchain(self) -> None:
        ended = self.checkout.run("--prove", PATH="/usr/bin:/bin")
        self.assertEqual(ended.status, 70)
        self.assertIn("rt is not on the path", ended.err)

    def test_a_lock_of_a_run_that_is_gone(self) -> None:
        self.checkout.write("crates/pse52/out/proving/pid", "999999999\n")
        self.assertEqual(self.checkout.run("--prove", **self.more).status, 0)


class Releases(unittest.TestCase):
    """What `make_release.sh --check` says of a release and a program of the same code."""

    def setUp(self) -> None:
        self.folder = tempfile.TemporaryDirectory()
        self.addCleanup(self.folder.cleanup)
        self.checkout = Checkout.make(Path(self.folder.name))
        self.checkout.put_built()
        self.checkout.put_release()

    def check(self, toolchain: str) -> tuple[int, str]:
        """Status and text, where the program was built by this toolchain; that of the release is t."""
        record = self.checkout.top / "crates/pse52/out/pse52.record"
        record.write_text(re.sub("(?m)^toolchain.*", f"toolchain {toolchain}", record.read_text()))
        words = ["bash", str(self.checkout.top / "tools/make_release.sh"), "--check"]
        ended = subprocess.run(words, capture_output=True, text=True, check=False)
        return ended.returncode, ended.stdout

    def test_another_toolchain_is_told_and_its_bytes_are_not_compared(self) -> None:
        status, said = self.check("u")
        self.assertEqual(status, 3)
        self.assertIn("WARNING: release: it was built by t, and the program here by u", said)

    def test_another_program_of_the_same_toolchain_is_a_fault(self) -> None:
        status, said = self.check("t")
        self.assertEqual(status, 1)
        self.assertIn("is not the one that the release was made of", said)


if __name__ == "__main__":
    unittest.main()
