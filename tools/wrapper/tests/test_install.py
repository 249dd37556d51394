"""What tools/install.sh puts and removes."""
from __future__ import annotations

import os
import shutil
import subprocess
import tempfile
import unittest
from pathlib import Path

from .scratch import SCRIPT, TOP, Checkout

BESIDE = ("docs", "completions", "editors", "examples", "README.md", "LICENSE", "LICENSE-MIT", "LICENSE-APACHE", "NOTICE", "CHANGELOG.md")


class Install(unittest.TestCase):
    def setUp(self) -> None:
        self.folder = tempfile.TemporaryDirectory()
        self.addCleanup(self.folder.cleanup)
        self.checkout = Checkout.make(Path(self.folder.name) / "checkout")
        self.checkout.put_release()
        for name in BESIDE:
            (self.checkout.top / name).symlink_to(TOP / name)
        self.checkout.write("crates/parts_links/LICENSE-circular-buffer", "notice\n")
        self.prefix = Path(self.folder.name) / "prefix"

    def install(self, *words: str, path: str = "") -> subprocess.CompletedProcess[str]:
        return subprocess.run(["sh", str(self.checkout.top / "tools/install.sh"), *words], capture_output=True, text=True, check=False,
                              env=dict(os.environ, HOME=str(self.checkout.top / "home"), PATH=f"{path}{os.environ['PATH']}"))

    def left(self) -> list[Path]:
        return [path for path in self.prefix.rglob("*") if not path.is_dir()]

    def test_install_and_uninstall(self) -> None:
        self.assertEqual(self.install("", str(self.prefix)).returncode, 0)
        ended = self.checkout.run("run", "7", text=SCRIPT, path=self.prefix / "bin" / "pse52", cwd=Path("/"))
        self.assertEqual((ended.status, ended.out, ended.err), (0, "release: run 7\n" + SCRIPT, ""))
        self.assertTrue((self.prefix / "share/man/man1/pse52.1").exists())
        self.assertTrue((self.prefix / "share/doc/pse52/editors/vim/syntax/pse52.vim").exists())
        self.assertEqual(self.install("--remove", "", str(self.prefix)).returncode, 0)
        self.assertEqual(self.left(), [])

    def test_everybody_may_read_what_is_installed(self) -> None:
        (self.checkout.top / "bin/pse52").chmod(0o644)
        before = os.umask(0o077)
        try:
            self.assertEqual(self.install(str(self.prefix), "/usr").returncode, 0)
        finally:
            os.umask(before)
        modes = {oct(path.stat().st_mode & 0o777) for path in (self.prefix / "usr").rglob("*") if path.is_dir()}
        self.assertEqual(modes, {"0o755"})
        self.assertEqual((self.prefix / "usr/lib/pse52/bin/pse52").stat().st_mode & 0o777, 0o755)

    def test_nothing_of_an_older_version_is_left(self) -> None:
        (self.prefix / "lib/pse52/tools/view").mkdir(parents=True)
        (self.prefix / "lib/pse52/tools/view/old.py").write_text("old\n")
        self.assertEqual(self.install("", str(self.prefix)).returncode, 0)
        self.assertFalse((self.prefix / "lib/pse52/tools/view/old.py").exists())

    def test_a_path_that_lacks_it_is_told(self) -> None:
        self.assertIn(f'export PATH="{self.prefix}/bin:$PATH"', self.install("", str(self.prefix)).stdout)
        self.assertNotIn("export", self.install("", str(self.prefix), path=f"{self.prefix}/bin:").stdout)

    def test_make_alone_tries_nothing(self) -> None:
        if shutil.which("make") is None:
            self.skipTest("make is not here")
        self.assertNotIn("check_tools", subprocess.run(["make", "-n", "-C", TOP], capture_output=True, text=True, check=True).stdout)

    def test_what_does_not_go_is_a_fault(self) -> None:
        self.prefix.mkdir()
        (self.prefix / "share").write_text("in the way\n")
        ended = self.install("", str(self.prefix))
        self.assertNotEqual(ended.returncode, 0)
        self.assertNotIn("installed", ended.stdout)
        (self.checkout.top / "docs").unlink()
        ended = self.install(str(self.prefix / "second"), "/usr")
        self.assertNotEqual(ended.returncode, 0)
        self.assertNotIn("installed", ended.stdout)

    def test_a_checkout_is_not_removed(self) -> None:
        self.checkout.top.parent.joinpath("lib").mkdir()
        self.checkout.top.rename(self.checkout.top.parent / "lib" / "pse52")
        self.checkout = Checkout(Path(self.folder.name) / "lib" / "pse52")
        for words in (["--remove"], []):
            ended = self.install(*words, "", self.folder.name)
            self.assertEqual(ended.returncode, 1)
            self.assertIn("is a checkout", ended.stderr)
        self.assertTrue((self.checkout.top / "crates.txt").exists())

    def test_a_prefix_is_a_whole_path(self) -> None:
        for prefix in ("~/.local", "here"):
            ended = self.install("", prefix)
            self.assertEqual(ended.returncode, 1)
            self.assertIn("PREFIX begins with /", ended.stderr)
            self.assertFalse((self.checkout.top / prefix).exists())


if __name__ == "__main__":
    unittest.main()
