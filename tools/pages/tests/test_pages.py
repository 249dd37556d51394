"""Each page that a reader types along does what it says."""
from __future__ import annotations

import json
import os
import re
import shutil
import subprocess
import sys
import tempfile
import unittest
from pathlib import Path

from pages.console import TOP, Command, File, agrees, clone, faults_of, parts_of


class Pages(unittest.TestCase):
    def check(self, name: str) -> None:
        with tempfile.TemporaryDirectory() as folder:
            self.assertEqual(faults_of(TOP / "docs" / name, Path(folder)), [])

    def test_the_tutorial(self) -> None:
        self.check("TUTORIAL.md")

    def test_the_first_page(self) -> None:
        self.check("../README.md")

    def test_the_page_on_commands(self) -> None:
        self.check("COMMANDS.md")

    def test_the_page_on_sweeps(self) -> None:
        self.check("SWEEP.md")

    def test_the_page_on_measures(self) -> None:
        self.check("MEASURE.md")

    def test_the_page_on_response_times(self) -> None:
        self.check("RTA.md")

    def test_the_page_on_facts(self) -> None:
        self.check("FACTS.md")

    def test_the_page_on_audits(self) -> None:
        self.check("AUDIT.md")

    def test_the_examples_of_the_manual_pages(self) -> None:
        for page in sorted((TOP / "docs").glob("*.1")):
            commands = re.findall(r"^\.Dl (bin/.*?)(?: && gtkwave .*)?$", page.read_text(), re.M)
            self.assertTrue(commands or page.stem in ("pse52-sweep", "pse52-live"), page.name)
            if page.stem == "pse52-lab":  # which serves until it is ended; tools/lab/tests starts it
                continue
            for command in commands:
                command = command.replace(" 1000000", " 1000")  # the reference takes an hour for a million ticks
                with tempfile.TemporaryDirectory() as folder:
                    clone(Path(folder))
                    stand_in = f"{sys.executable} {TOP}/tools/pages/stand_in.py"
                    ended = subprocess.run(["bash", "-o", "pipefail", "-c", command], cwd=folder, capture_output=True, check=False,
                                           env=dict(os.environ, PSE52=os.environ.get("PSE52_PROGRAM", stand_in)))
                    self.assertEqual((ended.returncode, ended.stderr), (0, b""), command)


class Editors(unittest.TestCase):
    """The files for editors know every word of the language."""

    @staticmethod
    def lines() -> list[str]:
        """A line of each form, with 9 at its places."""
        sys.path.append(str(TOP / "tools" / "reference"))
        from forms import FORMS, is_place
        return [" ".join("9" if is_place(word) else word for word in form.words) for form in FORMS]

    @classmethod
    def words(cls) -> set[str]:
        return {word for line in cls.lines() for word in line.split() if word.isidentifier()}

    def test_vim(self) -> None:
        text = (TOP / "editors" / "vim" / "syntax" / "pse52.vim").read_text()
        self.assertEqual(self.words() - set(re.findall(r"\w+", text)), set())

    def test_vscode(self) -> None:
        folder = TOP / "editors" / "vscode"
        package = json.loads((folder / "package.json").read_text())["contributes"]
        for path in (package["languages"][0]["configuration"], package["grammars"][0]["path"]):
            json.loads((folder / path).read_text())
        grammar = json.loads((folder / package["grammars"][0]["path"]).read_text())
        self.assertEqual(grammar["scopeName"], package["grammars"][0]["scopeName"])
        patterns = [re.compile(pattern["match"]) for pattern in grammar["patterns"]]
        for word in self.words():
            self.assertTrue(any(pattern.search(word) for pattern in patterns), word)
        for line in self.lines():
            left = line
            while found := min((match for pattern in patterns if (match := pattern.search(left))), key=re.Match.start, default=None):
                left = left[:found.start()] + "\0" * len(found[0]) + left[found.end():]
            self.assertEqual(left.replace("\0", "").split(), [], line)

    def without_colour(self, vim: str, home: Path) -> list[str]:
        """The lines of forms in which Vim gives a letter no colour."""
        script, seen, look = home / "forms.task", home / "uncoloured", home / "look.vim"
        script.write_text("\n".join(self.lines()) + "\n")
        look.write_text(f"""let uncoloured = []
for line in range(1, line('$'))
  for column in range(1, len(getline(line)))
    if getline(line)[column - 1] != ' ' && synID(line, column, 1) == 0
      let uncoloured += [getline(line)]
    endif
  endfor
endfor
call writefile(uncoloured, '{seen}')
qa!
""")
        subprocess.run([vim, "-N", "-n", "-u", str(home / ".vimrc"), "-es", str(script), "-c", f"source {look}"], cwd=home,
                       env=dict(os.environ, HOME=str(home)), stdin=subprocess.DEVNULL, capture_output=True, timeout=60, check=False)
        return seen.read_text().splitlines()

    def test_vim_as_it_is_installed(self) -> None:
        """Vim's own filetype.vim has another type for *.task; the installed files come first."""
        vim = shutil.which("vim")
        if vim is None:
            print("skipped: the files for Vim in Vim, since vim is not here", file=sys.stderr)
            self.skipTest("no vim")
        with tempfile.TemporaryDirectory() as folder:
            home, seen, script = Path(folder), Path(folder) / "seen", Path(folder) / "first.task"
            shutil.copytree(TOP / "editors" / "vim", home / ".vim")
            (home / ".vimrc").write_text("filetype plugin indent on\nsyntax on\n")
            self.assertEqual(self.without_colour(vim, home), [])
            script.write_text("# comment\nthread a fifo 5 at 0\nloop 2\nrun 1\nend\nend\n")
            lines = ["normal gg=G", "let text = join(getline(1, '$'), '/')",
                     f"call writefile([&filetype, &commentstring, &makeprg, synIDattr(synID(2,1,1),'name'), text], '{seen}')", "qa!"]
            subprocess.run([vim, "-N", "-n", "-u", str(home / ".vimrc"), "-es", str(script), *(word for line in lines for word in ("-c", line))], cwd=folder,
                           env=dict(os.environ, HOME=folder), stdin=subprocess.DEVNULL, capture_output=True, timeout=60, check=False)
            self.assertEqual(seen.read_text().splitlines(), [
                "pse52", "# %s", "pse52 explain --lines %:S", "pse52Declaration",
                "# comment/thread a fifo 5 at 0/    loop 2/        run 1/    end/end"])


class Reading(unittest.TestCase):
    def test_parts(self) -> None:
        page = "Put it into `a.task`.\n\n```task\nx\n```\n\n```console\n$ one\nout\n$ two\n```\n"
        self.assertEqual(list(parts_of(page)), [File(3, "a.task", "x\n"), Command(8, "one", ["out"]), Command(10, "two", [])])

    def test_points_stand_for_lines(self) -> None:
        self.assertTrue(agrees(["a", "b", "c"], ["a", "...", "c"]))
        self.assertFalse(agrees(["a", "b"], ["a", "...", "c"]))
        self.assertFalse(agrees(["a"], []))


if __name__ == "__main__":
    unittest.main()
