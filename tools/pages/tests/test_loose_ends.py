"""Loose ends of a small tree are found, each kind, and no others."""
from __future__ import annotations

import shutil
import subprocess
import sys
import tempfile
import unittest
from pathlib import Path

SCRIPT = Path(__file__).resolve().parents[2] / "loose_ends.py"
FILES = {
    "rules_a/specs/Lists.antt": "pub record IsList : Type 0 where\n  first second : ℕ\n\nabbrev pub kept : ℕ\nkept = 3\n\npub ◌▷◌ : ℕ\n",
    "rules_a/specs/Again.antt": "pub use Rattle.rules_a.specs.Lists.{kept as held}\n",
    "rules_b/specs/Sums.antt": "use Rattle.rules_a.specs.Lists.{IsList, second, kept as three, ◌▷◌}\nuse Rattle.std.specs.Prelude.{ℕ}\n"
                               "use Rattle.rules_a.specs.Again.{held}\n\nsum : IsList → ℕ\nsum l = second l + three ▷ held\n",
    "rules_b/src/lib.rt": "ghost use Rattle.rules_b.specs.declared.sum.Sum as sum;\n\nfn first() {}\n// fn first() {}\nfn second() {}\n",
    "rules_b/must-fail/first.edit": "file: src/lib.rt\nold: fn second() {}\nnew: fn third() {}\n",
}


class LooseEnds(unittest.TestCase):
    def setUp(self) -> None:
        holder = tempfile.TemporaryDirectory()
        self.addCleanup(holder.cleanup)
        self.top = Path(holder.name)
        for name, text in FILES.items():
            self.write(name, text)
        (self.top / "tools").mkdir()
        shutil.copy(SCRIPT, self.top / "tools")

    def write(self, name: str, text: str) -> None:
        path = self.top / "crates" / name
        path.parent.mkdir(parents=True, exist_ok=True)
        path.write_text(text)

    def found(self, *words: str) -> list[str]:
        ran = subprocess.run([sys.executable, str(self.top / "tools" / "loose_ends.py"), *words], capture_output=True, text=True)
        lines = ran.stdout.splitlines()
        self.assertEqual(ran.returncode, 1 if lines[1:] else 0)
        return lines[:-1]

    def change(self, name: str, old: str, new: str) -> None:
        self.assertEqual(FILES[name].count(old), 1)
        self.write(name, FILES[name].replace(old, new))

    def test_none(self) -> None:
        self.assertEqual(self.found("--unused"), [])

    def test_a_name_that_is_gone(self) -> None:
        self.change("rules_a/specs/Lists.antt", "first second", "first third")
        self.assertEqual(self.found(), ["crates/rules_b/specs/Sums.antt: rules_a.specs.Lists has no second"])

    def test_a_file_that_is_gone(self) -> None:
        (self.top / "crates/rules_a/specs/Again.antt").unlink()
        self.assertEqual(self.found(), ["crates/rules_b/specs/Sums.antt: rules_a.specs.Again: there is no such file"])

    def test_a_name_that_is_not_used(self) -> None:
        self.change("rules_b/specs/Sums.antt", " ▷ held", " + kept")
        self.assertEqual(self.found(), [])
        self.assertEqual(self.found("--unused"), [f"crates/rules_b/specs/Sums.antt: {name} is not used" for name in ("◌▷◌", "held")])

    def test_an_edit_that_fits_nowhere(self) -> None:
        self.change("rules_b/src/lib.rt", "fn second", "fn seconds")
        self.assertEqual(self.found(), ["crates/rules_b/must-fail/first.edit: what it takes out stands 0 times in lib.rt"])

    def test_an_edit_that_fits_twice(self) -> None:
        self.change("rules_b/must-fail/first.edit", "fn second() {}", "fn first() {}")
        self.assertEqual(self.found(), ["crates/rules_b/must-fail/first.edit: what it takes out stands 2 times in lib.rt"])

    def test_an_edit_of_no_file(self) -> None:
        self.change("rules_b/must-fail/first.edit", "lib.rt", "main.rt")
        self.assertEqual(self.found(), ["crates/rules_b/must-fail/first.edit: there is no main.rt"])


if __name__ == "__main__":
    unittest.main()
