"""Of which sweep the rows are that are kept: another sweep, another program, or another module of it, has other rows."""
from __future__ import annotations

import unittest

from sweep.plan import read_sweep
from sweep.table import Kept

from .folders import Folder


class Identity(Folder):
    def test_a_changed_module_of_the_program_is_another_program(self) -> None:
        sweep, program, part = read_sweep(self.write()), self.folder / "program.py", self.folder / "part.py"
        program.write_text("import part")
        part.write_text("one = 1")
        before = sweep.identity(["python3", str(program)])
        self.assertEqual(before, sweep.identity(["python3", str(program)]))
        part.write_text("one = 2")
        self.assertNotEqual(before, sweep.identity(["python3", str(program)]))

    def test_a_changed_sweep_does_not_go_on(self) -> None:
        rows = self.folder / "rows"
        with Kept(rows, "one", lambda row: row != ["6"]) as kept:
            kept.add('[0, ["1"]]')
        with Kept(rows, "one", lambda row: row != ["6"]) as kept:
            self.assertEqual(kept.rows, {0: ["1"]})
        with Kept(rows, "one", lambda row: row != ["6"]) as kept:
            kept.add('[1, ["6"]]')
        with Kept(rows, "one", lambda row: row != ["6"]) as kept:
            self.assertEqual(kept.rows, {0: ["1"]})
        with Kept(rows, "another", lambda row: True) as kept:
            self.assertEqual(kept.rows, {})


if __name__ == "__main__":
    unittest.main()
