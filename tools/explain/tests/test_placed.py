"""Blocks that are not closed, closed by a wrong word, or lost: each fault and its fix, line by line, worked out by hand."""
from __future__ import annotations

import re
import sys
import unittest

from explain import TOP
from explain.show import shown
from explain.text import faults_of

sys.path.insert(0, str(TOP / "tools" / "reference"))
from reader import read  # noqa: E402

THREAD = "thread a fifo 5 at 0\n"
CLEANUP = "cleanup u\nend\n"


def told(script: str) -> str:
    return shown(script.encode(), faults_of(script.encode()))


class Placed(unittest.TestCase):
    def is_told(self, script: str, *faults: str) -> None:
        """These faults and no others, the first of which is the one that the reference answers."""
        said = told(script)
        count = f"\n{len(faults)} fault{'s' if len(faults) > 1 else ''}"
        self.assertEqual(said.partition(count)[0], "\n".join(faults))
        self.assertTrue(faults[0].startswith(f"line {read(script.encode())[1].line}"), faults[0])

    def test_an_end_under_an_outer_block(self) -> None:
        self.is_told(f"{THREAD}    loop 2\n        run 1\nend\nthread b fifo 5 at 0\nend\n", """\
line 5, column 1: NotHere: `thread` is a declaration, and the `thread` of line 1 is still open
    5 | thread b fifo 5 at 0
      | ^^^^^^
    2 |     loop 2
      | this block has no end of its own
    4 | end
      | `end` stands under the `thread` of line 1
  fix: the `loop` of line 2 was not closed: write `end` before line 4
""")

    def test_a_line_that_is_not_indented_as_its_block_wants(self) -> None:
        """It may stand under the block, or further out; the first line inside says whether what stands in it is indented."""
        for blanks in (8, 4):
            self.is_told(f"{THREAD}    loop 2\n        if EINTR\n            run 1\n{blanks * ' '}run 3\n    end\nend\n", f"""\
line 8: Unclosed: the text is over, and the `thread` of line 1 is still open
    3 |         if EINTR
      | this block has no end of its own
    5 | {blanks * ' '}run 3
      | this line is indented no further than the `if` of line 3, so it does not stand in it
  fix: the `if` of line 3 was not closed: write `end` before line 5
""")
        self.is_told(f"{THREAD}loop 2\nrun 1\nrun 2\nend\n", """\
line 6: Unclosed: the text is over, and the `thread` of line 1 is still open
    1 | thread a fifo 5 at 0
      | this is still open
  fix: write `end` behind the last line
""")

    def test_blocks_that_are_still_open(self) -> None:
        self.is_told(f"{CLEANUP}{THREAD}loop 2\npush u\nrun 1\n", """\
line 7: Unclosed: the text is over, and the `push` of line 5 and the `loop` of line 4 and the `thread` of line 3 are still open
    5 | push u
      | this is still open
  fix: 3 closing lines are missing: write `pop 1` or `pop 0` for the `push` of line 5, then `end` for the `loop` of line 4, \
then `end` for the `thread` of line 3, behind the last line
""")
        self.is_told(f"{CLEANUP}{THREAD}  push u\n    run 1\n  run 2\nend\n", """\
line 7, column 1: StrayClose: `end` does not close the `push` of line 4
    7 | end
      | ^^^
    4 |   push u
      | this block has no end of its own
    6 |   run 2
      | this line is indented no further than the `push` of line 4, so it does not stand in it
  fix: the `push` of line 4 was not closed: write `pop 1` or `pop 0` before line 6
""")

    def test_an_end_behind_a_forgotten_pop(self) -> None:
        """It closes the block around the `push`, and stands for the `pop` only where another `end` does that."""
        for around, ends in (("", "end\n"), ("loop 2\n", "end\nend\n")):
            line = 5 + (around != "")
            pushed = f"""\
    {line - 1} | push u
      | this block is closed by `pop 1` or `pop 0`
"""
            for more, fix in (("", " before this line"), ("end\n", "")):
                self.is_told(f"{CLEANUP}{THREAD}{around}push u\nrun 1\n{ends}{more}thread b fifo 5 at 0\nend\n", f"""\
line {line + 1}, column 1: StrayClose: `end` does not close the `push` of line {line - 1}
    {line + 1} | end
      | ^^^
{pushed}  fix: write `pop 1` or `pop 0`{fix}
""")

    def test_an_else_behind_the_end_of_its_if_opens_a_block(self) -> None:
        for between in ("", "# or\n\n"):
            line = 5 + between.count("\n")
            self.is_told(f"{THREAD}if 0\nrun 1\nend\n{between}else\nrun 2\nend\nend\n", f"""\
line {line}, column 1: UnknownWord: there is no `else`
    {line} | else
      | ^^^^
  fix: write `unless R`, with the R of the `if` whose block is closed above
""")
        self.is_told(f"{THREAD}if 0\nrun 1\nelse\nrun 2\nend\nend\n", """\
line 4, column 1: UnknownWord: there is no `else`
    4 | else
      | ^^^^
  fix: end the block of `if R`, and open one of `unless R` with the same R behind it
""")

    def test_a_pop_for_an_end_where_no_push_is(self) -> None:
        self.is_told(f"{THREAD}loop 2\nrun 1\npop 1\nend\nthread b fifo 5 at 0\nend\n", """\
line 4, column 1: StrayClose: `pop` does not close the `loop` of line 2
    4 | pop 1
      | ^^^
    2 | loop 2
      | this block is closed by `end`
  fix: write `end`
""")

    def test_what_is_told_of_a_closing_line_that_was_left_out_mends_the_script(self) -> None:
        where = re.compile(r".*write `(end|pop 1)(?:` or `pop 0)?` (?:before line (\d+)|(before this line)|(behind the last line))")
        for path in sorted((TOP / "examples").glob("*.task")):
            lines = path.read_text().splitlines()
            for script in (lines, [line.strip() for line in lines]):
                for at in (at for at, line in enumerate(script) if re.match(r" *(end|pop)\b", line)):
                    left = script[:at] + script[at + 1:]
                    faults = faults_of("\n".join(left).encode())
                    self.assertEqual(len(faults), 1, (path.name, at))
                    closer, line, here, _ = where.fullmatch(faults[0].mend).groups()
                    left.insert(int(line) - 1 if line else faults[0].line - 1 if here else len(left), closer)
                    self.assertEqual(faults_of("\n".join(left).encode()), [], (path.name, at))

    def test_a_pop_behind_a_forgotten_end(self) -> None:
        self.is_told(f"{CLEANUP}{THREAD}push u\nloop 2\nif EINTR\nrun 1\npop 1\nend\n", """\
line 8, column 1: StrayClose: `pop` does not close the `if` of line 6
    8 | pop 1
      | ^^^
    6 | if EINTR
      | this block is closed by `end`
  fix: 2 closing lines are missing: write `end` for the `if` of line 6, then `end` for the `loop` of line 5, before this line
""")

    def test_two_blocks_that_end_by_the_indentation_of_one_line(self) -> None:
        blocks = f"{THREAD}    loop 2\n        if EINTR\n            run 1\n"
        why = """\
    3 |         if EINTR
      | this block has no end of its own
    5 | {}
      | {}
    2 |     loop 2
      | this block has no end of its own
    5 | {}
      | {}
"""
        line, told = "    run 2", "this line is indented no further than the `{}` of line {}, so it does not stand in it"
        self.is_told(f"{blocks}{line}\nend\n", f"""\
line 7: Unclosed: the text is over, and the `loop` of line 2 and the `thread` of line 1 are still open
{why.format(line, told.format("if", 3), line, told.format("loop", 2))}\
  fix: 2 closing lines are missing: write `end` for the `if` of line 3, then `end` for the `loop` of line 2, before line 5
""")
        line, told = "end", "`end` stands under the `thread` of line 1"
        self.is_told(f"{blocks}{line}\nthread b fifo 5 at 0\nend\n", f"""\
line 6, column 1: NotHere: `thread` is a declaration, and the `loop` of line 2 and the `thread` of line 1 are still open
    6 | thread b fifo 5 at 0
      | ^^^^^^
{why.format(line, told, line, told)}\
  fix: 2 closing lines are missing: write `end` for the `if` of line 3, then `end` for the `loop` of line 2, before line 5
""")

    def test_a_block_whose_place_is_known_and_one_whose_is_not(self) -> None:
        self.is_told(f"{THREAD}    loop 2\n        run 1\n    run 2\n", """\
line 5: Unclosed: the text is over, and the `loop` of line 2 and the `thread` of line 1 are still open
    2 |     loop 2
      | this block has no end of its own
    4 |     run 2
      | this line is indented no further than the `loop` of line 2, so it does not stand in it
  fix: 2 closing lines are missing: write `end` for the `loop` of line 2, before line 4; `end` for the `thread` of line 1, behind the last line
""")

    def test_the_indentation_of_a_body_that_is_closed_says_nothing_of_another(self) -> None:
        self.is_told(f"{THREAD}    loop 2\n        run 1\n    run 2\n    end\nend\nthread b fifo 5 at 0\nrun 1\n", """\
line 9: Unclosed: the text is over, and the `thread` of line 7 is still open
    7 | thread b fifo 5 at 0
      | this is still open
  fix: write `end` behind the last line
""")

    def test_a_pop_without_its_push(self) -> None:
        """It closes nothing, so that the `end` behind it closes the body."""
        self.is_told(f"{THREAD}run 1\npop 1\nend\n", """\
line 3, column 1: StrayClose: `pop` closes nothing: no `push` is open here
    3 | pop 1
      | ^^^
    1 | thread a fifo 5 at 0
      | the block that it stands in
  fix: remove the line, or write the `push U` that it closes above it
""")
        self.is_told(f"{THREAD}loop 2\npop 0\nend\nend\n", """\
line 3, column 1: StrayClose: `pop` closes nothing: no `push` is open here
    3 | pop 0
      | ^^^
    2 | loop 2
      | the block that it stands in
  fix: remove the line, or write the `push U` that it closes above it
""")

    def test_a_pop_for_the_end_of_a_block_in_its_push(self) -> None:
        self.is_told(f"{CLEANUP}{THREAD}push u\nloop 2\npop 0\npop 1\nend\n", """\
line 6, column 1: StrayClose: `pop` does not close the `loop` of line 5
    6 | pop 0
      | ^^^
    5 | loop 2
      | this block is closed by `end`
  fix: write `end`
""")

    def test_steps_that_have_lost_their_body_are_told_once(self) -> None:
        for before in ("", f"{THREAD}end\n"):
            line = before.count("\n") + 1
            self.is_told(f"{before}run 1\nrun 2\nend\nrun 3\nthread b fifo 5 at 0\nrun 1\nend\n", f"""\
line {line}, column 1: NotHere: `run` is a step, and no body is open here
{line:5} | run 1
      | ^^^
  fix: move it into the body of a thread; or an `end` above is one too many
""")
        self.is_told(f"{THREAD}end\nend\n", """\
line 3, column 1: StrayClose: `end` closes nothing: no body is open here
    3 | end
      | ^^^
  fix: remove the line, or look for an `end` above that is one too many
""")

    def test_what_handlers_may_not_do(self) -> None:
        for body, which in (("handler h", "a signal handler"), ("cleanup h", "a cleanup handler")):
            self.is_told(f"{body}\nnanosleep 3\nend\n{THREAD}end\n", f"""\
line 2, column 1: NotHere: `nanosleep` may not stand in {which}
    2 | nanosleep 3
      | ^^^^^^^^^
    1 | {body}
      | the body that it stands in
  fix: signal handlers and cleanup handlers make no call that may block or that ends their thread
""")
        self.is_told(f"handler h\nsigmask set all\nend\n{THREAD}end\n", """\
line 2, column 1: NotHere: `sigmask` may not stand in a signal handler
    2 | sigmask set all
      | ^^^^^^^
    1 | handler h
      | the body that it stands in
  fix: a signal handler runs with all signals masked
""")

    def test_declarations_in_a_body(self) -> None:
        self.is_told(f"{THREAD}  run 1\n  quantum 5\n  run 2\nend\n", """\
line 3, column 3: NotHere: `quantum` is a declaration, and the `thread` of line 1 is still open
    3 |   quantum 5
      |   ^^^^^^^
    1 | thread a fifo 5 at 0
      | this is still open
  fix: move it above line 1; or, where the body was to be over, write `end` before this line
""")


if __name__ == "__main__":
    unittest.main()
