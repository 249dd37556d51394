"""The pairing of blocks: what is open, what may not stand where it stands, and where an `end` was forgotten."""
from __future__ import annotations

from collections.abc import Sequence
from dataclasses import dataclass, field
from itertools import groupby

from forms import Form, Role
from reader import FaultKind, is_barred, place_fault

from .found import Aside, Found, Word

_OUTSIDE = (Role.DECLARATION, Role.QUANTUM)


def closings_behind(forms: Sequence[Form | None]) -> list[int]:
    """Behind each line, and in the body that it stands in: how many closing lines there are more than lines that open a block."""
    counts, count = [0] * len(forms), 0
    for at in range(len(forms) - 1, -1, -1):
        counts[at] = count
        role = forms[at].role if forms[at] else None
        if role in (Role.BODY, *_OUTSIDE):
            count = 0
        count += (role is Role.CLOSE) - (role is Role.BLOCK)
    return counts


@dataclass
class Open:
    """A block that is open: its word, its line, how far that is indented, and whether what stands in it is indented further."""

    head: str
    line: int
    indent: int
    is_indented: bool | None = None


@dataclass
class Forgotten:
    """A block whose end seems to be missing: the block, the line before which it is missing, and why that is thought."""

    block: Open
    line: int
    why: str


@dataclass
class Blocks:
    """The blocks that are open at a line, the body first, and what was seen on the way. Behind a declaration in a body nothing is open
    until a step says that the body goes on. `behind` has the closings behind each line."""

    behind: list[int]
    open: list[Open] = field(default_factory=list)
    forgotten: list[Forgotten] = field(default_factory=list)
    astray: bool = False
    left: list[Open] = field(default_factory=list)

    def look(self, number: int, form: Form, indent: int) -> None:
        """Looks whether the indentation of a line says that the innermost block was to be closed above it."""
        if self.left and form.role not in (Role.BODY, *_OUTSIDE):
            self.open, self.left = self.left, []
        if not self.open:
            return
        if form.role is Role.CLOSE:
            self._look_at_closing(number, form.head, indent)
        elif self.open[-1].is_indented is None:
            self.open[-1].is_indented = indent > self.open[-1].indent
        elif form.role not in (Role.BODY, *_OUTSIDE):
            for block in reversed(self.open):
                if not block.is_indented or indent > block.indent:
                    break
                self._forget(block, number, f"this line is indented no further than the `{block.head}` of line {block.line}, so it does not stand in it")

    def _look_at_closing(self, number: int, head: str, indent: int) -> None:
        """The blocks that stand further in than the closing line, where it stands under one that is open."""
        outer = next((block for block in reversed(self.open) if block.indent <= indent), None)
        if outer is None or outer.indent != indent:
            return
        for block in reversed(self.open[self.open.index(outer) + 1:]):
            self._forget(block, number, f"`{head}` stands under the `{outer.head}` of line {outer.line}")

    def _forget(self, block: Open, line: int, why: str) -> None:
        if all(known.block is not block for known in self.forgotten):
            self.forgotten.append(Forgotten(block, line, why))

    def fault(self, number: int, form: Form, word: Word) -> Found | None:
        """The fault of a line of this form where these blocks are open."""
        kind = place_fault(form, [block.head for block in self.open])
        if kind is None or self.astray and not self.open:
            return None
        if kind is FaultKind.StrayClose:
            return self._stray(number, word)
        if form.role in (Role.BODY, *_OUTSIDE):
            return Found(1, number, kind, word, f"`{word.text}` is a declaration, and {self._still_open()}",
                         *self._missing("before this line", f"move it above line {self.open[0].line}" if form.role in _OUTSIDE else ""))
        if not self.open:
            return Found(1, number, kind, word, f"`{word.text}` is a step, and no body is open here",
                         "move it into the body of a thread; or an `end` above is one too many")
        body = self.open[0]
        which = "a signal handler" if body.head == "handler" else "a cleanup handler"
        return Found(1, number, kind, word, f"`{word.text}` may not stand in {which}",
                     "signal handlers and cleanup handlers make no call that may block or that ends their thread"
                     if is_barred(form.head, "cleanup") else "a signal handler runs with all signals masked",
                     (Aside(body.line, "the body that it stands in"),))

    def unclosed(self, number: int) -> Found | None:
        """The fault of a text that ends while a block is open."""
        if not self.open:
            return None
        return Found(1, number, FaultKind.Unclosed, None, f"the text is over, and {self._still_open()}",
                     *self._missing("behind the last line"))

    def _stray(self, number: int, word: Word) -> Found:
        if not self.open:
            return Found(1, number, FaultKind.StrayClose, word, f"`{word.text}` closes nothing: no body is open here",
                         "remove the line, or look for an `end` above that is one too many")
        inner = self.open[-1]
        if self._has_lost_its_push(number, word.text):
            return Found(1, number, FaultKind.StrayClose, word, f"`{word.text}` closes nothing: no `push` is open here",
                         "remove the line, or write the `push U` that it closes above it", (Aside(inner.line, "the block that it stands in"),))
        wrong, closer = f"`{word.text}` does not close the `{inner.head}` of line {inner.line}", _closer(inner)
        left = self._left_open(number, word.text)
        if left == len(self.open) - 1:
            mend, asides = f"write `{closer}`", ()
        else:
            mend, asides = _closings(self.open[left + 1:], [known for known in self.forgotten if known.block in self.open], "before this line")
        return Found(1, number, FaultKind.StrayClose, word, wrong, mend, asides or (Aside(inner.line, f"this block is closed by `{closer}`"),))

    def _has_lost_its_push(self, number: int, head: str) -> bool:
        """Whether a `pop` is one too many; else it stands for an `end` where the lines behind it close all blocks but one."""
        return head == "pop" and all(block.head != "push" for block in self.open) and self.behind[number - 1] != len(self.open) - 1

    def _left_open(self, number: int, head: str) -> int:
        """How many blocks are open behind a closing line. One that does not fit the innermost block was to be the closing line of that block
        where the lines behind it close all the others; else those of the blocks inside the one that it fits were forgotten."""
        others = len(self.open) - 1
        if self.behind[number - 1] >= others:
            return others
        return max(at for at, block in enumerate(self.open) if (block.head == "push") == (head == "pop"))

    def _still_open(self) -> str:
        told = [f"the `{block.head}` of line {block.line}" for block in reversed(self.open)]
        return f"{' and '.join(told)} {'is' if len(told) == 1 else 'are'} still open"

    def _missing(self, place: str, instead: str = "") -> tuple[str, tuple[Aside, ...]]:
        """The closing lines that are missing of the blocks that are open, and where, as far as the indentation says so."""
        mend, asides = _closings(self.open, self.forgotten, place)
        if instead and not self.forgotten:
            mend = f"{instead}; or, where the body was to be over, {mend}"
        self.forgotten.clear()
        return mend, asides or (Aside(self.open[-1].line, "this is still open"),)

    def go_on(self, number: int, form: Form, indent: int) -> None:
        """Opens and closes what a line does, so that what follows can be judged by itself."""
        if form.role in (Role.BODY, *_OUTSIDE) and self.open:
            self.open, self.left = [], self.open  # the declaration was meant to stand outside
        if form.role is Role.BODY:
            self.astray, self.left = False, []
            self.open.append(Open(form.head, number, indent))
        elif form.role is Role.BLOCK and self.open:
            self.open.append(Open(form.head, number, indent))
        elif form.role is Role.CLOSE and self.open:
            if not self._has_lost_its_push(number, form.head):
                del self.open[self._left_open(number, form.head):]
            if not self.open:
                self.forgotten.clear()
        elif not self.open and form.role not in (Role.DECLARATION, Role.QUANTUM):
            self.astray = True  # one fault is enough of steps that have lost their body


def _closer(block: Open) -> str:
    return "pop 1` or `pop 0" if block.head == "push" else "end"


def _closings(blocks: list[Open], forgotten: list[Forgotten], place: str) -> tuple[str, tuple[Aside, ...]]:
    """What to write for blocks that are not closed, each where its closing line was forgotten, else at a place; and what says so."""
    known = forgotten[:len(blocks)]
    missing = [(one.block, f"before line {one.line}") for one in known]
    missing += [(block, place) for block in reversed(blocks[:len(blocks) - len(known)])]
    asides = [aside for one in known for aside in (Aside(one.block.line, "this block has no end of its own"), Aside(one.line, one.why))]
    if len(missing) > 1:
        at_places = [(where, [f"`{_closer(block)}` for the `{block.head}` of line {block.line}" for block, _ in group])
                     for where, group in groupby(missing, key=lambda one: one[1])]
        return (f"{len(missing)} closing lines are missing: write " + "; ".join(f"{', then '.join(told)}, {where}" for where, told in at_places),
                tuple(asides))
    block, where = missing[0]
    told = f"write `{_closer(block)}` {where}"
    return (f"the `{block.head}` of line {block.line} was not closed: {told}" if known else told), tuple(asides)
