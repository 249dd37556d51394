"""The examples in the order of the course: each with its sentence of what to look at, and what to change in it."""
from __future__ import annotations

import re
import tomllib
from collections.abc import Iterator
from dataclasses import dataclass
from pathlib import Path

TOP = Path(__file__).resolve().parents[2]
EXAMPLES = TOP / "examples"
CHANGES = Path(__file__).with_name("changes.toml")
FIRST = ("one_thread", "loops_and_tests", "preemption", "yield")
HEAD = re.compile(r"# horizon (\d+), stage [a-z0-9]+\. (.*)\n# (Look at .*)\n")


@dataclass(frozen=True)
class Change:
    """What to change: what is said of it, the text that stands in the script, and what stands there then."""

    say: str
    find: str
    put: str

    def made(self, script: str) -> str:
        return script.replace(self.find, self.put, 1)


@dataclass(frozen=True)
class Example:
    name: str
    horizon: int
    title: str
    look: str
    script: str
    changes: tuple[Change, ...]

    @property
    def told(self) -> dict[str, object]:
        changes = [{"say": change.say, "find": change.find, "put": change.put} for change in self.changes]
        return {"name": self.name, "horizon": self.horizon, "title": self.title, "look": self.look, "script": self.script, "changes": changes}


def gallery() -> Iterator[Example]:
    """Those by which a reader begins, and then the course by its numbers."""
    changes = tomllib.loads(CHANGES.read_text())
    paths = {path.stem: path for path in sorted(EXAMPLES.glob("*.task"))}
    for name in [*(name for name in FIRST if name in paths), *(name for name in paths if name not in FIRST)]:
        script = paths[name].read_text()
        head = HEAD.match(script)
        if head is not None:
            told = tuple(Change(**change) for change in changes.get(name, {}).get("change", ()))
            yield Example(name, int(head[1]), head[2], head[3], script, told)
