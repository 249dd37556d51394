#!/usr/bin/env python3
"""Makes the traces, the pictures and the gallery of examples/ anew, or checks that they are what they would be made to.

    python3 tools/make_examples.py           writes examples/NAME.trace, examples/NAME.svg and examples/README.md
    python3 tools/make_examples.py --check   changes nothing; says what differs, and ends with 1 where something does

The traces and the details of which the pictures are made come from tools/reference, which needs no build.
tools/check_examples.sh holds the built program against them. The first line of an example is `# horizon N, stage STAGE. TITLE.`,
where the stage is the first whose forms it keeps to; the second is `# Look at SENTENCE`, and the lines behind it are its comment.
"""
from __future__ import annotations

import re
import sys
from collections.abc import Iterator
from dataclasses import dataclass
from itertools import takewhile
from pathlib import Path

TOP = Path(__file__).resolve().parent.parent
FOLDER = TOP / "examples"
sys.path[:0] = [str(TOP / "tools"), str(TOP / "tools" / "reference")]

from forms import Stage  # noqa: E402
from simulate import Status, answer  # noqa: E402
from view.lines import read_trace  # noqa: E402
from view.svg import draw  # noqa: E402
from view.seen import timeline_of  # noqa: E402

HEAD = re.compile(r"# horizon (\d+), stage ([a-z]+)\. (.*)")
FIRST = ("one_thread", "loops_and_tests", "preemption", "yield")
LOOK = re.compile(r"# (Look at .*)")

GALLERY = """\
# Examples

Each example is a script with its trace and its picture. In this order they make a short course on realtime scheduling. Under
each picture stands what the script's comment says of it, tick by tick, with the section of IEEE 1003.1-2017 that has the rule
(XSH is its volume System Interfaces).

To look at one, in a terminal, in a page to zoom and step through, and in a page to change it (docs/LAB.md):

```
bin/pse52-view text examples/04_inversion.task
bin/pse52-view html examples/04_inversion.task > inversion.html
bin/pse52-lab examples/04_inversion.task
```

Or without the program, by the independent reference: `python3 tools/reference/simulate.py run 26 < examples/04_inversion.task`.

`examples/sweeps` has a script that is run with many values; docs/SWEEP.md is its page.

`python3 tools/make_examples.py` makes all traces, pictures and this page anew, and `--check` tells what differs.

"""


@dataclass(frozen=True)
class Example:
    name: str
    horizon: int
    stage: str
    title: str
    look: str
    script: bytes

    @property
    def comment(self) -> list[str]:
        """The comment behind the first two lines."""
        lines = self.script.decode().splitlines()[2:]
        return [line[2:] for line in takewhile(lambda line: line.startswith("# "), lines)]

    def detail(self) -> bytes:
        return answer(self.script, self.horizon, command="detail")[1]

    def trace(self) -> bytes:
        status, text = answer(self.script, self.horizon, checked=True)
        if status is not Status.DONE:
            raise SystemExit(f"{self.name}: {text.decode().strip()}")
        needed = next(stage for stage in Stage if answer(self.script, 0, stage)[0] is Status.DONE)
        if self.stage != needed.name.lower():
            raise SystemExit(f"{self.name}: its first line says stage {self.stage}, and it needs {needed.name.lower()}")
        return text


def examples() -> Iterator[Example]:
    """Those by which a reader begins, and then the course."""
    paths = {path.stem: path for path in sorted(FOLDER.glob("*.task"))}
    for name in [*FIRST, *(name for name in paths if name not in FIRST)]:
        script = paths[name].read_bytes()
        lines = script.decode().splitlines()
        head, look = HEAD.fullmatch(lines[0]), LOOK.fullmatch(lines[1])
        if head is None or look is None:
            raise SystemExit(f"{name}: the first lines are not '# horizon N, stage STAGE. TITLE.' and '# Look at SENTENCE'")
        yield Example(name, int(head[1]), head[2], head[3], look[1], script)


def gallery(shown: list[Example]) -> str:
    parts = [GALLERY]
    for example in shown:
        name = example.name
        parts.append(f"## {name}: {example.title}\n\n**{example.look}**\n\n![{name}]({name}.svg)\n\n")
        if example.comment:
            parts.append("```\n" + "\n".join(example.comment) + "\n```\n\n")
        parts.append(f"`run {example.horizon}`: [script]({name}.task), [trace]({name}.trace)\n\n")
    return "".join(parts).rstrip("\n") + "\n"


def picture(example: Example) -> bytes:
    """The picture of an example, by its detail and with its title."""
    seen = timeline_of(read_trace(example.detail().splitlines(keepends=True)))
    seen.title = example.name
    return draw(seen).encode()


def made() -> Iterator[tuple[Path, bytes]]:
    """Each file that is made, and what stands in it."""
    shown = list(examples())
    for example in shown:
        trace = example.trace()
        yield FOLDER / f"{example.name}.trace", trace
        yield FOLDER / f"{example.name}.svg", picture(example)
    yield FOLDER / "README.md", gallery(shown).encode()


def main(words: list[str]) -> int:
    if words not in ([], ["--check"]):
        print(__doc__, file=sys.stderr)
        return 2
    wrong, count = 0, 0
    kept = set()
    for path, text in made():
        count += 1
        kept.add(path.name)
        stands = path.read_bytes() if path.exists() else None
        if stands == text:
            continue
        if words:
            print(f"{path.relative_to(TOP)}: {'is missing' if stands is None else 'differs'}")
            wrong += 1
        else:
            path.write_bytes(text)
            print(f"made {path.relative_to(TOP)}")
    for path in sorted(FOLDER.iterdir()):
        if path.suffix in (".trace", ".svg") and path.name not in kept:
            print(f"{path.relative_to(TOP)}: has no script")
            wrong += 1
    if wrong:
        print("python3 tools/make_examples.py makes them anew")
    else:
        print(f"examples: {count} files, each is what its script makes")
    return int(wrong > 0)


if __name__ == "__main__":
    sys.exit(main(sys.argv[1:]))
