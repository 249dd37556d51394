"""The public calls of the crates that others may build on, from their sources: docs/PUBLIC_CALLS.md.

Of each call it has the signature, the comment and the clauses; of one with many clauses their names, since docs/PROVED.md tells what they
promise. `tools/documents.py --write` makes the page.
"""
from __future__ import annotations

import re
import textwrap
from dataclasses import dataclass
from pathlib import Path

from pages.wings import head_of

TOP = Path(__file__).resolve().parents[2]
PAGE = TOP / "docs" / "PUBLIC_CALLS.md"
CRATES = ("script_reader", "script_writer", "script_generator", "kernel_leaps", "parts_tracer", "parts_io", "parts_steps", "tool_check",
          "tool_audit", "tool_times", "tool_answers", "tool_commands")
MOST, WIDTH = 12, 128  # so many lines of clauses are shown

HEAD = """# Public calls

What a program of its own may build on: read a script, run it, write its trace, compare and audit traces. Made from the sources by
`python3 tools/documents.py --write`. How to read a clause: docs/CONTRACTS.md. Instants and lengths are ticks.
"""


@dataclass(frozen=True)
class Call:
    """A public function: of which type, how it is called, what its comment says, and its clauses."""

    owner: str | None
    name: str
    signature: str
    comment: str
    clauses: list[str]


def exported(crate: str) -> set[str]:
    """The names that a crate gives out."""
    root = (TOP / "crates" / crate / "src" / "lib.rt").read_text()
    lists = re.findall(r"(?ms)^pub use (?:\w+::)+(\{[^}]*\}|\w+);", root)
    named = {name for words in lists for name in re.findall(r"\w+", words)}
    return named | set(re.findall(r"(?m)^pub (?:fn|struct|enum|trait) (\w+)", root))


def clauses_of(rest: str) -> list[str]:
    """The clauses in front of a function's body, each with the lines that go on with it; comments between them are left out."""
    found: list[str] = []
    for line in rest.splitlines():
        said = line.strip()
        if re.match(r"(requires|ensures)\b", said):
            found.append(said)
        elif said.startswith("{") or said.endswith(";") and not found:
            break
        elif found and said and not said.startswith("//"):
            found[-1] += f"\n    {said}"
    return found


def calls_of(path: Path) -> list[Call]:
    """The public functions of a file, in their order."""
    text, found = path.read_text(), []
    owners = [(match.start(), match[1]) for match in re.finditer(r"(?m)^impl(?:<[^>]*>)? (?:\w+(?:<[^>]*>)? for )?(\w+)", text)]
    ends = [match.start() for match in re.finditer(r"(?m)^}", text)]
    for match in re.finditer(r"(?ms)((?:^ *///[^\n]*\n)+)(?:^ *#\[[^\n]*\n)*^ *pub fn (\w+)(.*?\)(?: -> [^\n{]+)?)\n(.*?)^ *\{", text):
        begun = [(start, name) for start, name in owners if start < match.start()]
        inside = bool(begun) and not any(begun[-1][0] < end < match.start() for end in ends)
        comment = " ".join(" ".join(line.strip().removeprefix("///") for line in match[1].splitlines()).split())
        signature = re.sub(r",\s*\)", ")", re.sub(r"\(\s+", "(", " ".join(match[3].split())))
        found.append(Call(begun[-1][1] if inside else None, match[2], signature, comment, clauses_of(match[4])))
    return found


def told(call: Call) -> list[str]:
    """The lines of the page that tell of a call."""
    name = f"{call.owner}::{call.name}" if call.owner else call.name
    lines = [f"**`{name}`**", "", "```rust", *textwrap.wrap(f"fn {name}{call.signature}", WIDTH, subsequent_indent="    "), "```", "",
             *textwrap.wrap(call.comment, WIDTH, break_long_words=False, break_on_hyphens=False)]
    shown = [line for clause in call.clauses for line in clause.split("\n")]
    if len(shown) > MOST:
        names = ", ".join(f"`{word}`" for word in re.findall(r"(?m)^ensures (\w+) \{", "\n".join(call.clauses)))
        lines += ["", *textwrap.wrap(f"It promises {names}: docs/PROVED.md, and the clauses in its file.", WIDTH)]
    elif shown:
        wrapped = [part for line in shown for part in textwrap.wrap(line, 180, subsequent_indent="        ", drop_whitespace=False) or [""]]
        lines += ["", "```", *wrapped, "```"]
    return [*lines, ""]


def page() -> str:
    """The page as the sources have it."""
    lines = [HEAD]
    for crate in CRATES:
        names = exported(crate)
        calls = [call for path in sorted((TOP / "crates" / crate / "src").glob("*.rt")) for call in calls_of(path)
                 if (call.owner or call.name) in names]
        lines += [f"## {crate}", "", *textwrap.wrap(f"{head_of(crate)}.", WIDTH), ""]
        for call in calls:
            lines += told(call)
    return "\n".join(lines)


def wrong_page() -> list[str]:
    """Whether the page is not what the sources say."""
    same = PAGE.exists() and PAGE.read_text() == page()
    return [] if same else ["docs/PUBLIC_CALLS.md is not what the sources say; tools/documents.py --write mends it"]


def write() -> None:
    PAGE.write_text(page())
