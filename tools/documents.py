"""Holds the documents to the code, to the reference, and to one another.

    python3 tools/documents.py [--write]

The code's table (crates/script_table/src/table.rt) says which patterns the language has: docs/SCRIPT.md lists each and no other. The
reference says what the examples of the pages answer, and what each call of docs/CALLS.md does. Each function that a page names stands
in the file that it names, docs/WALK.md has lines of the trace of its script, and each page that a page names is there. README says what
the proof takes as bin/pse52 does, docs/PROVED.md has each crate with what its head says of it, docs/ARCHITECTURE.md and docs/layers.svg the
crates by their wings, docs/PUBLIC_CALLS.md the public calls (--write makes all four so), each crate stands only on what its wing may stand on, and no line of a page is too
long. Prints what differs, with exit status 1.
"""
from __future__ import annotations

import re
import sys
from dataclasses import dataclass
from pathlib import Path

TOP = Path(__file__).resolve().parent.parent
sys.path[:0] = [str(TOP / "tools"), str(TOP / "tools" / "reference")]

from forms import Stage  # noqa: E402
from pages import calls, proved, surface, wings  # noqa: E402
from pages.wrap import too_long  # noqa: E402
from simulate import answer  # noqa: E402

TWO_WORDS = ("thread", "mutex", "setsched")
LAST_WORDS = ("recursive", "nonblock", "real")  # told beside a pattern, and not as one of its own


@dataclass(frozen=True)
class Pattern:
    """A pattern of the code: its form, and its words with None for a place."""

    form: str
    words: tuple[str | None, ...]

    @property
    def label(self) -> str:
        keywords = [word for word in self.words if word is not None]
        return " ".join(keywords[: 2 if keywords[0] in TWO_WORDS else 1])


def patterns() -> list[Pattern]:
    """The rows of the code's table."""
    found = []
    text = (TOP / "crates/script_table/src/table.rt").read_text()
    for form, places in re.findall(r"pattern!\(Form::(.*), \w+ => (.*)\),", text):
        words = tuple(keyword or None for keyword, _ in re.findall(r'b"(\w+)"|(\([^)]*\)|\w+)', places))
        found.append(Pattern(form, words))
    assert len(found) >= 91, f"{len(found)} patterns in the table"
    return found


ALL = patterns()


def agrees(words: list[str], pattern: Pattern) -> bool:
    """Whether a pattern of a document is this one; POL stands for a policy, a word in capitals for a place."""
    if words[-1] == "POL":
        return list(pattern.words[:2]) == [words[0], None] and len(pattern.words) > 3
    return len(words) == len(pattern.words) and all(
        keyword is None if word.upper() == word and not word.isdigit() else keyword == word
        for word, keyword in zip(words, pattern.words))


def listed(text: str) -> list[list[str]]:
    """The words of each pattern in the tables of docs/SCRIPT.md."""
    start, end = text.index("### Declarations"), text.index("Barred from the bodies")
    cells = [line.split("|")[1] for line in text[start:end].split("\n") if line.count("|") > 2]
    return [pattern.split() for cell in cells for pattern in re.findall(r"`([^`]*)`", cell)]


def is_listed(pattern: Pattern, documented: list[list[str]]) -> bool:
    """Whether a document has the pattern, or the one that it is with a last word more."""
    shorter = Pattern(pattern.form, pattern.words[:-1])
    return any(agrees(words, pattern) for words in documented) or (
        pattern.words[-1] in LAST_WORDS and any(agrees(words, shorter) for words in documented))


def wrong_patterns(text: str) -> list[str]:
    """The patterns that docs/SCRIPT.md lists and the code has not, and the other way round."""
    documented = listed(text)
    strange = [words for words in documented if not any(agrees(words, pattern) for pattern in ALL)]
    missing = [pattern for pattern in ALL if not is_listed(pattern, documented)]
    return [f"docs/SCRIPT.md: the code has no pattern {' '.join(words)}" for words in strange] + [
        f"docs/SCRIPT.md: a pattern {pattern.label} of the code is not listed" for pattern in missing]


def wrong_faults(text: str) -> list[str]:
    """The rows of docs/SCRIPT.md's table of faults whose texts have another fault."""
    wrong = []
    for number, kind, _, texts, _ in re.findall(r"(?m)^\| (\d+) \| (\w+) \| (.*) \| (.*) \| (.*) \|$", text):
        for example in texts.split("; "):
            lines = re.findall(r"`([^`]*)`", example.split(", where")[0])
            script = "".join(line + "\n" for line in lines).replace("\\r", "\r")
            have = answer(script.encode(), 1, Stage.WHOLE)[1].decode()
            if have.split()[2:] != [number, kind]:
                wrong.append(f"docs/SCRIPT.md: {example} is said to be {kind}, and has: {have.strip()}")
    return wrong


def wrong_runs(name: str, text: str) -> list[str]:
    """The scripts of a document, each with its command and its trace behind it, that run otherwise."""
    runs = re.findall(r"```task\n(.*?)```.*?```\n\$ \S+ run (\d+) < \S+\n(.*?)```", text, re.S)
    answers = [(script, answer(script.encode(), int(horizon), Stage.WHOLE)[1].decode(), trace)
               for script, horizon, trace in runs]
    return [f"{name}: the trace is\n{have}" for _, have, trace in answers if have != trace]


def wrong_places(text: str) -> list[str]:
    """The functions of docs/WALK.md that do not stand in the files beside them, and lines that its trace does not have."""
    places = re.findall(r"`(\w+/src/\w+\.rt)` `(\w+)`", text)
    wrong = [f"docs/WALK.md: crates/{file} has no function {name}" for file, name in places if not has_function(file, name)]
    script = re.search(r"The script is .*?`(tests/worked/\w+)\.task`", text)
    lines = re.search(r"```\n(.*?)```", text, re.S)
    if script is None or lines is None or not places:
        return [*wrong, "docs/WALK.md names no script, no lines of a trace or no function"]
    if lines[1] not in (TOP / f"{script[1]}.trace").read_text():
        wrong.append(f"docs/WALK.md: its lines are not in {script[1]}.trace")
    return wrong


def has_function(file: str, name: str) -> bool:
    path = TOP / "crates" / file
    return path.exists() and re.search(rf"\bfn {name}\b", path.read_text()) is not None


def wrong_files(name: str, text: str) -> list[str]:
    """The files of crates, and the functions in them, that a page names as `crate` `file.rt` `function` and that are not there."""
    wrong = []
    for crate, file, function in re.findall(r"`(\w+)`\s+`(\w+\.rt)`(?:\s+`(\w+)`)?", text):
        found = list((TOP / "crates" / crate / "src").rglob(file))
        if not found or function and not any(re.search(rf"\b{function}\b", path.read_text()) for path in found):
            wrong.append(f"{name}: crates/{crate} has no {file}" + (f" with {function}" if function else ""))
    return wrong


def wrong_names(name: str, text: str) -> list[str]:
    """The pages and tools that a page names and that are not there."""
    named = re.findall(r"(?<![\w/.-])((?:docs|tools|bin|editors|examples|completions|release)/[\w./-]*\w)", text)
    made = ("release/", "examples/sweeps/server_budget")
    return [f"{name}: {path} is not there" for path in dict.fromkeys(named)
            if not (TOP / path).exists() and not path.startswith(made) and not path.endswith((".csv", ".rows"))]


def wrong_cost() -> list[str]:
    """README says in how many minutes the program is proved as bin/pse52 says it."""
    told = re.search(r"in (\d+ to \d+ minutes on four cores)", (TOP / "tools" / "wrapper" / "cost.sh").read_text())[1]
    readme = " ".join((TOP / "README.md").read_text().split())
    return [] if told in readme else [f"README.md does not say that a proof takes {told}, as tools/wrapper/cost.sh does"]


def pages() -> list[Path]:
    """Every page of the repository."""
    return sorted([*TOP.glob("*.md"), *TOP.glob("docs/*.md"), *TOP.glob("examples/*.md"), *TOP.glob("editors/*.md"), *TOP.glob("tools/*/*.md")])


def main() -> int:
    if sys.argv[1:] == ["--write"]:
        proved.PAGE.write_text(proved.with_part(proved.PAGE.read_text()))
        wings.write()
        surface.write()
    elif len(sys.argv) > 1:
        print(__doc__, file=sys.stderr)
        return 2
    wrong = []
    for page in pages():
        name, text = str(page.relative_to(TOP)), page.read_text()
        wrong += wrong_runs(name, text) + wrong_files(name, text)
        wrong += wrong_names(name, text) if name != "CHANGELOG.md" else []  # which tells of what is gone
    language = (TOP / "docs/SCRIPT.md").read_text()
    wrong += wrong_patterns(language) + wrong_faults(language)
    wrong += wrong_places((TOP / "docs/WALK.md").read_text())
    wrong += calls.faults_of(calls.PAGE.read_text(), calls.by_reference)
    wrong += wings.wrong_wings() + wings.wrong_pages() + surface.wrong_page()
    wrong += proved.wrong_items() + wrong_cost() + too_long(pages())
    print(*wrong, f"documents: {len(wrong)} differ", sep="\n")
    return 1 if wrong else 0


if __name__ == "__main__":
    sys.exit(main())
