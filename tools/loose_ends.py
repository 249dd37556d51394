"""What a proof finds only late: names that are imported and not there, and edits that fit nowhere.

    tools/loose_ends.py             these
    tools/loose_ends.py --unused    and the names that are imported and not used, which no proof minds

A definition that is taken away, a file that is renamed, a line that is written anew: each may leave an import or an edit behind that a
proof comes to after half an hour. Here they are seen at once. It reads the files alone and proves nothing: a name that it passes may
still be of the wrong type, and an edit that fits may still be let through. Its status is 1 where something is loose.
"""
from __future__ import annotations

import re
import sys
from collections.abc import Iterator
from functools import cache
from pathlib import Path

TOP = Path(__file__).resolve().parents[1]
IMPORT = re.compile(r"^\s*(?:pub )?(?:ghost )?use Rattle\.([\w+-]+(?:\.[\w+-]+)*)(?:\.\{([^}]*)\}|( as \S+))?", re.MULTILINE)
# The name that a line defines, and the fields, constructors and premises before a colon.
DEFINED = re.compile(r"^ *(?:(?:pub|private|opaque|abbrev|record|data|case|ext) )*([^\s:({,]+)(?= |$)", re.MULTILINE)
MEMBERS = re.compile(r"(?:^|[{;,(])\s*(?:pub )?((?:[^\s:({,;]+ )+):", re.MULTILINE)
# Parts of the paths of what Rattle makes.
MADE = frozenset({"declared", "contracts", "Goals", "Given", "Statement", "Code"})
COMMENT = re.compile(r"(?m)(?:^|(?<=\s))(?:--|//).*$")


def code_of(path: Path) -> str:
    return COMMENT.sub("", path.read_text())


@cache
def defined(path: Path) -> frozenset[str]:
    """The names that a file of definitions or proofs has for others."""
    text = code_of(path)
    names = {name for _, names, _ in IMPORT.findall(text) for _, name in split(names)} if "pub use" in text else set()
    return frozenset(names | set(DEFINED.findall(IMPORT.sub("", text))) | {name for row in MEMBERS.findall(text) for name in row.split()})


def split(names: str) -> list[tuple[str, str]]:
    """Each name of an import, and the name that it has here."""
    rows = [name.strip().split(" as ") for name in names.split(",") if name.strip()]
    return [(row[0], row[-1]) for row in rows]


def file_of(parts: list[str]) -> Path | None:
    """The file that a path of an import names, None where Rattle makes it of the code or it is of no crate here."""
    crate = TOP / "crates" / parts[0]
    folder = crate.joinpath(*parts[1:])
    if not crate.is_dir() or MADE.intersection(parts[1:]) or folder.is_dir() and not folder.with_suffix(".antt").exists():
        return None
    return folder.with_suffix(".antt")


def is_used(name: str, text: str) -> bool:
    words = [word for word in name.split("◌") if word]
    return all(re.search(rf"(?<![\w.'-]){re.escape(word)}(?![\w'-])" if word[0].isalnum() else re.escape(word), text) for word in words)


def missing(path: Path) -> Iterator[str]:
    """What a file imports that is not there."""
    for found in IMPORT.finditer(code_of(path)):
        where = f"{path.relative_to(TOP)}: {found[1]}"
        source = file_of(found[1].split("."))
        if source and not source.exists():
            yield f"{where}: there is no such file"
        elif source:
            yield from (f"{where} has no {there}" for there, _ in split(found[2] or "") if there not in defined(source))


def unused(path: Path) -> Iterator[str]:
    """What a file imports for itself and does not use."""
    text = code_of(path)
    rest = IMPORT.sub("", text)
    for found in IMPORT.finditer(text):
        if "pub use" not in found[0]:
            yield from (f"{path.relative_to(TOP)}: {here} is not used" for _, here in split(found[2] or "") if not is_used(here, rest))


def misfit(path: Path) -> Iterator[str]:
    """An edit has its place once in its file."""
    fields = dict(re.findall(r"^(file|old): ?(.*(?:\n(?!\w+:).*)*)", path.read_text(), re.MULTILINE))
    where = path.relative_to(TOP)
    file = path.parents[1] / fields.get("file", "").strip()
    if not file.is_file():
        yield f"{where}: there is no {file.name}"
    elif (times := file.read_text().count(fields.get("old", "").rstrip("\n"))) != 1:
        yield f"{where}: what it takes out stands {times} times in {file.name}"


def main(words: list[str]) -> int:
    if words not in ([], ["--unused"]):
        print("usage: tools/loose_ends.py [--unused]", file=sys.stderr)
        return 2
    crates = TOP / "crates"
    sources = sorted(path for end in ("antt", "rt") for path in crates.glob(f"*/*/**/*.{end}") if "out" not in path.parts)
    edits = sorted(crates.glob("*/must-fail/*.edit"))
    kinds = [missing, unused] if words else [missing]
    loose = [line for of in kinds for path in sources for line in of(path)] + [line for path in edits for line in misfit(path)]
    for line in loose:
        print(line)
    print(f"{len(sources)} files of code, definitions and proofs and {len(edits)} edits, {len(loose)} loose ends")
    return 1 if loose else 0


if __name__ == "__main__":
    sys.exit(main(sys.argv[1:]))
