#!/usr/bin/env python3
"""What the functions of a crate cost.

    function_times.py CRATE [COUNT]     the COUNT dearest functions and files of lemmas of a crate, 20 where no number is given

The prover keeps what it has checked in crates/CRATE/out/incremental, one file for each thing that it makes of a function, and
writes each file as it ends. So the time from one file to the next is what that thing took. This holds where one process checked
the crate from nothing: `rm -rf out`, then `rt check --jobs 1` in the crate's folder, in a repository where nothing else keeps it.
Seconds are by the clock.
"""

import sys
from collections import Counter
from pathlib import Path

# What the prover makes of each function; `Proof` and `Answers` are its proof, the rest is made whatever it does.
MADE = {"Code", "Given", "Goals", "Key", "Kinds", "Layout", "Lts", "Met", "Mir", "Named", "Reads", "Statement", "Symbol", "TheLink", "Tie", "View"}
PROVED = {"Answers", "Invariants", "Proof"}
PAUSE = 600.0  # seconds: no file takes so long; a pause is one between two runs


def checked(crate: Path) -> list[tuple[float, str]]:
    """When each thing was checked, and its name without the crate's."""
    files = crate.joinpath("out", "incremental").glob("*/Rattle-*.oantt")
    names = ((file.stat().st_mtime_ns / 1e9, file.stem.removeprefix(f"Rattle-{crate.name}")) for file in files)
    return sorted((at, name.removeprefix("-proofs.").lstrip("-.") or "the crate as a whole") for at, name in names)


def split(name: str) -> tuple[str, str]:
    """The function or file of lemmas that a thing is of, and what was made of it."""
    of, _, kind = name.rpartition(".")
    return (of, kind) if of and kind in MADE | PROVED else (name, "lemmas and types")


def page(things: list[tuple[float, str]], count: int) -> str:
    by_name: Counter[str] = Counter()
    by_kind: Counter[str] = Counter()
    for (before, _), (at, name) in zip(things, things[1:]):
        if at - before < PAUSE:
            of, kind = split(name)
            by_name[of] += at - before
            by_kind[kind] += at - before
    functions = sum(name.endswith(".Lts") for _, name in things)
    made = sum(seconds for kind, seconds in by_kind.items() if kind in MADE)
    proved = sum(seconds for kind, seconds in by_kind.items() if kind in PROVED)
    lines = [
        f"{sum(by_kind.values()):.0f} seconds, {functions} functions: {made:.0f} for what is made of each function, {proved:.0f} for proofs",
        "",
        "| what is made | s |",
        "|---|---|",
        *(f"| {kind} | {seconds:.0f} |" for kind, seconds in by_kind.most_common(8)),
        "",
        "| function or lemmas | s |",
        "|---|---|",
        *(f"| {name} | {seconds:.1f} |" for name, seconds in by_name.most_common(count)),
    ]
    return "\n".join(lines) + "\n"


def main(words: list[str]) -> int:
    if not words or len(words) > 2 or (len(words) == 2 and not words[1].isdigit()):
        print(__doc__, file=sys.stderr, end="")
        return 1
    crate = Path(__file__).resolve().parent.parent / "crates" / words[0]
    things = checked(crate)
    if not things:
        print(f"{crate}/out/incremental holds nothing: check the crate first", file=sys.stderr)
        return 1
    print(page(things, int(words[1]) if len(words) == 2 else 20), end="")
    return 0


if __name__ == "__main__":
    sys.exit(main(sys.argv[1:]))
