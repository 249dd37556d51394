"""Checks runs of the list machine against traces, by computing.

    python3 tools/machine_rows/check.py rows [NAME..]
    python3 tools/machine_rows/check.py generated FIRST COUNT [STAGE]

Each script and its trace become a lemma of a scratch crate, "the text of the
run is this trace", which the proof checker decides by computing the definition.
The traces of `rows` are worked by hand; those of `generated` come from the
reference simulator, whose stage `version2` has strict servers. The scratch copy of the repository is made below the folder
that SCRATCH names, or below the system's folder for temporary files.
"""
from __future__ import annotations

import os
import shutil
import subprocess
import sys
import tempfile
from pathlib import Path

HERE = Path(__file__).resolve().parent
TOP = HERE.parent.parent
sys.path.insert(0, str(HERE.parent / "reference"))

from forms import Stage  # noqa: E402
from generate import accepted  # noqa: E402
from reader import read  # noqa: E402
from simulate import Status, answer  # noqa: E402

import terms  # noqa: E402

CRATE = "machine_rows"
LEMMAS_A_FILE = 10
TEXT = """-- The text of some lines.
use Rattle.std.specs.Prelude.{ℕ, List, [], ◌∷◌, ◌++◌}

abbrev pub text_of : List (List ℕ) → List ℕ
text_of [] = []
text_of (line ∷ lines) = line ++ 10 ∷ text_of lines
"""


def lemma(name: str, text: bytes, horizon: int, trace: str) -> str:
    script, fault = read(text)
    assert script is not None, (name, fault)
    return terms.lemma(name, script, horizon, trace)


def worked(names: list[str]) -> list[tuple[str, str]]:
    """The worked rows: a script whose first line is `# horizon N`, and its trace."""
    found = []
    for path in sorted((HERE / "rows").glob("*.script")):
        if names and path.stem not in names:
            continue
        text = path.read_bytes()
        horizon = int(text.split(b"\n", 1)[0].split()[-1])
        found.append((path.stem, lemma(path.stem, text, horizon, path.with_suffix(".trace").read_text())))
    return found


def generated(first: int, count: int, stage: Stage) -> list[tuple[str, str]]:
    found = []
    for seed in range(first, first + count):
        text, horizon = accepted(seed, stage)
        status, trace = answer(text, horizon)
        assert status == Status.DONE, seed
        found.append((f"seed_{seed}", lemma(f"seed_{seed}", text, horizon, trace.decode())))
    return found


def crates_below(name: str, lines: dict[str, list[str]]) -> set[str]:
    return {name}.union(*(crates_below(below, lines) for below in lines[name] if below in lines))


def scratch(folder: Path) -> Path:
    """A copy of the machine's definitions and of what they stand on, with a crate for the lemmas."""
    lines = {}
    for line in (TOP / "crates.txt").read_text().splitlines():
        if ":" in line and not line.startswith("#"):
            name, below = line.split(":", 1)
            lines[name.split()[0]] = below.split()
    wanted = sorted(crates_below("rules_machine", lines))
    for name in wanted:
        shutil.copytree(TOP / "crates" / name, folder / "crates" / name, ignore=shutil.ignore_patterns("out", "must-fail"))
    listing = [f"{name}: {' '.join(lines[name])}" for name in wanted]
    needs = "words_numbers words_script words_trace rules_machine"
    (folder / "crates.txt").write_text("\n".join([*listing, f"{CRATE}: {needs}", ""]))
    crate = folder / "crates" / CRATE
    (crate / "src").mkdir(parents=True)
    (crate / "proofs").mkdir()
    (crate / "src" / "lib.rt").write_text("//! Runs of the list machine.\n#![tactic(auto)]\n")
    return crate


def write_lemmas(crate: Path, lemmas: list[tuple[str, str]]) -> None:
    modules = ["TraceText"]
    (crate / "proofs" / "TraceText.antt").write_text(TEXT)
    for at in range(0, len(lemmas), LEMMAS_A_FILE):
        module = f"Runs{at // LEMMAS_A_FILE}"
        head = f"-- Runs and their traces.\n{terms.HEADER}use Rattle.{CRATE}.proofs.TraceText.{{text_of}}\n"
        body = "".join(text for _, text in lemmas[at:at + LEMMAS_A_FILE])
        (crate / "proofs" / f"{module}.antt").write_text(head + body)
        modules.append(module)
    (crate / "proofs" / "Lib.antt").write_text("".join(f"pub mod {module}\n" for module in modules))


def main(words: list[str]) -> int:
    if not words or words[0] not in ("rows", "generated"):
        print(__doc__)
        return 2
    if words[0] == "rows":
        lemmas = worked(words[1:])
    else:
        lemmas = generated(int(words[1]), int(words[2]), Stage.named((words[3:] or ["whole"])[0]))
    folder = Path(tempfile.mkdtemp(prefix="machine-rows-", dir=os.environ.get("SCRATCH")))
    crate = scratch(folder)
    write_lemmas(crate, lemmas)
    ended = subprocess.run(["rt", "check"], cwd=crate, capture_output=True, text=True)
    output = ended.stdout + ended.stderr
    (folder / "check.log").write_text(output)
    refused = [line for line in output.splitlines() if "error" in line or "limit" in line.lower()]
    print("\n".join(refused[:20]))
    print(f"{len(lemmas)} runs, {'all as their traces say' if ended.returncode == 0 else 'not all proved'}; {folder}/check.log")
    return ended.returncode


if __name__ == "__main__":
    sys.exit(main(sys.argv[1:]))
