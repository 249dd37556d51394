#!/usr/bin/env python3
"""Shows that no rule of the machine can change unnoticed: turns one rule of tools/reference at a time, and runs a worked example.

    python3 tools/turned_rules.py          each turned rule, and the example of tests/worked whose text must differ
    python3 tools/turned_rules.py --all    beside each turned rule every example that differs
    python3 tools/turned_rules.py WORD..   only the rules whose title has each of the words

A turned rule is a change of one place of a file of tools/reference, made in memory alone: `old` stands there exactly once, and `new`
in its stead. The rules stand in tools/turned. Exit status 1 where an example does not differ, does not run, or where `old` is not there.
"""
from __future__ import annotations

import argparse
import importlib
import sys
from collections.abc import Callable
from pathlib import Path
from types import ModuleType

TOP = Path(__file__).resolve().parent.parent
REFERENCE = TOP / "tools" / "reference"
WORKED = TOP / "tests" / "worked"
SLOW = ("chain_of_sixty_three_owners", "sixty_four_threads_start_together", "lock_counted_to_its_limit")
FARTHEST = 1_000_000
COMMANDS = {"trace": "run", "refused": "run", "show": "show", "detail": "detail", "upgrade": "upgrade"}
"""What the text of each suffix is printed by."""
sys.path[:0] = [str(TOP / "tools")]

from turned import RULES, Turned  # noqa: E402

Answer = Callable[..., tuple[int, bytes]]


class Misfit(Exception):
    """A rule whose `old` does not stand exactly once in its file."""


def turned_source(path: Path, rule: Turned) -> str:
    text = path.read_text()
    if path.name != rule.file:
        return text
    if text.count(rule.old) != 1:
        raise Misfit(f"the text to turn stands {text.count(rule.old)} times in {rule.file}")
    return text.replace(rule.old, rule.new)


class Reference:
    """The modules of the reference, compiled once, and loaded anew for each turned rule."""

    def __init__(self) -> None:
        self.names = [path.stem for path in sorted(REFERENCE.glob("*.py"))]
        self.compiled: dict[tuple[str, str], object] = {}

    def code(self, name: str, rule: Turned) -> object:
        source = turned_source(REFERENCE / f"{name}.py", rule)
        key = (name, source)
        if key not in self.compiled:
            self.compiled[key] = compile(source, f"{name}.py", "exec")
        return self.compiled[key]

    def find_spec(self, name: str, path: object = None, target: object = None) -> object:
        """Finds the modules of the reference for `import`, with the rule turned."""
        if name not in self.names:
            return None
        return importlib.util.spec_from_loader(name, self)

    def create_module(self, spec: object) -> None:
        return None

    def exec_module(self, module: ModuleType) -> None:
        exec(self.code(module.__name__, self.rule), module.__dict__)

    def answer_of(self, rule: Turned) -> Answer:
        """The commands of the reference with this rule turned."""
        turned_source(REFERENCE / rule.file, rule)
        self.rule = rule
        for name in self.names:
            sys.modules.pop(name, None)
        sys.meta_path.insert(0, self)
        try:
            return importlib.import_module("simulate").answer
        finally:
            sys.meta_path.remove(self)


def noticed(answer: Answer, name: str) -> bool:
    """Whether the command of the example prints another text than stands beside it."""
    path = WORKED / name
    script = path.with_suffix(".task").read_bytes()
    horizon = int(path.with_suffix(".horizon").read_text()) if path.with_suffix(".horizon").exists() else 0
    if path.with_suffix(".has").exists():
        return not set(path.with_suffix(".has").read_bytes().splitlines()) <= set(answer(script, horizon)[1].splitlines())
    form = next(form for form in COMMANDS if path.with_suffix(f".{form}").exists())
    return answer(script, horizon, command=COMMANDS[form])[1] != path.with_suffix(f".{form}").read_bytes()


def examples() -> list[str]:
    """The worked examples that are run, but those that take long."""
    names = [line.split()[0] for line in (WORKED / "INDEX.txt").read_text().splitlines() if not line.startswith("#")]
    return [name for name in names if name not in SLOW and (WORKED / f"{name}.horizon").exists()
            and not (WORKED / f"{name}.refused").exists()
            and int((WORKED / f"{name}.horizon").read_text()) <= FARTHEST]


def differing(answer: Answer, names: list[str]) -> list[str]:
    found = []
    for name in names:
        try:
            found += [name] if noticed(answer, name) else []
        except Exception as error:  # a turned rule may break what the reference takes for granted
            found.append(f"{name} ({type(error).__name__})")
    return found


def verdict(answer: Answer, rule: Turned) -> str | None:
    """What is wrong with a rule and its example; None where the example notices."""
    try:
        return None if noticed(answer, rule.example) else f"{rule.example} does not differ"
    except Exception as error:
        return f"{rule.example} does not run: {type(error).__name__} {error}"


def main() -> int:
    parser = argparse.ArgumentParser(description="Turns one rule of the reference at a time, and runs a worked example.")
    parser.add_argument("words", nargs="*")
    parser.add_argument("--all", action="store_true")
    arguments = parser.parse_args()
    reference, wrong, tried = Reference(), 0, 0
    for rule in RULES:
        if not all(word in rule.title for word in arguments.words):
            continue
        tried += 1
        try:
            answer = reference.answer_of(rule)
            found = verdict(answer, rule)
        except Misfit as misfit:
            found, answer = str(misfit), None
        if arguments.all and answer is not None:
            print(f"{rule.title}: {', '.join(differing(answer, examples())) or 'none'}")
        if found is not None:
            wrong += 1
            print(f"NOT NOTICED: {rule.title}: {found}")
    print(f"turned rules: {tried} tried, {wrong} not noticed")
    return 1 if wrong or not tried else 0


if __name__ == "__main__":
    sys.exit(main())
