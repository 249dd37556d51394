"""Holds `show N` and `detail N` of the reference against the trace and against each other, over generated scripts.

    python3 tools/reference/check_facts.py [--first N] [--count N] [--stage STAGE]

Of each script: `detail` without its facts is the trace; each fact written over the one before it gives what `show` tells, at
each instant before the end of the run; no fact is told that did not change; and the first of the first list that is
told is who is dispatched. Prints each script where one of these fails, and a last line
'N checked, M wrong'. Exit status 1 where something is wrong.
"""
from __future__ import annotations

import argparse
import sys
from dataclasses import dataclass, field

import generate
from forms import ObjectKind, Stage
from reader import read
from script import Script
from simulate import answer

FACT_WORDS = frozenset((
    "list", "thread", "frames", "mask", "cancelability", "cleanups", "pending", "mutex", "waiters", "sem", "messages",
    "senders", "receivers", "notify", "timer", "signal"))


def is_fact(line: str) -> bool:
    """Whether a line of a detail is a fact: a time, and then the word of a fact."""
    words = line.split(" ")
    return words[0].isdigit() and words[1] in FACT_WORDS


def subject_and_words(fact: str) -> tuple[str, str]:
    head, name, *words = fact.split(" ")
    return f"{head} {name}", " ".join(words)


@dataclass
class Replay:
    """The last of each fact, as a reader of a detail keeps them."""

    facts: dict[str, str] = field(default_factory=dict)

    @staticmethod
    def opening(script: Script) -> "Replay":
        """All threads are dormant, semaphores have their declared values, and all other facts are empty."""
        facts = {f"thread {named.name}": "dormant" for named in script.objects(ObjectKind.THREAD)}
        return Replay(facts | {f"sem {named.name}": str(named.kind.value) for named in script.objects(ObjectKind.SEM)})

    def take(self, fact: str) -> bool:
        """Keeps one fact; whether it differs from the one before."""
        subject, words = subject_and_words(fact)
        differs = self.facts.get(subject, "") != words
        self.facts[subject] = words
        return differs

    def held(self) -> dict[str, str]:
        return {subject: words for subject, words in self.facts.items() if words}

    def first_thread(self) -> str:
        """The first thread of the highest list, or idle."""
        lists = [(int(subject[len("list "):]), words) for subject, words in self.held().items()
                 if subject.startswith("list ")]
        return max(lists, default=(0, "idle"))[1].split(" ")[0]


def facts_of_show(text: str) -> dict[str, str]:
    """The facts that `show` tells, without its numbers."""
    lines = [line for line in text.splitlines()[1:] if line.split(" ")[0] in FACT_WORDS]
    return dict(subject_and_words(line) for line in lines)


def fault_of(text: bytes, horizon: int, stage: Stage, instants: range | None = None) -> str | None:
    """What is wrong with the facts of one script, or None."""
    script, _ = read(text, stage)
    assert script is not None
    trace = answer(text, horizon, stage)[1].decode().splitlines()
    detail = answer(text, horizon, stage, command="detail")[1].decode().splitlines()
    if [line for line in detail if not is_fact(line)] != trace:
        return "the detail without its facts is not the trace"
    if [time_of(line) for line in detail] != sorted(time_of(line) for line in detail):
        return "times fall"
    end = next(int(line.split(" ")[0]) for line in trace if line.endswith(" end") and line.split(" ")[0].isdigit())
    replay, runs = Replay.opening(script), "idle"
    for instant in range(end + 1):
        events = [line for line in trace if time_of(line) == instant]
        facts = [line for line in detail if is_fact(line) and time_of(line) == instant]
        if not all(replay.take(fact.split(" ", 1)[1]) for fact in facts):
            return f"instant {instant}: a fact is told that did not change"
        if instant == horizon or any(line.split(" ")[1] == "killed" for line in events):
            return "a fact stands behind the last instant" if facts else None
        runs = ([line.split(" ")[2] if " dispatch " in line else "idle" for line in events
                 if line.split(" ")[1] in ("dispatch", "idle")] or [runs])[-1]
        if runs != replay.first_thread():
            return f"instant {instant}: {runs} is dispatched, and the lists begin with {replay.first_thread()}"
        if instants is None or instant in instants:
            shown = answer(text, instant, stage, command="show")[1].decode()
            if facts_of_show(shown) != replay.held() or shown.splitlines()[0] != f"{instant} state":
                return f"instant {instant}: the facts of the detail are not those of the show"
    return None


def time_of(line: str) -> float:
    """The time of a line; a closing line that has none stands last."""
    first = line.split(" ")[0]
    return int(first) if first.isdigit() else float("inf")


def main() -> int:
    parser = argparse.ArgumentParser(description="Checks the facts of generated scripts.")
    parser.add_argument("--first", type=int, default=0)
    parser.add_argument("--count", type=int, default=100)
    parser.add_argument("--stage", default="whole")
    arguments = parser.parse_args()
    stage, wrong = Stage.named(arguments.stage), 0
    for seed in range(arguments.first, arguments.first + arguments.count):
        text, horizon = generate.accepted(seed, stage)
        fault = fault_of(text, horizon, stage)
        if fault is not None:
            wrong += 1
            print(f"seed {seed} horizon {horizon}: {fault}")
    print(f"{arguments.count} checked, {wrong} wrong")
    return 1 if wrong else 0


if __name__ == "__main__":
    sys.exit(main())
