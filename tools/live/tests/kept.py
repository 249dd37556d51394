"""The logs that are kept of the probes, so that what is made of a log can be tried without a kernel."""
from __future__ import annotations

from pathlib import Path

from live.cases import PROBES, Case, probes
from live.compare import Comparison, compare
from live.due import Due, read_due
from live.log import read_log
from live.rig import script_of
from forms import ObjectKind
from simulate import answer

LOGS = Path(__file__).with_name("logs")


def log_of(name: str) -> str:
    return (LOGS / f"{name}.log").read_text()


def due_of(case: Case) -> Due:
    """The reference's trace of a case."""
    names = [named.name for named in script_of(case.text).objects(ObjectKind.THREAD)]
    return read_due(answer(case.text, case.horizon)[1].decode(), names)


def found_in(case: Case, text: str) -> Comparison:
    return compare(due_of(case), read_log(text))


def kept_trace(case: Case) -> list[str]:
    return (PROBES / f"{case.name}.live.trace").read_text().splitlines()


CASES: dict[str, Case] = {case.name: case for case in probes()}
