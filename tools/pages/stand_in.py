"""The reference in the place of the program, for pages that are typed along where nothing is built.

    python3 tools/pages/stand_in.py COMMAND NUMBERS < INPUT
"""
from __future__ import annotations

import os
import sys
from pathlib import Path

REFERENCE = Path(__file__).resolve().parents[1] / "reference"
FILES = {"rta": "response_times.py", "gen": "load.py", "soak": "load.py", "audit": "audits.py"}


def main(words: list[str]) -> int:
    if words[:1] == ["check"]:
        sys.path.insert(0, str(REFERENCE))
        from compare_checks import checked
        from forms import Stage
        status, text = checked(sys.stdin.buffer.read(), int(words[1]), Stage.WHOLE)
        sys.stdout.buffer.write(text)
        return status
    file = FILES.get(words[0] if words else "", "simulate.py")
    os.execv(sys.executable, [sys.executable, str(REFERENCE / file), *words])


if __name__ == "__main__":
    sys.exit(main(sys.argv[1:]))
