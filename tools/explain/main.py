"""The command `pse52 explain`: all faults of a script.

    python3 tools/explain/main.py [--lines] SCRIPT     (- is standard input)

With --lines each fault is one line, FILE:LINE:COLUMN: KIND: what is wrong; how to fix it. Editors read that.

Exit status: 0 no fault, 2 refused, 3 too long, 4 not read, 5 not written.
"""
from __future__ import annotations

import sys
from pathlib import Path

sys.path.insert(0, str(Path(__file__).resolve().parent.parent))

from command import carried_out, say, standard_input, write  # noqa: E402
from explain.show import in_one_line_each, shown  # noqa: E402
from explain.text import GREATEST_TEXT, faults_of  # noqa: E402

TOOL = "pse52"
TOO_LONG = f"the text has more than {GREATEST_TEXT} bytes; shorten it, for instance its comments, or say repeated steps with `loop`\n"


def main(words: list[str]) -> int:
    in_lines = words[:1] == ["--lines"]
    words = words[in_lines:]
    if len(words) != 1:
        print(__doc__, file=sys.stderr)
        return 1
    try:
        with standard_input() if words[0] == "-" else open(words[0], "rb") as source:
            text = source.read(GREATEST_TEXT + 1)
    except OSError as error:
        say(TOOL, f"{'standard input' if words[0] == '-' else words[0]}: {error.strerror}")
        return 4
    if len(text) > GREATEST_TEXT:
        return write(TOOL, f"{words[0]}:1:1: {TOO_LONG}" if in_lines else TOO_LONG) or 3
    faults = faults_of(text)
    if not faults:
        return write(TOOL, "no fault\n")
    if in_lines:  # an editor opens the file by these bytes
        return write(TOOL, in_one_line_each(words[0], faults).encode(errors="surrogateescape")) or 2
    return write(TOOL, shown(text, faults)) or 2


if __name__ == "__main__":
    sys.exit(carried_out(TOOL, lambda: main(sys.argv[1:]), {}))
