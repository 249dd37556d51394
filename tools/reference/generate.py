"""Generated scripts, each the same for the same seed and stage.

    python3 tools/reference/generate.py accepted SEED [--stage STAGE]
    python3 tools/reference/generate.py refused SEED [--stage STAGE]

writes one text; for an accepted one the horizon goes to standard error.
"""
from __future__ import annotations

import argparse
import sys

from forms import Stage
from mutate import refused
from writer import accepted

__all__ = ["accepted", "refused"]


def main() -> int:
    parser = argparse.ArgumentParser(description="Writes one generated script.")
    parser.add_argument("what", choices=("accepted", "refused"))
    parser.add_argument("seed", type=int)
    parser.add_argument("--stage", default="whole")
    arguments = parser.parse_args()
    stage = Stage.named(arguments.stage)
    if arguments.what == "refused":
        text = refused(arguments.seed, stage)
    else:
        text, horizon = accepted(arguments.seed, stage)
        print(horizon, file=sys.stderr)
    sys.stdout.buffer.write(text)
    return 0


if __name__ == "__main__":
    sys.exit(main())
