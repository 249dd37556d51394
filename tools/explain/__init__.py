"""Every fault of a script, with its place, what was expected there, and how to mend it.

The reader of tools/reference decides what is a fault; the modules here look further than its first one and say more of each. They tell
nothing to the program or to the reference.
"""
from __future__ import annotations

import sys
from pathlib import Path

TOP = Path(__file__).resolve().parents[2]
sys.path.insert(0, str(TOP / "tools" / "reference"))
