"""Scripts on real threads of this machine's kernel, beside the trace that is due. The command is bin/pse52-live.

The modules of tools/reference are imported by their own names.
"""
import sys
from pathlib import Path

TOP = Path(__file__).resolve().parents[2]
sys.path.insert(0, str(TOP / "tools" / "reference"))
