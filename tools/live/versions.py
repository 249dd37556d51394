"""Which kernel and which library a run was made on."""
from __future__ import annotations

import os
import platform


def versions() -> dict[str, str]:
    library, version = platform.libc_ver()
    return {
        "kernel": f"{platform.system()} {platform.release()} {platform.machine()}",
        "preemption": platform.version(),
        "library": f"{library} {version}",
        "processors": str(os.cpu_count()),
    }
