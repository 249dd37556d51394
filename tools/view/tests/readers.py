"""Real readers of the formats. A test whose reader is not here says so in a line, and is skipped."""
from __future__ import annotations

import shutil
import subprocess
import sys
import unittest
from pathlib import Path


def needs(what: str, *programs: str) -> str:
    """The path of the first of these programs that is here."""
    for program in programs:
        path = shutil.which(program)
        if path is not None:
            return path
    print(f"skipped: {what}, since {' and '.join(programs)} is not here" if len(programs) == 1 else
          f"skipped: {what}, since none of {', '.join(programs)} is here", file=sys.stderr)
    raise unittest.SkipTest(f"{programs[0]} is not here")


def run(words: list[str], seconds: int = 120, **how) -> subprocess.CompletedProcess[bytes]:
    return subprocess.run(words, capture_output=True, timeout=seconds, check=False, **how)


def through_fst(dump: bytes, folder: Path) -> str:
    """The dump as GTKWave's converters read it and write it again."""
    vcd2fst = needs("the VCD in GTKWave's converter", "vcd2fst")
    fst2vcd = needs("the VCD in GTKWave's converter", "fst2vcd")
    (folder / "t.vcd").write_bytes(dump)
    there = run([vcd2fst, str(folder / "t.vcd"), str(folder / "t.fst")])
    if there.returncode != 0:
        raise AssertionError(there.stderr)
    back = run([fst2vcd, str(folder / "t.fst")])
    if back.returncode != 0:
        raise AssertionError(back.stderr)
    return back.stdout.decode()


def browser(width: int, height: int):
    """A browser without a window, by its driver. Debian keeps the driver's library for its own Python, where another one may find it."""
    needs("the page in a browser", "chromium", "chromium-browser", "google-chrome")
    needs("the page in a browser", "chromedriver")
    try:
        import selenium  # noqa: F401
    except ImportError:
        sys.path.append("/usr/lib/python3/dist-packages")
    try:
        from selenium import webdriver
        from selenium.webdriver.chrome.service import Service
    except ImportError:
        print("skipped: the page in a browser, since python3-selenium is not here", file=sys.stderr)
        raise unittest.SkipTest("selenium is not here") from None
    options = webdriver.ChromeOptions()
    options.binary_location = needs("the page in a browser", "chromium", "chromium-browser", "google-chrome")
    for word in ("--headless=new", "--no-sandbox", "--disable-gpu", f"--window-size={width},{height}"):
        options.add_argument(word)
    options.set_capability("goog:loggingPrefs", {"browser": "ALL"})
    return webdriver.Chrome(service=Service(needs("the page in a browser", "chromedriver")), options=options)
