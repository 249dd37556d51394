#!/usr/bin/env python3
"""Tells where a built program waits: where samples of its time are more than the instructions that run there.

    python3 tools/bench/stalls.py PROGRAM LOAD            the ten places where most time is lost, of the first load with this in its name
    python3 tools/bench/stalls.py PROGRAM LOAD --places 5 --longer 20

The time is sampled by `perf record` in a run to ten times the load's horizon (`--longer`), the instructions are counted by valgrind in
one to a twentieth of it. A copy that reads in one piece what was just stored in several shows as a place with many samples and few
instructions; the sample stands at the instruction behind the one that waited. Each place is told with its share of all samples, how much
of it is more than its instructions account for, and the lines of `objdump` before it, each with how often it ran.

It needs perf (Debian's linux-perf), valgrind and objdump.
"""
from __future__ import annotations

import argparse
import re
import subprocess
import sys
import tempfile
from collections import Counter
from dataclasses import dataclass
from pathlib import Path

from loads import LOADS, Load
from timing import shortened

PAGE = 0x1000  # by so much an address in a mapped file may differ from that of its instruction
BEFORE = 5  # instructions that are shown before a place


@dataclass(frozen=True)
class Code:
    """The instructions of a program: address and text, and at which place of the list an address stands."""

    lines: list[tuple[int, str]]
    place: dict[int, int]


def code_of(program: str) -> Code:
    told = subprocess.run(["objdump", "-d", "--no-show-raw-insn", program], capture_output=True, text=True, check=True).stdout
    found = re.findall(r"^\s+([0-9a-f]+):\s+([^#\n]*)", told, re.M)
    lines = [(int(address, 16), text.strip()) for address, text in found]
    return Code(lines, {address: number for number, (address, _) in enumerate(lines)})


def script_of(load: Load) -> bytes:
    return load.script if isinstance(load.script, bytes) else load.script.encode()


def samples_of(program: str, load: Load, longer: int, room: Path) -> tuple[Counter[int], int]:
    """How many samples of the time stand at each address of the program, and how many there are in all."""
    words = [*load.words[:-1], str(int(load.words[-1]) * longer)]
    record = ["perf", "record", "-q", "-F", "5000", "-e", "cpu-clock", "-o", str(room / "samples"), program, *words]
    subprocess.run(record, input=script_of(load), stdout=subprocess.DEVNULL, check=True)
    shown = ["perf", "script", "-i", str(room / "samples"), "-F", "ip,dso", "--show-mmap-events"]
    told = subprocess.run(shown, capture_output=True, text=True, check=True).stdout
    name, base, found, count = Path(program).name, 0, Counter[int](), 0
    for line in told.splitlines():
        mapped = re.search(r"PERF_RECORD_MMAP2.*?\[0x([0-9a-f]+)\(0x[0-9a-f]+\) @ (0x[0-9a-f]+|0) .*r-xp (\S+)", line)
        if mapped and Path(mapped[3]).name == name:
            base = int(mapped[1], 16) - int(mapped[2], 16)
        sample = re.match(r"\s*([0-9a-f]+)\s+\((.*)\)", line)
        if sample:
            count += 1
            if Path(sample[2]).name == name:
                found[int(sample[1], 16) - base] += 1
    return found, count


def counts_of(program: str, load: Load, room: Path) -> Counter[int]:
    """How often each instruction of the program runs, by its address."""
    short = shortened(load)
    command = ["valgrind", "--tool=callgrind", "--dump-instr=yes", f"--callgrind-out-file={room / 'counts'}", program, *short.words]
    subprocess.run(command, input=script_of(short), stdout=subprocess.DEVNULL, stderr=subprocess.DEVNULL, check=True)
    name, files, here, last, is_call, found = Path(program).name, {}, "", 0, False, Counter[int]()
    for line in (room / "counts").read_text(encoding="utf-8").splitlines():
        file = re.match(r"(c?)ob=(\(\d+\))(?:\s+(\S+))?", line)
        if file:
            if file[3]:
                files[file[2]] = Path(file[3]).name
            if not file[1]:
                here = files.get(file[2], "")
            continue
        if line.startswith("calls="):
            is_call = True
            continue
        cost = re.match(r"(0x[0-9a-f]+|[+-]\d+|\*)\s+\S+\s+(\d+)$", line)
        if cost:
            if cost[1] != "*":
                last = int(cost[1], 16) if cost[1].startswith("0x") else last + int(cost[1])
            # the line behind a call has the cost of what was called
            if not is_call and here == name:
                found[last] += int(cost[2])
            is_call = False
    return found


def at_instructions(found: Counter[int], code: Code) -> Counter[int]:
    """The same at the addresses of instructions, from which those of a mapped file differ by a page or by where it was mapped."""
    common = [address for address, _ in found.most_common(300)]
    shifts = [0, PAGE, -PAGE, 2 * PAGE, -2 * PAGE, code.lines[0][0] - min(found)]
    best = max(shifts, key=lambda shift: sum(address + shift in code.place for address in common))
    return Counter({address + best: count for address, count in found.items()})


def main() -> int:
    words = argparse.ArgumentParser(description=__doc__, formatter_class=argparse.RawDescriptionHelpFormatter)
    words.add_argument("program")
    words.add_argument("load")
    words.add_argument("--longer", type=int, default=10, help="by how much the run is longer in which the time is sampled (10)")
    words.add_argument("--places", type=int, default=10)
    said = words.parse_args()
    load = next((load for load in LOADS if said.load in load.name), None)
    if load is None:
        print(f"no load has '{said.load}' in its name", file=sys.stderr)
        return 2
    code = code_of(said.program)
    with tempfile.TemporaryDirectory() as name:
        found, in_all = samples_of(said.program, load, said.longer, Path(name))
        samples, counts = at_instructions(found, code), at_instructions(counts_of(said.program, load, Path(name)), code)
    a_sample = sum(samples.values()) / sum(counts.values())
    lost = {address: count - counts[address] * a_sample for address, count in samples.items()}
    print(f"{load.name}: {in_all} samples")
    for address in sorted(lost, key=lost.__getitem__, reverse=True)[: said.places]:
        print(f"{address:x}: {100 * samples[address] / in_all:.1f}% of the time, {100 * lost[address] / in_all:.1f}% more than its instructions")
        at = code.place.get(address, 0)
        for here, text in code.lines[max(0, at - BEFORE) : at + 1]:
            print(f"    {here:8x} {counts[here]:10} {text}")
    return 0


if __name__ == "__main__":
    sys.exit(main())
