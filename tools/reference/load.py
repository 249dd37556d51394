"""The generated load: the script of a number, for long runs of many threads.

    python3 tools/reference/load.py gen S
    python3 tools/reference/load.py soak S N

`gen` writes the canonical text, `soak` the closing lines of its run to tick N.
"""
from __future__ import annotations

import sys

from machine import Machine
from reader import read
from trace import closing_lines

MODULUS = 65_537


class Draws:
    """The numbers that are drawn, one after another, from the number of the script."""

    def __init__(self, number: int) -> None:
        self.state = number % MODULUS

    def draw(self, count: int) -> int:
        """The next number below `count`."""
        self.state = (75 * self.state + 74) % MODULUS
        return self.state % count


def make(number: int) -> str:
    """The canonical text of the script of that number."""
    draws = Draws(number)
    lines = [f"quantum {1 + draws.draw(8)}", "mutex m0 inherit", "mutex m1 protect 255", "sem s0 0",
             "queue q0 8 64 nonblock"]
    for thread in range(1 + number % 64):
        lines += thread_lines(draws, thread)
    return "".join(line + "\n" for line in lines)


def thread_lines(draws: Draws, thread: int) -> list[str]:
    """One thread; the draws are made in a fixed order."""
    draw = draws.draw
    kind, priority = draw(3), 2 + draw(200)
    policy = f"{('fifo', 'rr', 'sporadic')[kind]} {priority}"
    if kind == 2:
        policy += f" 1 50 {1 + draw(10)} {1 + draw(16)}"
    start, work, deed = draw(100), 1 + draw(9), draw(4)
    steps = deed_steps(deed, 1 + draw(5) if deed in (0, 1) else 0)
    return [f"thread t{thread} {policy} at {start}", "forever", f"run {work}", *steps,
            f"nanosleep {1 + draw(500)}", "end", "end"]


def deed_steps(deed: int, ticks: int) -> list[str]:
    if deed in (0, 1):
        return [f"lock m{deed}", f"run {ticks}", f"unlock m{deed}"]
    return ["sem_post s0", "mq_send q0 8 1 1"] if deed == 2 else ["mq_receive q0"]


def soak(number: int, horizon: int) -> str:
    script, _ = read(make(number).encode())
    assert script is not None
    machine = Machine(script)
    machine.run_until(horizon)
    return closing_lines(machine)


def main(words: list[str]) -> int:
    match words:
        case ["gen", number]:
            sys.stdout.write(make(int(number)))
        case ["soak", number, horizon]:
            sys.stdout.write(soak(int(number), int(horizon)))
        case _:
            sys.stdout.write("usage: pse52 COMMAND NUMBERS\n")
            return 1
    return 0


if __name__ == "__main__":
    sys.exit(main(sys.argv[1:]))
