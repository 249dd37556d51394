"""Lines that are trace lines each, in an order that no run of the machine has: every format still draws them."""
from __future__ import annotations

import random
import unittest

from view.main import FORMATS, drawer

from .worked import timeline_of_text

KINDS = ("dispatch {n} {p}", "idle", "start {n}", "exit {n}", "return {n} lock 0 0", "return {n} nanosleep EINTR 3", "cancel {n}",
         "deliver {n} rt3 USER 1", "activate {n} {c}", "exhaust {n}", "plan {n} {p} {d}", "refill {n} {p} {c}")


def any_trace(seed: int) -> str:
    draw = random.Random(seed)
    time, lines = 0, []
    gaps = draw.choice([[0, 0, 1], [0, 1, 5, 40], [0, 1, 10**17]])
    for _ in range(draw.randrange(1, 60)):
        time = min(10**18, time + draw.choice(gaps))
        words = draw.choice(KINDS).format(n=draw.choice(("a", "b", "c")), p=draw.randrange(1, 256), c=draw.randrange(0, 9),
                                          d=min(2 * 10**18, time + draw.randrange(-3, 30)) if time > 3 else time)
        lines.append(f"{time} {words}")
    if draw.random() < 0.2:
        lines.append(f"{time} killed rt1")
    if draw.random() < 0.7:
        lines.append(f"{time + draw.choice((0, 1, 9))} end" if time < 10**17 else f"{time} end")
        lines += [f"thread {name} ticks 3" for name in draw.sample("abcd", draw.randrange(0, 4))]
    return "\n".join(lines) + "\n"


class AnyTrace(unittest.TestCase):
    def test_every_format_draws_it(self) -> None:
        drawers = {name: drawer(name) for name in FORMATS}
        for seed in range(400):
            text = any_trace(seed)
            seen = timeline_of_text(text)
            for name, draw in drawers.items():
                try:
                    self.assertTrue(draw(*([seen, 60] if name == "text" else [seen])))
                except Exception as error:
                    raise AssertionError(f"{name}, seed {seed}:\n{text}") from error

    def test_small_ones(self) -> None:
        for text in ("0 end\n", "0 idle\n", "0 start a\n", "5 end\nthread a ticks 0\n", "1000000000000000000 end\n",
                     "0 dispatch a 1\n", "3 killed rt1\n3 end\n", "0 end\nthread a ticks 0 high 0 init 1 refilled 0 capacity 1\n"):
            seen = timeline_of_text(text)
            for name in FORMATS:
                self.assertTrue(drawer(name)(seen))


if __name__ == "__main__":
    unittest.main()
