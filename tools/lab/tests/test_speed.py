"""How soon the page shows what is typed, and how fluid a long run is.

What makes it so is judged by counts: of the runs that a key asks for, and of what a frame draws. The times themselves are told, and are judged
only with PSE52_SPEED in the environment, on a machine that does nothing else.
"""
from __future__ import annotations

import os
from pathlib import Path
from statistics import median

from .in_browser import InBrowser, has_codemirror

# How long a picture may take from the last key on, and a frame while a long run is stepped through, in milliseconds.
PICTURE, FRAME = 200, 100
# How much a frame may draw: some things in each column of 3 pixels of the rows in sight, however long the run is.
MOST_DRAWN = 12_000
COUNTING_DRAWN = """window.drawn = 0;
for (const name of ["fillRect", "strokeRect", "fillText", "lineTo", "fill", "stroke", "drawImage"]) {
  const draws = CanvasRenderingContext2D.prototype[name];
  CanvasRenderingContext2D.prototype[name] = function (...words) { window.drawn += 1; return draws.apply(this, words); };
}"""
KEYS = 5
DRAWN = "return lab.drawn === document.querySelector('.CodeMirror').CodeMirror.getValue()"
NAMES = "return fetch('about.json').then((said) => said.json()).then((about) => about.gallery.map((one) => one.name))"


class Speed(InBrowser):
    def setUp(self) -> None:
        if not has_codemirror():
            print("skipped: how fast the page to work in is, since libjs-codemirror is not here")
            self.skipTest("libjs-codemirror is not here")
        super().setUp()

    def choose(self, example: str) -> None:
        self.does("const menu = document.getElementById('gallery'); menu.value = arguments[0]; menu.dispatchEvent(new Event('change'))", example)
        self.until(DRAWN)

    def latencies(self) -> list[float]:
        """At the number of the first `run` a digit is typed and taken away, again and again."""
        from selenium.webdriver.common.keys import Keys

        lines = self.script().splitlines()
        line = next(number for number, text in enumerate(lines) if text.split()[:1] == ["run"])
        self.does("const code = document.querySelector('.CodeMirror').CodeMirror; code.focus(); code.setCursor(arguments[0], 999)", line)
        took = []
        for number in range(KEYS):
            before = self.in_frame("data.lines.join()", "a")
            self.count_runs()
            self.press("7" if number % 2 == 0 else Keys.BACKSPACE)
            self.assertEqual(self.does("return asked"), 1)  # at once, and not when some time has gone
            self.until(DRAWN)
            self.changes += self.in_frame("data.lines.join()", "a") != before
            took.append(float(str(self.does("return lab.latency"))))
        return took

    def judge(self, what: str, figures: dict[str, list[float]]) -> None:
        """What the page itself takes is seen of the quickest, since other work and a slow host delay the others: these are only told."""
        load = os.getloadavg()[0]
        middle, least = (max(figures, key=lambda name: of(figures[name])) for of in (median, min))
        print(f"{what}, {len(figures)} examples: at most {median(figures[middle]):.0f} ms in the middle ({middle}), "
              f"{min(figures[least]):.0f} ms at the quickest ({least}); load {load:.1f}")
        if "PSE52_SHOTS" in os.environ:
            rows = [f"{name:24} middle {median(took):5.0f} ms, least {min(took):5.0f}, greatest {max(took):5.0f}\n" for name, took in figures.items()]
            (Path(os.environ["PSE52_SHOTS"]) / f"{self.id().rpartition('.')[2]}.txt").write_text(f"{what}; load {load:.1f}\n" + "".join(rows))
        if "PSE52_SPEED" in os.environ:
            self.assertLess(min(figures[least]), PICTURE)

    def test_from_the_last_key_to_the_picture(self) -> None:
        self.open()
        self.changes, figures = 0, {}
        for example in self.does(NAMES):
            self.choose(example)
            figures[example] = self.latencies()
            self.assertTrue(all(figures[example]))
        # Some runs are the same with another number, where the thread does not come so far.
        self.assertGreater(self.changes, len(figures) * KEYS * 3 / 4)
        self.judge("from a key to the picture", figures)

    def test_from_the_last_key_of_a_word(self) -> None:
        """Ten keys within less than a second, as they are typed: of the last one the picture is as soon there."""
        self.open()
        figures: dict[str, list[float]] = {}
        for example in ("20_controller", "13_server_and_polling", "one_thread"):
            self.choose(example)
            self.does("const code = document.querySelector('.CodeMirror').CodeMirror; code.focus(); code.setCursor(0, 999)")
            for _ in range(KEYS):
                self.count_runs()
                self.press(*"0123456789")
                self.until(DRAWN)
                self.until_answered()
                self.assertLessEqual(self.does("return asked"), 10)
                figures.setdefault(example, []).append(float(str(self.does("return lab.latency"))))
        self.judge("from the last of ten keys to the picture", figures)

    def test_a_long_run_stays_fluid(self) -> None:
        """64 threads and 100,000 lines: stepping, zooming and panning, each up to the end of its frame."""
        bodies = (f"thread t{number} sporadic {163 - number} 2 60 2 4 at {number}\nforever\nnanosleep 63\nend\nend\n" for number in range(64))
        self.open()
        self.does("document.getElementById('horizon').value = '41000'; document.querySelector('.CodeMirror').CodeMirror.setValue(arguments[0])", "".join(bodies))
        self.until(DRAWN)
        lines, threads = self.in_frame("data.lines.length", "a"), self.in_frame("data.threads.length", "a")
        self.shot("long")
        self.assertEqual(threads, 64)
        self.assertGreaterEqual(lines, 100_000)
        self.driver.switch_to.frame("a")
        self.driver.execute_script(COUNTING_DRAWN)
        frames = self.driver.execute_async_script("""const done = arguments[arguments.length - 1], took = {};
            const next = () => new Promise((go) => requestAnimationFrame(() => setTimeout(go)));
            const timed = async (does, n) => { await next(); window.drawn = 0; const began = performance.now(); does(n); await next(); return [performance.now() - began, window.drawn]; };
            const measure = async (name, does) => { took[name] = []; for (let n = 0; n < 25; n++) took[name].push(await timed(does, n)); };
            (async () => {
              goTo(20000n);
              await measure("the slider", (n) => { slider.value = n / 25; slider.dispatchEvent(new Event("input")); });
              goTo(20000n);
              await measure("a step", () => KEYS.ArrowRight()); await measure("an event", () => KEYS.n());
              await measure("zoom", () => zoom(1.5, 400)); await measure("pan", () => { left += 20 / scale; clampView(); draw(); });
              await measure("zoom out", () => zoom(1 / 1.5, 400));
              done(took);
            })();""")
        self.driver.switch_to.default_content()
        self.shot("long_zoomed")
        figures = {name: median(took for took, _ in of) for name, of in frames.items()}
        least = {name: min(took for took, _ in of) for name, of in frames.items()}
        drawn = {name: max(drawn for _, drawn in of) for name, of in frames.items()}
        print(f"a frame of {threads} threads and {lines} lines: " + ", ".join(f"{name} {figure:.0f} ms (least {least[name]:.0f})" for name, figure in figures.items()))
        self.assertLess(max(drawn.values()), MOST_DRAWN, drawn)
        if "PSE52_SPEED" in os.environ:
            self.assertLess(max(least.values()), FRAME)
