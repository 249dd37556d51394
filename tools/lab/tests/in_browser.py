"""The page in a real browser, as the tests of it use it.

With PSE52_SHOTS in the environment, the name of a folder, it keeps what the browser shows there as pictures to be looked at.
"""
from __future__ import annotations

import os
import unittest
from pathlib import Path

from lab.parts import CODEMIRROR, OF_CODEMIRROR
from view.tests.readers import browser

from .served import TOP, Served
from .waiting import LONGEST, waited

# Counts the runs that the page asks for, and those whose answer it has dealt with: what follows an answer has gone before a timer's turn.
COUNTING = """if (window.asked === undefined) {
  const fetched = window.fetch;
  window.fetch = async (...words) => {
    asked += 1;
    const answer = await fetched(...words), read = answer.json.bind(answer);
    answer.json = () => read().finally(() => setTimeout(() => { answered += 1; }));
    return answer;
  };
}
window.asked = window.answered = 0;"""
INHERIT = (TOP / "examples" / "05_inherit.task").read_text()


def has_codemirror() -> bool:
    return all((CODEMIRROR / name).is_file() for name in OF_CODEMIRROR)


class InBrowser(unittest.TestCase):
    words: tuple[str, ...] = ()
    size = (1400, 900)

    @property
    def is_plain(self) -> bool:
        """Whether the script is in a text area."""
        return "--plain" in self.words or not has_codemirror()

    def setUp(self) -> None:
        self.driver = browser(*self.size)
        self.addCleanup(self.driver.quit)
        self.driver.set_script_timeout(LONGEST)
        self.lab = Served(*self.words)
        self.addCleanup(self.lab.end)
        self.addCleanup(self.no_complaint)

    def no_complaint(self) -> None:
        self.assertEqual(self.driver.get_log("browser"), [])

    def open(self, fragment: str = "") -> None:
        """Opens the page, and waits for its first picture."""
        self.driver.get("about:blank")
        self.driver.get(self.lab.address + fragment)
        self.until("return window.lab && lab.drawn !== ''")

    def does(self, script: str, *words: object) -> object:
        return self.driver.execute_script(script, *words)

    def until(self, script: str, wanted: object = True) -> None:
        """Waits for what the script says. What it asks of a page that is not there yet, it asks again."""
        from selenium.common.exceptions import JavascriptException

        said: object = None

        def is_wanted() -> bool:
            nonlocal said
            try:
                said = self.does(script)
            except JavascriptException as error:
                said = error.msg
            return said == wanted

        try:
            waited(is_wanted, script)
        except AssertionError:
            self.assertEqual(said, wanted, script)

    def count_runs(self) -> None:
        """From here on `until_answered` knows of each run that the page asks for."""
        self.does(COUNTING)

    def until_answered(self) -> None:
        """Waits until the page has dealt with the answer to each run that it asked for."""
        self.until("return asked > 0 && asked === answered")

    def shot(self, name: str) -> None:
        if "PSE52_SHOTS" in os.environ:
            self.driver.execute_async_script("requestAnimationFrame(() => requestAnimationFrame(() => setTimeout(arguments[0])))")
            self.driver.save_screenshot(str(Path(os.environ["PSE52_SHOTS"]) / f"{name}.png"))

    def press(self, *keys: str) -> None:
        """Presses keys where the focus is."""
        from selenium.webdriver.common.action_chains import ActionChains

        ActionChains(self.driver).send_keys(*keys).perform()

    def text(self, of: str) -> str:
        return str(self.does("return document.querySelector(arguments[0]).textContent", of))

    def in_frame(self, script: str, frame: str) -> object:
        """What an expression says in the frame of a picture."""
        self.driver.switch_to.frame(frame)
        try:
            return self.driver.execute_script(f"return {script}")
        finally:
            self.driver.switch_to.default_content()

    def table(self, title: str, frame: str = "a") -> list[str]:
        return list(self.in_frame(f"[...document.querySelectorAll('table[data-what^=\"{title}\"] tr')].map((row) => [...row.cells].map((cell) => cell.textContent).join(' | '))", frame))

    def script(self) -> str:
        return str(self.does("const code = document.querySelector('.CodeMirror'); return code ? code.CodeMirror.getValue() : document.querySelector('#plain textarea').value"))

    def cursor_at(self, words: str, further: int) -> None:
        """Sets the cursor of the script where these words begin, and some letters further."""
        at = self.script().index(words) + further
        self.does("""const code = document.querySelector('.CodeMirror')?.CodeMirror, area = document.querySelector('#plain textarea');
            if (code) { code.focus(); code.setCursor(code.posFromIndex(arguments[0])); } else { area.focus(); area.setSelectionRange(arguments[0], arguments[0]); }""", at)

    def undo(self) -> None:
        from selenium.webdriver.common.action_chains import ActionChains
        from selenium.webdriver.common.keys import Keys

        ActionChains(self.driver).key_down(Keys.CONTROL).send_keys("z").key_up(Keys.CONTROL).perform()

    def write(self, text: str) -> None:
        """Empties the script, and types another one, as a user who does not want lines to be indented."""
        from selenium.webdriver.common.action_chains import ActionChains
        from selenium.webdriver.common.keys import Keys

        self.does("document.querySelector('.CodeMirror, #plain textarea').CodeMirror?.focus(); document.querySelector('#plain textarea')?.focus()")
        ActionChains(self.driver).key_down(Keys.CONTROL).send_keys("a").key_up(Keys.CONTROL).send_keys(Keys.DELETE).perform()
        for line in text.splitlines(keepends=True):
            self.press(line)
        self.until("return lab.drawn", self.script())

    def write_at_once(self, text: str) -> None:
        self.does("""const code = document.querySelector('.CodeMirror'), area = document.querySelector('#plain textarea');
            if (code) code.CodeMirror.setValue(arguments[0]); else { area.value = arguments[0]; area.dispatchEvent(new Event('input')); }""", text)
