"""Saving, exporting and opening in a real browser."""
from __future__ import annotations

import tempfile
from pathlib import Path

from .in_browser import INHERIT, InBrowser
from .served import TOP
from .waiting import waited


class Files(InBrowser):
    def setUp(self) -> None:
        super().setUp()
        holder = tempfile.TemporaryDirectory(ignore_cleanup_errors=True)
        self.addCleanup(holder.cleanup)
        self.folder = Path(holder.name)
        self.driver.execute_cdp_cmd("Browser.setDownloadBehavior", {"behavior": "allow", "downloadPath": str(self.folder)})

    def had(self, name: str) -> str:
        """What was saved under the name: chromium makes an empty file first, and renames the whole one to it."""
        file = self.folder / name
        return waited(lambda: file.read_text() if file.exists() else "", f"{name} is saved")

    def test_a_script_too_long_for_an_address(self) -> None:
        """It is there again behind a reload and by the way back, and no link is made of it."""
        self.open("#example=05_inherit")
        long = "".join(f"thread t{number} fifo 5 at {number}\n" + "    run 1\n" * 100 + "end\n" for number in range(60))
        self.write_at_once(long)
        self.until("return location.hash", "#long")
        self.does("document.getElementById('link').click()")
        self.until("return document.getElementById('state').textContent", "The script is too long for a link: save it, and hand on the file.")
        self.driver.refresh()
        self.until("return window.lab && lab.drawn", long)
        self.driver.find_element("id", "file").send_keys(str(TOP / "examples" / "03_round_robin.task"))
        self.until("return lab.drawn.includes('quantum 4')")
        self.driver.back()
        self.until("return lab.drawn", long)

    def test_save_export_and_open(self) -> None:
        self.open("#example=05_inherit")
        self.does("document.getElementById('save').click()")
        self.assertEqual(self.had("05_inherit.task"), INHERIT)
        for form in ("trace", "svg", "detail"):
            self.does("const menu = document.getElementById('export'); menu.value = arguments[0]; menu.dispatchEvent(new Event('change'))", form)
            text = self.had(f"05_inherit.{form}")
            if form == "detail":
                self.assertIn("6 waiters data high\n", text)
            else:
                self.assertEqual(text, (TOP / "examples" / f"05_inherit.{form}").read_text())
        self.driver.find_element("id", "file").send_keys(str(TOP / "examples" / "03_round_robin.task"))
        self.until("return lab.drawn.includes('quantum 4')")
        self.assertEqual(self.does("return document.getElementById('horizon').value"), "28")
        self.does("document.getElementById('save').click()")
        self.assertIn("quantum 4", self.had("03_round_robin.task"))

    def test_a_file_that_is_dropped_is_opened(self) -> None:
        """On the script, and on a picture. What was there is found by the way back; what is no script leaves it."""
        drop = """const [name, text, inPicture] = arguments, data = new DataTransfer(), where = inPicture ? document.getElementById("a").contentWindow : window;
            data.items.add(new where.File([text], name, { type: "text/plain" }));
            const on = where.document.querySelector("#picture, .CodeMirror-lines, #plain textarea");
            for (const kind of ["dragover", "drop"]) {
              const drag = new where.DragEvent(kind, { dataTransfer: data, bubbles: true, cancelable: true });
              if (on.dispatchEvent(drag)) throw new Error("the browser would open it in the place of the page");
            }"""
        self.open("#example=05_inherit")
        for in_picture in (False, True):
            mine = f"# horizon 7\nthread mine fifo {5 + in_picture} at 0\nrun 3\nend\n"
            self.does(drop, "mine.task", mine, in_picture)
            self.until("return lab.drawn", mine)
            self.assertEqual(self.script(), mine)
            self.assertEqual(self.does("return document.getElementById('horizon').value"), "7")
        self.does(drop, "large.bin", "x" * 1_048_577, False)
        self.until("return document.getElementById('state').textContent", "large.bin is no script: one has at most 1048576 bytes.")
        self.assertEqual(self.script(), mine)
        self.does("document.getElementById('save').click()")
        self.assertEqual(self.had("mine.task"), mine)

    def test_an_export_without_a_server(self) -> None:
        self.open("#example=05_inherit")
        self.lab.end()
        self.does("const menu = document.getElementById('export'); menu.value = 'trace'; menu.dispatchEvent(new Event('change'))")
        self.until("return document.getElementById('state').textContent", "the server does not answer: start bin/pse52-lab again, and give it this link")
        complaints = waited(lambda: self.driver.get_log("browser"), "the browser tells of the request")
        self.assertEqual([entry["source"] for entry in complaints], ["network"])
