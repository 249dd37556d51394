"""The course: each example is in it, in order, with two or three changes that do what they say."""
from __future__ import annotations

import tempfile
import unittest
from pathlib import Path

from explain.text import faults_of
from lab.gallery import EXAMPLES, FIRST, gallery
from lab.main import fragment_of
from simulate import Status, answer


class Gallery(unittest.TestCase):
    def test_the_order_of_the_course(self) -> None:
        names = [example.name for example in gallery()]
        self.assertEqual(sorted(names), sorted(path.stem for path in EXAMPLES.glob("*.task")))
        self.assertEqual(tuple(names[:4]), FIRST)
        self.assertEqual(names[4:], sorted(names[4:]))

    def test_one_of_the_course_is_linked_by_its_name(self) -> None:
        self.assertEqual(fragment_of(str(EXAMPLES / "04_inversion.task")), "#example=04_inversion")
        self.assertTrue(fragment_of(str(EXAMPLES / "real" / "acceptor_not_run.task")).startswith("#script="))

    def test_a_script_with_other_letters_keeps_them(self) -> None:
        with tempfile.TemporaryDirectory() as folder:
            script = Path(folder, "own.task")
            script.write_text("# für\nthread a fifo 5 at 0\nend\n", encoding="utf-8")
            self.assertTrue(fragment_of(str(script)).startswith("#script=%23%20f%C3%BCr%0A"))

    def test_an_address_without_a_script_is_no_file(self) -> None:
        with self.assertRaisesRegex(OSError, "the link has no #"):
            fragment_of("http://127.0.0.1:8000/abc/")

    def test_a_script_that_is_too_long_is_not_cut(self) -> None:
        with tempfile.TemporaryDirectory() as folder:
            script = Path(folder, "long.task")
            script.write_bytes(b"#\n" * 524_288)
            self.assertTrue(fragment_of(str(script)).startswith("#script="))
            script.write_bytes(b"#\n" * 524_288 + b"#")
            with self.assertRaisesRegex(OSError, "at most 1048576 bytes"):
                fragment_of(str(script))

    def test_each_has_two_or_three_changes(self) -> None:
        for example in gallery():
            with self.subTest(example.name):
                self.assertIn(len(example.changes), (2, 3))
                self.assertRegex(example.look, r"^Look at .*\.$")

    def test_each_change_is_of_one_place_and_changes_the_run(self) -> None:
        for example in gallery():
            _, before = answer(example.script.encode(), example.horizon, command="detail")
            for change in example.changes:
                with self.subTest(example.name, change=change.say):
                    self.assertEqual(example.script.count(change.find), 1)
                    script = change.made(example.script).encode()
                    self.assertEqual(faults_of(script), [])
                    status, after = answer(script, example.horizon, command="detail")
                    self.assertIs(status, Status.DONE)
                    if "no difference" not in change.say:
                        self.assertNotEqual(after, before)
