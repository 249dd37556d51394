"""The check of the wings refuses what it is there to refuse."""
from __future__ import annotations

import tempfile
import unittest
from pathlib import Path
from unittest import mock

from pages import surface, wings


def faults_of(lines: str) -> list[str]:
    """What the check says of a list of crates, but for which folders there are."""
    with tempfile.TemporaryDirectory() as folder:
        path = Path(folder, "crates.txt")
        path.write_text(lines)
        with mock.patch.object(wings, "LIST", path):
            return [fault for fault in wings.wrong_wings() if "are not those of crates/" not in fault]


WORDS, RULES, PARTS = "# words: said\nwords_numbers:\n", "# rules: due\nrules_lists: words_numbers\n", "# parts: kept\nparts_ready: rules_lists\n"


class Wings(unittest.TestCase):
    def test_code_cites_rules_and_words(self) -> None:
        self.assertEqual(faults_of(WORDS + RULES + PARTS), [])

    def test_no_rule_cites_code(self) -> None:
        self.assertEqual(faults_of(WORDS + PARTS.replace("rules_lists", "") + RULES.replace("words_numbers", "parts_ready")),
                         ["crates.txt: rules_lists stands on parts_ready, and nothing in the wing rules may"])

    def test_no_part_cites_a_law(self) -> None:
        self.assertEqual(faults_of(WORDS + "# laws: what follows\nlaws_lists:\n" + PARTS.replace("rules_lists", "laws_lists")),
                         ["crates.txt: parts_ready stands on laws_lists, and nothing in the wing parts may"])

    def test_a_crate_stands_below_what_it_stands_on(self) -> None:
        self.assertEqual(faults_of(RULES + WORDS), ["crates.txt: rules_lists stands on words_numbers, which does not stand above it"])

    def test_a_name_tells_the_wing(self) -> None:
        self.assertEqual(faults_of("# words: said\nnumbers:\n"), ["crates.txt: numbers has not the name of its wing, words"])


class Surface(unittest.TestCase):
    def test_a_call_with_its_comment_and_its_clauses(self) -> None:
        with tempfile.TemporaryDirectory() as folder:
            path = Path(folder, "kernel.rt")
            path.write_text("impl Kernel {\n    /// The instant, in ticks.\n    #[inline(always)]\n    pub fn now(\n        &self,\n    ) -> Tick\n"
                            "        requires { self.now ≡\n            1 }\n\n        // why\n        ensures { result ≡ 1 }\n    {\n        1\n    }\n}\n\n"
                            "/// Apart.\npub fn apart() -> u8\n    ensures { result ≡ 2 }\n{\n    2\n}\n\npub fn untold() {\n}\n")
            first, second = surface.calls_of(path)
        self.assertEqual((first.owner, first.name, first.signature), ("Kernel", "now", "(&self) -> Tick"))
        self.assertEqual((first.comment, first.clauses), ("The instant, in ticks.", ["requires { self.now ≡\n    1 }", "ensures { result ≡ 1 }"]))
        self.assertEqual((second.owner, second.name, second.clauses), (None, "apart", ["ensures { result ≡ 2 }"]))


if __name__ == "__main__":
    unittest.main()
