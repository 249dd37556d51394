"""What is told of a trace that breaks a rule of budgets: the line, the server and the rule, worked out by hand."""
from __future__ import annotations

import re
import subprocess
import sys
import tempfile
import unittest
from pathlib import Path

from explain import TOP
from explain.breach import RULES, told
from audits import audit

HEAD = "server a 10 2 4\nserver b 20 3 4\n%%\n"
BEGUN = "0 start a\n0 activate a 2\n0 dispatch a 9\n0 start b\n0 activate b 3\n2 exhaust a\n"
PLANNED = f"{BEGUN}2 plan a 2 10\n2 dispatch b 8\n4 idle\n4 plan b 2 20\n"

# A trace, the line and the rule that it breaks, and what is told of the line.
CASES = [
    ("0 start a\n0 dispatch b 8\n", 2, 1, "line 2 of the trace breaks rule 1 for the server 'b': 0 dispatch b 8"),
    ("5 start a\n4 start b\n", 2, 1, "line 2 of the trace breaks rule 1: 4 start b"),
    ("5 start a\n5 end\n5 dispatch b 8\n", 3, 1, "line 3 of the trace breaks rule 1: 5 dispatch b 8"),
    ("5 start a\n5 starts b\x1b\n", 2, 1, "line 2 of the trace breaks rule 1: 5 starts b?"),
    ("5 idle\n", 2, 1, "behind its last line, 1, the trace breaks rule 1"),
    (BEGUN + "2 plan a 1 10\n", 7, 2, "line 7 of the trace breaks rule 2 for the server 'a': 2 plan a 1 10"),
    (PLANNED + "11 refill a 2 2\n", 11, 3, "line 11 of the trace breaks rule 3 for the server 'a': 11 refill a 2 2"),
    (PLANNED + "15 start c\n", 11, 3, "line 11 of the trace breaks rule 3 for the server 'a': 15 start c"),
    (PLANNED + "25 start c\n", 11, 3, "line 11 of the trace breaks rule 3 for the servers 'a' and 'b': 25 start c"),
    (PLANNED + "10 refill a 2 2\n21 dispatch a 9\n", 12, 3, "line 12 of the trace breaks rule 3 for the server 'b': 21 dispatch a 9"),
    ("0 start a\n0 activate a 1\n", 2, 4, "line 2 of the trace breaks rule 4 for the server 'a': 0 activate a 1"),
    (BEGUN + "2 dispatch b 8\n4 idle\n", 8, 5, "line 8 of the trace breaks rule 5 for the server 'a': 4 idle"),
    (BEGUN + "2 exhaust b\n", 7, 5, "line 7 of the trace breaks rule 5 for the server 'b': 2 exhaust b"),
    ("0 end\nthread a ticks 1\n", 2, 6, "line 2 of the trace breaks rule 6 for the server 'a': thread a ticks 1"),
    ("0 end\nthread a ticks 0\n", 3, 6, "behind its last line, 2, the trace breaks rule 6 for the server 'b'"),
]


class Breaches(unittest.TestCase):
    def test_the_line_the_server_and_the_rule(self) -> None:
        for trace, line, rule, what in CASES:
            text = f"{HEAD}{trace}".encode()
            self.assertEqual(audit(text), (9, f"breach {line} {rule}\n".encode()), trace)
            self.assertEqual(told(text, line, rule), f"pse52: {what}\npse52: rule {rule} of docs/AUDIT.md: {RULES[rule]}\n")

    def test_the_rules_are_those_of_the_page(self) -> None:
        page = (TOP / "docs" / "AUDIT.md").read_text().partition("## The rules")[2].partition("\n\nAn `end`")[0]
        rules = re.findall(r"^(\d)\. (.*?)(?=\n\d\. |\Z)", page, re.M | re.S)
        self.assertEqual({int(number): " ".join(rule.split()) for number, rule in rules}, RULES)

    def test_a_long_trace_takes_no_long_time(self) -> None:
        trace = f"{BEGUN}2 plan a 2 10\n" + "2 idle\n" * 200_000 + f"{10**18} idle\n"
        self.assertTrue(told(f"{HEAD}{trace}".encode(), 200_008, 3).startswith("pse52: line 200008 of the trace breaks rule 3 for the server 'a'"))
        trace = BEGUN + "2 idle\n" * 200_000 + f"{10**18} idle\n"
        self.assertTrue(told(f"{HEAD}{trace}".encode(), 200_007, 5).startswith("pse52: line 200007 of the trace breaks rule 5: "))
        alone = f"server a 10 2 4\n%%\n{trace}".encode()
        self.assertTrue(told(alone, 200_007, 5).startswith("pse52: line 200007 of the trace breaks rule 5 for the server 'a': "))

    def test_as_a_command(self) -> None:
        with tempfile.TemporaryDirectory() as folder:
            (Path(folder) / "both").write_text("%%\n5 idle")
            ended = subprocess.run([sys.executable, str(TOP / "tools/explain/breach.py"), "2", "1", f"{folder}/both"], capture_output=True, text=True, check=True)
        self.assertIn("behind its last line, 1, the trace breaks rule 1\n", ended.stdout)


if __name__ == "__main__":
    unittest.main()
