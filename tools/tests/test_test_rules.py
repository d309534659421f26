"""tools/test_rules: each sort of test, passed and failed, its three forms of output, and bad input."""
from __future__ import annotations

import unittest
import xml.etree.ElementTree as xml

from tools.tests.base import ToolTest

RULES = """verb is / is not / is /
global
  bool the claimant [is] entitled
  bool the claimant [is] an adult
  currency the fee: from 0
  text the name
goal the claimant is entitled
the claimant is entitled if
  the claimant is an adult and
  the fee < 100
"""
EXPECT = """# Lines that a person reads.
list_line
answer the claimant is an adult = true
answer the fee = 40; from 2024-05-01 140
expect the fee = 40; from 2024-05-01 140.00
expect the fee at 2024-04-30 = 40
expect the claimant is entitled = true; from 2024-05-01 false
expect the claimant is entitled at 2024-05-01 = false
answer the name = "a = b"
expect the name = "a = b"
withdraw the fee
expect the claimant is entitled at 2024-05-01 = unknown
""".replace("list_line\n", "\n")


class TestRulesTest(ToolTest):
    tool = "test_rules"

    def setUp(self) -> None:
        super().setUp()
        self.put("rules.txt", RULES)

    def all_sorts(self) -> None:
        self.put("rules_input.txt", "answer the claimant is an adult = false\ngoals\n")
        self.put("rules_output.txt", "the claimant is entitled: false (settled)\n")
        self.put("rules_asked_replies.txt", "false\n")
        self.put("rules_asked_output.txt", "[Questions] is the claimant an adult?\nthe claimant is entitled: false (settled)\n")
        self.put("rules_batch.csv", "the claimant is an adult\nfalse\n")
        self.put("rules_batch_output.csv", "row,the claimant is entitled,fault\n1,false,\n")
        self.put("rules_caseload.txt", '"A" answer the claimant is an adult = false\n"A" goals\n')
        self.put("rules_caseload_output.txt", '"A" the claimant is entitled: false (settled)\n')
        self.put("rules_expect.txt", EXPECT)

    def test_all_sorts_pass(self) -> None:
        self.all_sorts()
        self.assertEqual(self.printed("."), "5 passed, 0 failed\n")
        self.assertEqual(self.printed(".", "--only", "rules_asked"), "1 passed, 0 failed\n")

    def test_a_transcript_that_differs(self) -> None:
        self.all_sorts()
        self.put("rules_caseload_output.txt", '"A" the claimant is entitled: true (settled)\n')
        printed = self.printed(".", status=1)
        self.assertIn("--- rules_caseload_output.txt: expected\n+++ rules_caseload.txt: printed\n", printed)
        self.assertIn('\n-"A" the claimant is entitled: true (settled)\n+"A" the claimant is entitled: false (settled)\n', printed)
        self.assertTrue(printed.endswith("4 passed, 1 failed\n"))

    def test_expect_lines_that_fail(self) -> None:
        lines = ["answer the fee = -1", "answer the fee = 40; from 2024-05-01 140", "expect the fee at 2024-05-01 = 40", "expect the fee = 40"]
        lines += ["expect the weather = 1", "expect the fee = 40; from 2024-05-02 140"]
        self.put("rules_expect.txt", "\n".join(lines) + "\n")
        shown = "printed the fee: 40.00; from 2024-05-01 140.00"
        self.assertEqual(
            self.printed(".", status=1).splitlines(),
            [
                "rules_expect.txt:1: refused: change 3: answer the fee = -1",
                f"rules_expect.txt:3: expected the fee at 2024-05-01 = 40, {shown}",
                f"rules_expect.txt:4: expected the fee = 40, {shown}",
                "rules_expect.txt:5: expected the weather = 1, printed refused: command 2",
                f"rules_expect.txt:6: expected the fee = 40; from 2024-05-02 140, {shown}",
                "0 passed, 1 failed",
            ],
        )

    def test_a_rulebase_that_is_refused_fails(self) -> None:
        self.put("rules.txt", "hello\n")
        self.put("rules_expect.txt", EXPECT)
        self.assertEqual(self.printed(".", status=1), "rules_expect.txt: refused: rulebase 2 rules.txt:1\n0 passed, 1 failed\n")

    def test_tap(self) -> None:
        self.all_sorts()
        self.put("rules_expect.txt", "expect the fee = 1\n")
        lines = ["TAP version 13", "1..5", "ok 1 - rules_input.txt", "ok 2 - rules_asked_replies.txt", "ok 3 - rules_batch.csv"]
        lines += ["ok 4 - rules_caseload.txt", "not ok 5 - rules_expect.txt", "# rules_expect.txt:1: expected the fee = 1, printed the fee: unknown"]
        self.assertEqual(self.printed(".", "--tap", status=1).splitlines(), lines)

    def test_junit(self) -> None:
        self.all_sorts()
        self.put("rules_expect.txt", "expect the fee = 1\n")
        self.printed(".", "--junit", "found.xml", status=1)
        suite = xml.parse(self.folder / "found.xml").getroot()[0]
        self.assertEqual((suite.get("tests"), suite.get("failures")), ("5", "1"))
        self.assertEqual([case.get("name") for case in suite if case.find("failure") is not None], ["rules_expect.txt"])
        self.assertEqual(self.refused(".", "--junit", "found.xml"), "test_rules: found.xml already exists; --force overwrites it")

    def test_bad_input(self) -> None:
        self.assertEqual(self.refused("nowhere"), "test_rules: nowhere is no folder")
        self.assertIn("test_rules: . has no test: no file that ends with one of _input.txt", self.refused("."))
        self.put("rules_input.txt", "goals\n")
        self.assertEqual(self.refused("."), "test_rules: can't read rules_output.txt: No such file or directory")
        self.put("rules_output.txt", "the claimant is entitled: unknown (undecided)\n")
        self.put("rules_expect.txt", "expect the fee\n")
        self.assertIn("test_rules: rules_expect.txt:1: an expect line is", self.refused("."))
        self.put("rules_expect.txt", "goals\n")
        self.assertIn("test_rules: rules_expect.txt:1: goals isn't a command of a test with expect lines", self.refused("."))


if __name__ == "__main__":
    unittest.main()
