"""tools/whatif: small policies whose answers are worked out by hand, suppositions that verify, and bad input."""
from __future__ import annotations

import unittest

from tools.tests.base import ToolTest

RULES = """verb is / is not / is /
verb has / does not have / does / have
global
  bool the claimant [is] entitled
  bool the claimant [has] a permit
  bool the claimant [is] a citizen
  currency the income: from 0
  date the day of birth
  text the kind of permit
  number the children who count
  currency the grant
entity the child
  in global: the children
  number the child's age: from 0, to 30, decimals 0
goal the claimant is entitled
goal the grant
the claimant is entitled if
  TemporalYearsSince(the day of birth) >= 18 and
  the income < 1000 and
  any
    the claimant is a citizen or
    the claimant has a permit
the children who count = InstanceCountIf(the children, the child's age < 16)
the grant =
  0 if
    the claimant is not entitled
  100 + 50 * the children who count if
    the kind of permit = "long"
  100 otherwise
"""
CASE = """# Refused: the income is 100 too much.
answer the day of birth = 2000-03-01
answer the income = 1100
answer the claimant is a citizen = false
answer the claimant has a permit = false; from 2020-01-01 true; from 2030-01-01 false
answer the kind of permit = "short"
list the children = "Ann", "Bo"
answer the child's age of "Ann" = 12
answer the child's age of "Bo" = 16
show the grant
"""


def said(printed: str) -> list[str]:
    """What is supposed, and the value."""
    return [line for line in printed.splitlines() if line.startswith("if ")]


class WhatIfTest(ToolTest):
    tool = "whatif"

    def setUp(self) -> None:
        super().setUp()
        self.put("rules.txt", RULES)
        self.put("case.txt", CASE)

    def test_the_nearest_income(self) -> None:
        # On 2024-05-01 the claimant is 24 and has a permit: the income alone refuses, and 999.99 is the nearest cent below 1000.
        printed = self.printed("rules.txt", "case.txt", "the claimant is entitled", "--at", "2024-05-01")
        self.assertEqual(printed.splitlines()[0], "the claimant is entitled on 2024-05-01: false; wanted: true")
        self.assertEqual(said(printed), ["if the income were 999.99 (now 1100.00): true"])
        self.assertIn("\n  report the claimant is entitled at 2024-05-01\n  1 the claimant is entitled, 2024-05-01 to 2024-05-01: true, rule rules.txt:17\n", printed)
        self.put("kept.txt", "\n".join(line[2:] for line in printed.splitlines() if line.startswith("  ")) + "\n")
        import subprocess

        from tools.tests.base import OPA

        done = subprocess.run([OPA, "verify", "rules.txt", "kept.txt"], cwd=self.folder, capture_output=True, text=True)
        self.assertEqual(done.stdout, "supported: the claimant is entitled at 2024-05-01 is true\n")

    def test_two_reasons_have_no_single_answer(self) -> None:
        # On 2017-05-01 the claimant is 17 and has no permit either; the report has the first false part, the age: it alone doesn't do.
        printed = self.printed("rules.txt", "case.txt", "the claimant is entitled", "--at", "2017-05-01", status=1)
        self.assertTrue(printed.endswith("no single answer that was tried gives it\n"))

    def test_the_nearest_day_and_true_or_false(self) -> None:
        self.put("young.txt", CASE.replace("1100", "900").replace("2000-03-01", "2006-08-20"))
        # 18 on 2024-05-01 is who was born on 2006-05-01 or before.
        printed = self.printed("rules.txt", "young.txt", "the claimant is entitled", "--at", "2024-05-01", "--brief")
        self.assertEqual(said(printed), ["if the day of birth were 2006-05-01 (now 2006-08-20): true"])
        self.put("poor.txt", CASE.replace("1100", "900"))
        # On 2031-01-01 there is neither: as a citizen, or with a permit from 2030 on.
        printed = self.printed("rules.txt", "poor.txt", "the claimant is entitled", "--at", "2031-01-01", "--brief")
        first = "if the claimant has a permit were true from 2030-01-01 on (now false): true"
        self.assertEqual(sorted(said(printed)), [first, "if the claimant is a citizen were true (now false): true"])

    def test_amounts_texts_and_bounds(self) -> None:
        self.put("poor.txt", CASE.replace("1100", "900").replace('"short"', '"long"'))
        # Ann counts: 150. More is 200, if Bo is 15 or younger; no other answer gives more.
        printed = self.printed("rules.txt", "poor.txt", "the grant", "--at", "2024-05-01", "--brief")
        self.assertEqual(printed.splitlines()[0], "the grant on 2024-05-01: 150.00; wanted: > 150.00")
        self.assertEqual(said(printed), ['if the child\'s age of "Bo" were 15 (now 16): 200.00'])
        # Less than 150: Ann 16 or gone; an income of 1000; no permit; younger than 18 (born on 2006-05-02 or later). There is no text but "long".
        printed = self.printed("rules.txt", "poor.txt", "the grant", "--at", "2024-05-01", "--brief", "--want", "< 150")
        self.assertEqual(
            sorted(said(printed)),
            [
                'if Ann weren\'t among the children (now "Ann", "Bo"): 100.00',
                "if the child's age of \"Ann\" were 16 (now 12): 100.00",
                "if the claimant has a permit were false from 2020-01-01 to before 2030-01-01 (now true): 0.00",
                "if the day of birth were 2006-05-02 (now 2000-03-01): 0.00",
                "if the income were 1000.00 (now 900.00): 0.00",
            ],
        )
        # With a short permit it is 100; the text that the rules mention gives 150.
        self.put("short.txt", CASE.replace("1100", "900"))
        printed = self.printed("rules.txt", "short.txt", "the grant", "--at", "2024-05-01", "--brief", "--want", "150")
        self.assertEqual(said(printed), ['if the kind of permit were "long" (now "short"): 150.00'])

    def test_what_is_not_answered(self) -> None:
        self.put("open.txt", "answer the day of birth = 2000-03-01\nanswer the claimant is a citizen = true\n")
        printed = self.printed("rules.txt", "open.txt", "the claimant is entitled", "--at", "2024-05-01", "--brief")
        self.assertEqual(printed.splitlines()[0], "the claimant is entitled on 2024-05-01: unknown; wanted: another value")
        # With an income it is known; and of somebody under 18 it is false, whatever the income is.
        wanted = ["if the income were 0.00 (now unknown): true", "if the day of birth were 2006-05-02 (now 2000-03-01): false"]
        self.assertEqual(said(printed), wanted)

    def test_a_case_and_a_record(self) -> None:
        lines = "".join(f'"Mo" {line}\n' for line in CASE.splitlines()[1:-1])
        self.put("load.txt", lines)
        found = ["if the income were 999.99 (now 1100.00): true"]
        self.assertEqual(said(self.printed("rules.txt", "load.txt", "the claimant is entitled", "--case", "Mo", "--at", "2024-05-01", "--brief")), found)
        self.put("rows.csv", "the day of birth,the income,the claimant is a citizen\n2000-03-01,1100,true\n")
        self.assertEqual(said(self.printed("rules.txt", "rows.csv", "the claimant is entitled", "--row", "1", "--at", "2024-05-01", "--brief")), found)

    def test_it_is_so_already(self) -> None:
        self.assertIn("it is so already", self.printed("rules.txt", "case.txt", "the claimant is entitled", "--want", "false", "--at", "2024-05-01"))

    def test_bad_input(self) -> None:
        goal = "the claimant is entitled"
        self.assertEqual(self.refused("no.txt", "case.txt", goal), "whatif: there is no rulebase no.txt")
        self.assertEqual(self.refused("rules.txt", "no.txt", goal), "whatif: can't read no.txt: No such file or directory")
        self.assertEqual(self.refused("rules.txt", "case.txt", "the weather"), "whatif: rules.txt declares no the weather")
        self.assertEqual(self.refused("rules.txt", "case.txt", goal, "--at", "now"), "whatif: --at now is no date: YYYY-MM-DD")
        self.assertEqual(self.refused("rules.txt", "case.txt", goal, "--case", "Mo"), "whatif: case.txt has no open case Mo")
        self.put("loads.txt", 'load "x.json"\n')
        self.assertIn("loads.txt: load \"x.json\" isn't possible here", self.refused("rules.txt", "loads.txt", goal))
        self.assertIn('no report of the child\'s age of "Zoe" at 2024-05-01: refused: point', self.refused("rules.txt", "case.txt", 'the child\'s age of "Zoe"', "--at", "2024-05-01"))


if __name__ == "__main__":
    unittest.main()
