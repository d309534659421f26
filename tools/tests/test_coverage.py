"""tools/coverage: the example permit.txt worked out by hand, a small policy of all forms worked out by hand, and bad input."""
from __future__ import annotations

import pathlib
import sys
import unittest

from tools.tests.base import DESK, EXAMPLES, OPA, TOP, ToolTest

sys.path.insert(0, str(TOP / "tools"))

# Of permit_replies.txt: the street false, from 2024-05-01 true; a car; no garage, from 2025-01-01 a garage; the car is 4.2 metres long.
# So the goal "entitled" is false by the street (line 21), then true by lines 21, 22 and 23, then false by the garage (23). The fee has three
# days with the same pattern: first and last `entitled` is false (line 26), both rows are false, and `otherwise` (30) gives 0; between
# them `entitled` is true and the length decides that row 25 isn't taken (line 27), so row 28 gives 60. Nobody reaches row 25.
PERMIT = {
    ("rule", 20), ("operand", 21), ("operand", 22), ("operand", 23),
    ("rule", 24), ("operand", 26), ("operand", 27), ("row", 28), ("row", 30),
}  # fmt: skip
PERMIT_MISSED = {("row", 25)}

RULES = """verb is / is not / is /
global
  bool the family [is] eligible
  currency the money
  number the score
  number the rate
  bool the door [is] open
  date the day of the claim
  number the late value
entity the child
  in global: the children
  bool the child [is] at school
  number the child's age
  every_line
goal the family is eligible
goal the money
table "rates.csv"
members the older from the roll if
  any
    the child's age > 10 or
    the child is at school
the family is eligible if
  any
    both
      InstanceCount(the older) > 0 and
      the score > 3
    or
    for all of the children
      either
        the child's age < 3 or
        the child is not at school
the money = Round(100 * the rate, 0)
the late value =
  1 if
    (the door is open and the score > 100)
  2 otherwise
""".replace("  every_line\n", "global\n  every the roll: the child\n")
# By hand, over the input below: Ann is 12 and at school, Bo is 2 and not. The condition of the members list is true of Ann by her age (the
# first true operand of its `any`, line 21), and false of Bo by both operands (21 and 22). Both lines of `both` are true (26 and 27) with the
# score 5, so the first operand of the rule's `any` is true, whose head is line 25. Its other operand (29) isn't needed, so 29, 31 and 32 aren't
# reached. The rate is that of the second record, line 3, for the score 5. Nothing asks for the late value (lines 34 to 37).
REACHED = {
    ("small.txt", "operand", 21), ("small.txt", "operand", 22), ("small.txt", "rule", 23), ("small.txt", "operand", 25),
    ("small.txt", "operand", 26), ("small.txt", "operand", 27), ("small.txt", "rule", 33), ("rates.csv", "rule", 1), ("rates.csv", "record", 3),
}  # fmt: skip
MISSED = {
    ("small.txt", "operand", 29), ("small.txt", "operand", 31), ("small.txt", "operand", 32), ("small.txt", "rule", 34), ("small.txt", "row", 35),
    ("small.txt", "operand", 36), ("small.txt", "row", 37), ("rates.csv", "record", 2), ("rates.csv", "record", 4),
}  # fmt: skip
INPUT = """list the children = "Ann", "Bo"
answer the child's age of "Ann" = 12
answer the child's age of "Bo" = 2
answer the child is at school of "Ann" = true
answer the child is at school of "Bo" = false
answer the score = 5
goals
"""


class CoverageTest(ToolTest):
    tool = "coverage"

    def found(self, folder: pathlib.Path, only: list[str]):
        from policy import covered, programs

        return covered.cover(programs.Programs(OPA, DESK), folder, only, checks=True)

    def test_permit_by_hand(self) -> None:
        self.take("permit.txt", "permit_replies.txt")
        made = self.found(self.folder, [])
        self.assertEqual({(item.kind, item.line) for item in made.items.values() if item.is_reached}, PERMIT)
        self.assertEqual({(item.kind, item.line) for item in made.items.values() if not item.is_reached}, PERMIT_MISSED)
        self.assertEqual(made.untold, [])

    def test_the_examples(self) -> None:
        """Each rule, row, record and operand of the example policies is reached, and each line of a report is worked out as it is printed."""
        from policy import covered, programs

        made = covered.cover(programs.Programs(OPA, DESK), EXAMPLES, [])
        missed = [f"{item.file}:{item.line}: {item.kind} {item.text}" for item in made.items.values() if not item.is_reached]
        self.assertEqual((missed, made.untold), ([], []))

    def test_permit_as_text(self) -> None:
        self.take("permit.txt", "permit_replies.txt", "permit_output.txt")
        said = self.printed(".", "--sides")
        self.assertIn(" 90.0 %  permit.txt: 2 of 2 rules, 2 of 3 rows, 5 of 5 operands\n", said)
        self.assertIn("never reached:\n  permit.txt:25: row 90 if\n\n", said)
        sides = said.split("one side only:\n")[1].splitlines()
        self.assertEqual([line.rsplit(":", 1)[0].strip() for line in sides], ["permit.txt:22: only ever true", "permit.txt:26: only ever false", "permit.txt:27: only ever false"])
        self.assertIn(" 90.0 %", self.printed(".", "--fail-under", "90"))
        self.assertIn(" 90.0 %", self.printed(".", "--fail-under", "90.1", status=1))

    def small(self, given: str) -> None:
        self.put("small.txt", RULES)
        self.put("rates.csv", "the score,= the rate\n>= 100,3\n>= 5,2\notherwise,1\n")
        self.put("small_input.txt", given)

    def test_all_forms_by_hand(self) -> None:
        self.small(INPUT)
        made = self.found(self.folder, [])
        self.assertEqual({(item.file, item.kind, item.line) for item in made.items.values() if item.is_reached}, REACHED)
        self.assertEqual({(item.file, item.kind, item.line) for item in made.items.values() if not item.is_reached}, MISSED)
        self.assertEqual(made.untold, [])

    def test_what_is_not_printed_reaches_nothing(self) -> None:
        # Without the score the late value is unknown, and what is unknown decides nothing.
        self.small(INPUT.replace("answer the score = 5\ngoals\n", "show the late value\n"))
        self.assertEqual({(item.kind, item.line) for item in self.found(self.folder, []).items.values() if item.is_reached}, set())
        # With it only the late value is asked for. The score 5 isn't over 100: the second operand decides alone that the first row isn't taken.
        self.small(INPUT.replace("goals\n", "report the late value at 2024-01-01\n"))
        reached = {(item.kind, item.line, item.text) for item in self.found(self.folder, []).items.values() if item.is_reached}
        self.assertEqual(reached, {("rule", 34, "the late value"), ("operand", 36, "the score > 100"), ("row", 37, "2 otherwise")})

    def test_a_day_on_which_only_the_reason_changes(self) -> None:
        self.put("two.txt", "verb is / is not / is /\nglobal\n  bool a [is] so\n  bool b [is] so\n  bool c [is] so\ngoal c is so\nc is so if\n  a is so or\n  b is so\n")
        self.put("two_input.txt", "answer a is so = true; from 2024-01-01 false\nanswer b is so = true\ngoals\n")
        reached = {(item.kind, item.line) for item in self.found(self.folder, []).items.values() if item.is_reached}
        self.assertEqual(reached, {("rule", 7), ("operand", 8), ("operand", 9)})

    def test_page(self) -> None:
        self.take("permit.txt", "permit_replies.txt", "permit_output.txt")
        self.printed(".", "--html", "page.html")
        page = (self.folder / "page.html").read_text()
        self.assertIn('<div class="none" title="row 90 if: never reached"><i>  25 </i>  90 if</div>', page)
        self.assertIn('<div class="all" title="row 60 if: a value"><i>  28 </i>  60 if</div>', page)

    def test_bad_input(self) -> None:
        self.assertEqual(self.refused("nowhere"), "coverage: nowhere is no folder")
        self.assertEqual(self.refused("."), "coverage: . has no test")
        self.put("lost_input.txt", "goals\n")
        self.assertEqual(self.refused("."), "coverage: there is no rulebase for the test lost in .")
        self.put("lost.txt", "hello\n")
        self.assertEqual(self.refused("."), "coverage: lost.txt: refused: rulebase 2 lost.txt:1")
        self.put("page.html", "kept")
        self.assertEqual(self.refused(".", "--html", "page.html"), "coverage: page.html already exists; --force overwrites it")
        self.assertEqual((self.folder / "page.html").read_text(), "kept")


if __name__ == "__main__":
    unittest.main()
