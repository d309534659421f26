"""tools/compare: the change of law of docs/CHANGES_OF_LAW.md against a calculation of its own, small cases by hand, and bad input."""
from __future__ import annotations

import csv
import datetime
import subprocess
import sys
import unittest
from decimal import ROUND_HALF_UP, Decimal

from tools.tests.base import EXAMPLES, TOP, ToolTest

CENT = Decimal("0.01")


def allowance(household: dict[str, str], year: int) -> Decimal:
    """The allowance on 1 January 2027 by the law of 2026 or of 2027, worked out from its text alone."""
    people, income = int(household["the number of people"]), Decimal(household["the monthly income"])
    over = max(Decimal(0), income - (1200 + 400 * (people - 1)))
    if year == 2026:
        base = {1: 60, 2: 90}.get(people, 120)
        extra = 15 if household["the household has a pensioner"] == "true" else 0
        taper = Decimal("0.2")
    else:
        base, taper, extra = {1: 70, 2: 95}.get(people, 120), Decimal("0.25"), 0
        born = household["the date of birth of the youngest child"]
        if household["the household has a child"] == "true" and born <= "2027-01-01" < f"{int(born[:4]) + 6}{born[4:]}":
            extra += 20
        extra += 10 if household["the household heats with oil"] == "true" else 0
    amount = max(Decimal(0), base + extra - (taper * over).quantize(CENT, ROUND_HALF_UP))
    return amount if amount >= 5 else Decimal(0)


class HeatingTest(ToolTest):
    tool = "compare"

    def test_each_household_and_the_sums(self) -> None:
        with (EXAMPLES / "heating_households.csv").open() as file:
            households = list(csv.DictReader(file))
        self.assertEqual(len(households), 200)
        self.take("heating_2026.txt", "heating_2026.csv", "heating_2027.txt", "heating_2027.csv", "heating_households.csv")
        said = self.printed("heating_2026.txt", "heating_2027.txt", "heating_households.csv", "--csv", "out.csv", "--by", "the region")
        with (self.folder / "out.csv").open() as file:
            rows = {(row["case"], row["goal"]): row for row in csv.DictReader(file)}
        gained = lost = Decimal(0)
        more = less = 0
        for number, household in enumerate(households[:199], 1):
            old, new = allowance(household, 2026), allowance(household, 2027)
            row = rows[f"row {number}", "the monthly allowance"]
            self.assertEqual((Decimal(row["old on the day"]), Decimal(row["new on the day"])), (old, new), household)
            self.assertEqual(row["the region"], household["the region"])
            entitled = rows[f"row {number}", "the household is entitled"]
            self.assertEqual((entitled["old on the day"], entitled["new on the day"]), tuple(str(amount > 0).lower() for amount in (old, new)))
            gained, lost = gained + max(new - old, Decimal(0)), lost + max(old - new, Decimal(0))
            more, less = more + (new > old), less + (new < old)
        wanted = f"on 2027-01-01: {more + less} of 199 cases change; {more} get more, {less} get less; gained {gained:.2f}, lost {lost:.2f}, net {gained - lost:.2f}"
        self.assertIn(wanted, said)
        self.assertIn("accepted by both: 199, old only: 1, new only: 0, neither: 0", said)
        self.assertIn("row 200: old accepted; new column 2 (the number of people) change 3", said)
        self.assertIn("known to the new version only: the household heats with oil (said in 200 cases)", said)
        self.assertNotIn("neither version: the region", said)

    def test_the_records_and_the_page_are_those_of_docs(self) -> None:
        made = subprocess.run([sys.executable, str(TOP / "tools" / "made_households")], capture_output=True, text=True, check=True)
        self.assertEqual(made.stdout, (EXAMPLES / "heating_households.csv").read_text())
        self.take("heating_2026.txt", "heating_2026.csv", "heating_2027.txt", "heating_2027.csv", "heating_households.csv")
        groups = ("--by", "the region", "--by", "the number of people", "--by", "the monthly income:500")
        self.printed("heating_2026.txt", "heating_2027.txt", "heating_households.csv", *groups, "--html", "page.html")
        self.assertEqual((self.folder / "page.html").read_text(), (TOP / "docs" / "heating.html").read_text())


RULES = """verb is / is not / is /
global
  currency the income: from 0
  date the day of birth
  bool the claimant [is] entitled
  number the least age
goal the claimant is entitled
the least age = {age}
the claimant is entitled if
  TemporalYearsSince(the day of birth) >= the least age and
  the income < 1000
"""


class SmallTest(ToolTest):
    tool = "compare"

    def setUp(self) -> None:
        super().setUp()
        self.put("old.txt", RULES.format(age=18))
        self.put("new.txt", RULES.format(age=21))

    def test_dates_and_reports_by_hand(self) -> None:
        # Born on 2000-03-01: entitled from 2018-03-01 by the old rule, from 2021-03-01 by the new one; with 1000 never; before birth uncertain.
        self.put("cases.csv", "the day of birth,the income\n2000-03-01,900\n2000-03-01,1000\n2001-07-15,0\n")
        said = self.printed("old.txt", "new.txt", "cases.csv", "--at", "2019-08-01")
        self.assertIn("2 of 3 cases change on some day\n", said)
        self.assertIn("on 2019-08-01: 2 of 3 cases change; 0 become true, 2 become false\n", said)
        self.assertIn("2018-03-01: for 1 cases; on that day 1 of 3 cases change; 0 become true, 1 become false\n", said)
        self.assertIn("2019-07-15: for 1 cases; on that day 2 of 3 cases change; 0 become true, 2 become false\n", said)
        self.assertIn("    true to false: 2\n", said)
        self.assertIn("    the change begins at: the least age\n", said)
        first = said.split("the first line that differs below the goal's:\n")[1].splitlines()
        self.assertEqual(first[0].strip(), "old: 2 the least age, 2019-08-01 to 2019-08-01: 18, rule old.txt:8")
        self.assertEqual(first[1].strip(), "new: 2 the least age, 2019-08-01 to 2019-08-01: 21, rule new.txt:8")

    def test_caseload(self) -> None:
        lines = '"Ann" answer the day of birth = 2000-03-01\n"Ann" answer the income = 900\n"Ann" suppose\n"Ann" answer the income = 5000\n"Ann" undo\n'
        self.put("load.txt", lines + '"Bo" answer the income = -1\n"Cy" answer the income = 1000\n"Cy" close\n')
        said = self.printed("old.txt", "new.txt", "--cases", "load.txt")
        self.assertIn("old.txt and new.txt: 2 cases\naccepted by both: 1, old only: 0, new only: 0, neither: 1\n", said)
        self.assertIn("  Bo: old change 3; new change 3\n", said)
        self.assertIn("  on 2018-03-01: 1 of 1 cases change; 0 become true, 1 become false\n", said)

    def test_nothing_changes(self) -> None:
        self.put("cases.csv", "the income\n5000\n")
        self.assertIn("  0 of 1 cases change on some day\n", self.printed("old.txt", "old.txt", "cases.csv"))

    def test_bad_input(self) -> None:
        self.put("cases.csv", "the income\n5000\n")
        self.put("there.html", "kept")
        self.put("bad.txt", "hello\n")
        self.put("strange.csv", "the weather\nrain\n")
        self.put("no_point.csv", "the income!\n1\n")
        self.put("empty.csv", "")
        two = ("old.txt", "new.txt")
        self.assertEqual(self.refused(*two, "cases.csv", "--html", "there.html"), "compare: there.html already exists; --force overwrites it")
        self.assertEqual((self.folder / "there.html").read_text(), "kept")
        self.assertEqual(self.refused(*two, "nowhere.csv"), "compare: can't read nowhere.csv: No such file or directory")
        self.assertEqual(self.refused("old.txt", "nowhere.txt", "cases.csv"), "compare: there is no rulebase nowhere.txt")
        self.assertEqual(self.refused("bad.txt", "new.txt", "cases.csv"), "compare: bad.txt: refused: rulebase 2 bad.txt:1")
        self.assertEqual(self.refused(*two, "strange.csv"), "compare: old.txt knows no column of strange.csv")
        self.assertEqual(self.refused(*two, "no_point.csv"), "compare: no_point.csv: the head of column 1 is no POINT: the income!")
        self.assertEqual(self.refused(*two, "empty.csv"), "compare: empty.csv has no record")
        self.assertEqual(self.refused(*two, "cases.csv", "--by", "the region"), "compare: cases.csv has no column the region")
        self.assertEqual(self.refused(*two, "cases.csv", "--by", "the income:none"), "compare: --by the income:none: none is no width of a group")
        self.assertEqual(self.refused(*two, "cases.csv", "--at", "tomorrow"), "compare: --at tomorrow is no date: YYYY-MM-DD")
        self.assertEqual(self.refused(*two), "compare: say either CASES.csv or --cases CASELOAD")


if __name__ == "__main__":
    unittest.main()
