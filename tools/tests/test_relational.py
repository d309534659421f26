"""tools/relational: the households of food assistance in two files, schools three lists deep, and bad input; all by hand or by law."""
from __future__ import annotations

import csv
import io
import re
import subprocess
import sys
import unittest

from tools.tests.base import DESK, EXAMPLES, TOP, ToolTest
from working_out.food_cases import food_cases  # (base puts tools/ on the path)
from working_out.food_runs import GOALS, NAMES, OF_ALL, OF_MEMBER, cell, table
from working_out.values import spelled

FILES = ("food_households.csv", "food_members.csv")
SCHOOL = ("school_districts.csv", "school_schools.csv", "school_pupils.csv")


def food_files() -> dict[str, str]:
    """The households that tools/worked_examples works out, one row a household and one row a member."""
    households = [["household", "the day of the application", *(phrase for _, phrase in OF_ALL)]]
    members = [["household", "the members", *(phrase for _, phrase in OF_MEMBER)]]
    for number, (household, _) in enumerate(food_cases(), 1):
        unsaid = household.rest.get("unsaid", [])
        households.append([f"H{number}", str(household.day), *("" if name in unsaid else cell(household.rest, name) for name, _ in OF_ALL)])
        members += [[f"H{number}", NAMES[place], *(cell(person, name) for name, _ in OF_MEMBER)] for place, person in enumerate(household.people)]
    return dict(zip(FILES, (table(households), table(members))))


class RelationalTest(ToolTest):
    tool = "relational"

    def batch(self, rulebase: str, *files: str, status: int = 0) -> str:
        """What `desk batch` prints for the columns of the files; it is left in results.csv."""
        columns = self.printed("columns", rulebase, *files)
        done = subprocess.run([DESK, "batch", rulebase], cwd=self.folder, input=columns, capture_output=True, text=True)
        self.assertEqual(done.returncode, status)
        self.put("results.csv", done.stdout)
        return done.stdout

    def rows(self, *words: str) -> list[list[str]]:
        return list(csv.reader(io.StringIO(self.printed("rows", *words))))


class FoodTest(RelationalTest):
    def setUp(self) -> None:
        super().setUp()
        self.take(*(path.name for path in EXAMPLES.glob("food*")), *(f"scale/{name}" for name in FILES))

    def take(self, *names: str) -> None:
        for name in names:
            (self.folder / name.rpartition("/")[2]).write_text((EXAMPLES / name).read_text())

    def test_the_files_have_the_households(self) -> None:
        for name, text in food_files().items():
            self.assertEqual((EXAMPLES / "scale" / name).read_text(), text)

    def test_each_household_is_decided_as_the_law_says(self) -> None:
        self.batch("food.txt", *FILES)
        found = self.rows("food.txt", *FILES, "--results", "results.csv")
        self.assertEqual(found[0], ["household", *GOALS, "fault"])
        lines = (self.folder / "food_members.csv").read_text().splitlines()
        count = 0
        for number, (household, apart) in enumerate(food_cases(), 1):
            wanted = list(apart.get("goals", ())) or ["", "", "", ""]
            error = ""
            if "fault" in apart:
                line = next(place for place, text in enumerate(lines, 1) if text.startswith(f"H{number},Ann,"))
                error = f"food_members.csv:{line}: the member's monthly wages: {apart['fault'][1]}"
            elif "goals" not in apart:
                wanted = [spelled(value) for value in household.decided()]
            self.assertEqual(found[number], [f"H{number}", *wanted, error])
            count = number
        self.assertEqual((len(found), count > 30), (count + 1, True))

    def test_the_order_of_the_members_file_is_free(self) -> None:
        self.batch("food.txt", *FILES)
        in_order = self.rows("food.txt", *FILES, "--results", "results.csv")
        head, *lines = (self.folder / "food_members.csv").read_text().splitlines(keepends=True)
        self.put("food_members.csv", head + "".join(reversed(lines)))
        self.batch("food.txt", *FILES)
        turned = self.rows("food.txt", *FILES, "--results", "results.csv")
        self.assertEqual([row[:-1] for row in turned], [row[:-1] for row in in_order])


class SchoolTest(RelationalTest):
    def setUp(self) -> None:
        super().setUp()
        self.put("school.txt", (EXAMPLES / "school.txt").read_text())
        for name in SCHOOL:
            self.put(name, (EXAMPLES / "scale" / name).read_text())

    def test_columns_by_hand(self) -> None:
        wanted = '''the least age,the schools,"the school's pupils of ""1""","the school's pupils of ""2""","the pupil's age of ""1""","the pupil's age of ""2""","the pupil's age of ""3"""
10,"""1"", ""2""","""1"", ""2""","""3""",11,9,10
12,"""1""",none,,,,
10,none,,,,,
'''
        self.assertEqual(self.printed("columns", "school.txt", *SCHOOL), wanted)

    def test_rows_by_hand(self) -> None:
        # Of district 7 Ann in North (11) and Ann in South (10) are 10 or older; the others have no pupil.
        self.batch("school.txt", *SCHOOL)
        wanted = "district,the number of older pupils,fault\n7,2,\n8,0,\n9,0,\n"
        self.assertEqual(self.printed("rows", "school.txt", *SCHOOL, "--results", "results.csv"), wanted)

    def test_the_page_has_these_files(self) -> None:
        page = (TOP / "docs" / "SCALE.md").read_text()
        text = re.search(r"((?:    district,[^\n]*\n)(?:    \d[^\n]*\n)+)", page)
        self.assertIsNotNone(text)
        self.assertEqual("".join(line[4:] for line in text[1].splitlines(keepends=True)), (self.folder / "school_pupils.csv").read_text())  # type: ignore[index]

    def test_the_members_of_the_page(self) -> None:
        page = (TOP / "docs" / "SCALE.md").read_text()
        text = re.search(r"((?:    household,[^\n]*\n)(?:    \d[^\n]*\n)+)", page)
        self.assertIsNotNone(text)
        for path in EXAMPLES.glob("food*"):
            self.put(path.name, path.read_text())
        self.put("members.csv", "".join(line[4:] for line in text[1].splitlines(keepends=True)))  # type: ignore[index]
        self.put("households.csv", "household\n1\n2\n")
        wanted = '''the members,"the member's date of birth of ""1""","the member's monthly wages of ""1""","the member's date of birth of ""2""","the member's monthly wages of ""2"""
'''
        wanted += '"""1"", ""2""",1990-05-17,1200,2015-02-03,\n"""1""",1955-06-30,0,,\n'
        self.assertEqual(self.printed("columns", "food.txt", "households.csv", "members.csv"), wanted)


# Three lists in one another, and lists that refer to members of the innermost one.
ROLL = """verb is / is not / is /
global
  number the least age: from 0
  number the number of older pupils
  number the prefect's age
  reference the prefect: one the pupil
  every the whole roll: the pupil
entity the district
  in global: the districts
  bool the district [is] large
entity the school
  in the district: the district's schools
  number the school's places: from 0
entity the pupil
  in the school: the school's pupils
  number the pupil's age: from 0
  text the pupil's house
  reference the pupil's friends: many the pupil
goal the number of older pupils
goal the prefect's age
members the older pupils from the whole roll if
  the pupil's age >= the least age
the number of older pupils = InstanceCount(the older pupils)
the prefect's age = InstanceSum(the prefect, the pupil's age)
"""
CASES = "case,the least age,the prefect\nA,10,Ann\nB,12,\n"
DISTRICTS = "case,the districts,the district is large\nA,North,true\nA,South,false\n"
SCHOOLS = "case,the districts,the district's schools,the school's places\nA,North,One,20\nA,South,One,30\nA,North,Two,\n"
PUPILS = """case,the districts,the district's schools,the school's pupils,the pupil's age,the pupil's friends
A,North,One,Ann,9; from 2025-06-01 12,\"\"\"Bo\"\", \"\"Cy\"\"\"
A,South,One,Bo,9,Ann
A,North,One,Cy,10,none
"""
ALL = ("cases.csv", "districts.csv", "schools.csv", "pupils.csv")


class RollTest(RelationalTest):
    def setUp(self) -> None:
        super().setUp()
        self.put("roll.txt", ROLL)
        for name, text in zip(ALL, (CASES, DISTRICTS, SCHOOLS, PUPILS)):
            self.put(name, text)

    def test_columns_by_hand(self) -> None:
        heads, first, second = csv.reader(io.StringIO(self.printed("columns", "roll.txt", *ALL)))
        wanted = {
            "the least age": "10", "the districts": '"1", "2"', 'the district\'s schools of "1"': '"1", "3"', 'the district\'s schools of "2"': '"2"',
            'the school\'s pupils of "1"': '"1", "3"', 'the school\'s pupils of "2"': '"2"', 'the school\'s pupils of "3"': "none",
            'the district is large of "1"': "true", 'the district is large of "2"': "false", 'the school\'s places of "1"': "20",
            'the school\'s places of "2"': "30", 'the school\'s places of "3"': "", 'the pupil\'s age of "1"': "9; from 2025-06-01 12",
            'the pupil\'s age of "2"': "9", 'the pupil\'s age of "3"': "10", "the prefect": '"1"', 'the pupil\'s friends of "1"': '"2", "3"',
            'the pupil\'s friends of "2"': '"1"', 'the pupil\'s friends of "3"': "none",
        }  # fmt: skip
        self.assertEqual(dict(zip(heads, first)), wanted)
        self.assertEqual({head: said for head, said in zip(heads, second) if said}, {"the least age": "12", "the districts": "none"})
        # Whoever contains others is to the left of them, and whoever is referred to is there before.
        order = ["the least age", "the districts", 'the district\'s schools of "2"', 'the school\'s pupils of "1"', "the prefect"]
        self.assertEqual(sorted(order, key=heads.index), order)

    def test_rows_with_a_day_by_hand(self) -> None:
        # Ann is 9 until June 2025, and then 12: with Cy one pupil of A is 10 or older before, and two from then on. B has no pupil and no prefect.
        printed = self.batch("roll.txt", *ALL)
        words = ("roll.txt", "cases.csv", "pupils.csv", "schools.csv", "districts.csv", "--at", "2025-07-01")
        heads = ["case", "the number of older pupils", "the number of older pupils at 2025-07-01", "the prefect's age", "the prefect's age at 2025-07-01", "fault"]
        wanted = [heads, ["A", "1; from 2025-06-01 2", "2", "9; from 2025-06-01 12", "12", ""], ["B", "0", "0", "unknown", "unknown", ""]]
        self.assertEqual(self.rows(*words, "--results", "results.csv"), wanted)
        command = [sys.executable, TOP / "tools" / "relational", "rows", *words]
        done = subprocess.run(command, cwd=self.folder, input=printed, capture_output=True, text=True)
        self.assertEqual(list(csv.reader(io.StringIO(done.stdout))), wanted)

    def test_errors_of_records_have_their_file_and_line(self) -> None:
        self.put("cases.csv", 'case,the least age,the prefect\nA,10,"""Ann"", ""Bo"""\nB,-12,\nC,1,\nD,2,\nE,,\n')
        self.put("districts.csv", "case,the districts,the district is large\nD,East,\nC,Ost,true\n\nC,West,5\nA,North,true\nA,South,false\n")
        self.put("schools.csv", SCHOOLS + "D,East,One,-3\n")
        self.batch("roll.txt", *ALL)
        errors = [row[-1] for row in self.rows("roll.txt", *ALL, "--results", "results.csv")[1:]]
        wanted = ["cases.csv:2: the prefect: change 3", "cases.csv:3: the least age: change 3"]
        wanted += ["districts.csv:5: the district is large: change 2", "schools.csv:5: the school's places: change 3", ""]
        self.assertEqual(errors, wanted)

    def test_a_list_without_a_file_is_unknown(self) -> None:
        self.put("cases.csv", "case,the least age\nA,10\n")
        self.batch("roll.txt", "cases.csv")
        self.assertEqual(self.rows("roll.txt", "cases.csv", "--results", "results.csv")[1], ["A", "unknown", "unknown", ""])

    def test_a_case_of_which_nothing_is_said_is_a_record(self) -> None:
        self.put("cases.csv", "case,the least age\nA,\nB,10\n")
        self.assertEqual(self.printed("columns", "roll.txt", "cases.csv"), 'the least age\n""\n10\n')
        self.batch("roll.txt", "cases.csv")
        self.assertEqual([row[0] for row in self.rows("roll.txt", "cases.csv", "--results", "results.csv")], ["case", "A", "B"])
        self.put("cases.csv", "case\nA\n")
        self.assertEqual(self.refused("columns", "roll.txt", "cases.csv"), "relational: cases.csv:1: there is no column for the rulebase")

    def test_columns_that_are_left_out(self) -> None:
        self.put("cases.csv", "case,region,the least age\nA,east,10\n")
        self.put("districts.csv", "case,the districts,region\nA,North,x\n")
        said = self.printed("columns", "roll.txt", "cases.csv", "districts.csv", "--leave", "region")
        self.assertEqual(said, 'the least age,the districts\n10,"""1"""\n')
        said = self.refused("columns", "roll.txt", "cases.csv", "districts.csv", "--leave", "country")
        self.assertEqual(said, "relational: --leave country: no file has this column")

    def test_bad_input(self) -> None:
        pupil = "case,the districts,the district's schools,the school's pupils"
        for name, text, wanted in (
            ("cases.csv", "", "cases.csv:1: there is no heading"),
            ("pupils.csv", "\n\n", "pupils.csv:1: there is no heading"),
            ("cases.csv", "A,10,Ann\nB,12,\n", 'cases.csv:1: column 2: the rulebase has no phrase "10"'),
            ("districts.csv", DISTRICTS + "C,East,true\n", 'districts.csv:4: cases.csv has no case "C"'),
            ("schools.csv", SCHOOLS + "A,East,One,1\n", 'schools.csv:5: districts.csv has no "East" in "the districts" of the case "A"'),
            ("schools.csv", SCHOOLS + "B,North,One,1\n", 'schools.csv:5: districts.csv has no "North" in "the districts" of the case "B"'),
            ("districts.csv", DISTRICTS + "A,North,false\n", 'districts.csv:4: the case "A" has a second "North" in "the districts"; the first is on line 2'),
            ("pupils.csv", PUPILS + "\n\nA,North,One,Ann,3,\n", 'pupils.csv:7: the case "A" has a second "Ann" in "the school\'s pupils"; the first is on line 2'),
            ("cases.csv", CASES + "A,3,\n", 'cases.csv:4: the case "A" is there already; the first is on line 2'),
            ("cases.csv", "case,the weather\nA,wet\n", 'cases.csv:1: column 2: the rulebase has no phrase "the weather"'),
            ("pupils.csv", PUPILS.replace("the pupil's age", "the weather"), 'pupils.csv:1: column 5: the rulebase has no phrase "the weather"'),
            ("cases.csv", "case,the least age,\nA,1,2\n", "cases.csv:1: column 3 has no head"),
            ("cases.csv", "case,the least age,the least age\nA,1,2\n", 'cases.csv:1: columns 2 and 3 are both "the least age"'),
            ("cases.csv", "the least age\n1\n", 'cases.csv:1: column 1 names the case, and "the least age" is a phrase of the rulebase'),
            ("cases.csv", "case,the districts\nA,North\n", 'cases.csv:1: "the districts" is a list, and its members have a file of their own'),
            ("cases.csv", "case,the whole roll\nA,Ann\n", 'cases.csv:1: column 2: "the whole roll" is a list of an "every" line, which isn\'t answered'),
            ("cases.csv", "case,the older pupils\nA,Ann\n", 'cases.csv:1: column 2: the rulebase has no phrase "the older pupils"'),
            ("cases.csv", "case,the district is large\nA,true\n", 'cases.csv:1: "the district is large" is said of "the district", and the rows are about the case'),
            ("districts.csv", "case,the districts,the least age\n", 'districts.csv:1: "the least age" is said of the case, and the rows are about "the district"'),
            ("districts.csv", "case,the district is large\n", "districts.csv:1: no column has the names of a list's members"),
            ("districts.csv", "person,the districts\n", 'districts.csv:1: column 1 is "person", and that of cases.csv is "case"'),
            ("pupils.csv", "case,the district's schools,the school's pupils\n", 'pupils.csv:1: there is no column "the districts", which leads to "the school\'s pupils"'),
            ("pupils.csv", DISTRICTS, 'pupils.csv:1: the members of "the districts" are in districts.csv already'),
            ("cases.csv", "case;the least age\nA;10\n", 'districts.csv:1: column 1 is "case", and that of cases.csv is "case;the least age"'),
            ("cases.csv", CASES + "C,3\n", "cases.csv:4: 2 cells, and the heading has 3"),
            ("cases.csv", CASES + ",3,\n", 'cases.csv:4: the cell of "case" is empty'),
            ("pupils.csv", f"{pupil}\nA,North,One,\n", 'pupils.csv:2: the cell of "the school\'s pupils" is empty'),
            ("cases.csv", CASES + 'C,"1\n2",\nD,1,\n', "cases.csv:4: a cell has a line feed in it"),
            ("cases.csv", CASES + 'C,"1"2,\n', "cases.csv:4: ',' expected after '\"'"),
        ):
            with self.subTest(wanted):
                kept = (self.folder / name).read_text()
                self.put(name, text)
                self.assertEqual(self.refused("columns", "roll.txt", *ALL), f"relational: {wanted}")
                self.assertEqual(self.refused("rows", "roll.txt", *ALL, "--results", "cases.csv"), f"relational: {wanted}")
                self.put(name, kept)

    def test_who_is_referred_to_is_there_once(self) -> None:
        self.put("pupils.csv", PUPILS.replace("Ann", "Al"))
        wanted = 'relational: cases.csv:2: "the prefect": pupils.csv has no "Ann" in "the school\'s pupils" of the case "A"'
        self.assertEqual(self.refused("columns", "roll.txt", *ALL), wanted)
        self.put("pupils.csv", PUPILS.replace("A,South,One,Bo,9,Ann", "A,South,One,Ann,9,"))
        wanted = 'relational: cases.csv:2: "the prefect": pupils.csv has 2 "Ann" in "the school\'s pupils" of the case "A"'
        self.assertEqual(self.refused("columns", "roll.txt", *ALL), wanted)

    def test_files_that_are_missing(self) -> None:
        wanted = 'relational: schools.csv:1: no file has the members of "the districts"'
        self.put("cases.csv", "case\nA\n")
        self.assertEqual(self.refused("columns", "roll.txt", "cases.csv", "schools.csv"), wanted)
        self.put("cases.csv", CASES)
        wanted = 'relational: cases.csv:1: "the prefect" refers to "the pupil", which no file is about'
        self.assertEqual(self.refused("columns", "roll.txt", "cases.csv"), wanted)
        self.assertEqual(self.refused("columns", "roll.txt", "none.csv"), "relational: can't read none.csv: No such file or directory")
        self.assertEqual(self.refused("columns", "none.txt", "cases.csv"), "relational: there is no rulebase none.txt")

    def test_results_that_are_none(self) -> None:
        for text, wanted in (
            ("", "results.csv isn't what desk batch prints: its first line is empty"),
            ("refused: column 2 command 2\n", "results.csv isn't what desk batch prints: its first line is refused: column 2 command 2"),
            ("row,a,fault\n1,1,\n", "results.csv has 1 rows, and cases.csv has 2 cases"),
            ("row,a,fault\n1,1,\n3,1,\n", "results.csv isn't what desk batch prints: its row 2 is 3,1,"),
            ("row,a,fault\n1,1,\n2,1\n", "results.csv isn't what desk batch prints: its row 2 is 2,1"),
        ):
            self.put("results.csv", text)
            self.assertEqual(self.refused("rows", "roll.txt", *ALL, "--results", "results.csv"), f"relational: {wanted}")
        self.assertEqual(self.refused("columns", "roll.txt", *ALL, "--at", "2025-01-01"), "relational: --results and --at belong to rows")
        self.assertEqual(self.refused("rows", "roll.txt", *ALL, "--at", "today"), "relational: --at today is no date: YYYY-MM-DD")


if __name__ == "__main__":
    unittest.main()
