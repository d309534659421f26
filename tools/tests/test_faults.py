"""`rules faults`: each story of `opa check`, where its error is and in words; several errors at once; broken rulebases.

The program is the environment's RULES, or the built one of this repository.
"""
from __future__ import annotations

import os
import random
import re
import subprocess
import sys
import tempfile
import unittest
from pathlib import Path
from typing import Any

from tools.tests.base import EXAMPLES, OPA, TOP
from tools.tests.test_editors import OUTPUT, RULEBASE

sys.path.insert(0, str(TOP / "tools"))
from faults_by_check import ENDED, FILE_LINE, REFUSED, UNKNOWN, WORDS, by_check, head_of, printed  # noqa: E402
from stories import DATA, Story  # noqa: E402
from unread_places import SLIPS  # noqa: E402

RULES = os.environ.get("RULES", str(TOP / "crates" / "rules" / "out" / "rules"))

# Examples that are broken in three lines each.
BROKEN = ("claimant.txt", "library.txt", "children.txt", "school.txt", "benefit.txt", "food.txt", "recipe_choices.txt")

HEAD = """verb is / is not / is /
global
  bool the claimant [is] entitled
  bool the claimant [is] an adult
  number the income
  text the name
  reference the friends: many the friend
goal the claimant is entitled
entity the friend
  in global: the people
  number the friend's age
"""
# Rules behind HEAD, and the errors of each: kind, line, column, and the line's text or what is printed in its place; of an
# error in a phrase that isn't declared the phrase, too, and the one that is proposed; of a place that can't be read what is
# there, and which sort it is.
SEVERAL: dict[str, tuple[str, list[tuple[Any, ...]]]] = {
    "none": ("the claimant is entitled if\n  the claimant is an adult\n", []),
    "a goal and two rules": (
        "goal the weather\nthe claimant is entitled if\n  the clamant is an adult\n"
        "the claimant is an adult if\n  the income > the name\n",
        [
            (3, 12, 6, "goal the weather", "the weather"),
            (3, 14, 3, "the clamant is an adult", "the clamant is an adult", "the claimant is an adult"),
            (5, 15, 1, "the claimant is an adult if"),
        ],
    ),
    "by kind, then by line": (
        "the income = the weather\nthe claimant is entitled if\n  the income > 1 and\n",
        [(2, 14, 18, "the income > 1 and", "and", "dangling"), (3, 12, 14, "the income = the weather", "the weather")],
    ),
    "one error of a block hides its others": (
        "the claimant is entitled if\n  the weather > 1 and\n  the name > 1 and\n  the clamant is an adult\n"
        "the income = the day\n",
        [
            (3, 13, 3, "the weather > 1 and", "the weather"),
            (3, 16, 14, "the income = the day", "the day"),
        ],
    ),
    "deep lines, tabs and a comment": (
        "the claimant is entitled if\n\t# so\n  any\n\t\tthe claimant is an adult or\n    the weather > 1\n"
        "the income = the friend's age\n",
        [(3, 16, 5, "the weather > 1", "the weather"), (4, 17, 1, "the income = the friend's age")],
    ),
    "a line of a screen": (
        'screen "Who"\n  the name\n  the weather\nthe income = the day\n',
        [(3, 14, 3, "the weather", "the weather"), (3, 15, 14, "the income = the day", "the day")],
    ),
    "a conclusion with a word too many": (
        "the claimant is entitled now if\n  the claimant is an adult\n",
        [(3, 12, 1, "the claimant is entitled now if", "the claimant is entitled now", "the claimant is entitled")],
    ),
    "what denies an attribute": (
        "the claimant is entitled if\n  the claimant is not an adlt\n",
        [(3, 13, 3, "the claimant is not an adlt", "the claimant is not an adlt", "the claimant is not an adult")],
    ),
    "lists, in a function and in a line over a group": (
        "the income = InstanceCount(the poeple)\n"
        "the claimant is entitled if\n  for at least one of the freinds\n    the friend's age > 1\n",
        [
            (3, 12, 28, "the income = InstanceCount(the poeple)", "the poeple", "the people"),
            (3, 14, 23, "for at least one of the freinds", "the freinds", "the friends"),
        ],
    ),
    "the first of the nearest": ("the income = the nome\n", [(3, 12, 14, "the income = the nome", "the nome", "the name")]),
    "a phrase of two bytes more is proposed, and of three isn't": (
        "the income = the incomexx\nthe friend's age = the incomexxx\n",
        [
            (3, 12, 14, "the income = the incomexx", "the incomexx", "the income"),
            (3, 13, 20, "the friend's age = the incomexxx", "the incomexxx"),
        ],
    ),
    "a fifth of a phrase is near": (
        "the claimant is an adult if\n  the claimant is an aduxxxxx\n"
        "the claimant is entitled if\n  the claimant is an aduxxxxxx\n",
        [
            (3, 13, 3, "the claimant is an aduxxxxx", "the claimant is an aduxxxxx", "the claimant is an adult"),
            (3, 15, 3, "the claimant is an aduxxxxxx", "the claimant is an aduxxxxxx"),
        ],
    ),
    "known phrases, literals and brackets before it": (
        'the claimant is entitled if\n  (the name = "\u00c4 x" or not (the claimant is an adult) or 2024-01-01 = the day)\n',
        [
            (
                *(3, 13, 71),
                '(the name = "\u00c4 x" or not (the claimant is an adult) or 2024-01-01 = the day)',
                "the day",
            )
        ],
    ),
    "an attribute where a list is expected": (
        "the income = InstanceCount(the name)\n",
        [(3, 12, 1, "the income = InstanceCount(the name)")],
    ),
    "a second goal and a second rule": (
        "goal the claimant is entitled\nthe income = 1\nthe income = 2\nthe income = 3\n",
        [(6, 12, 1, "goal the claimant is entitled"), (6, 14, 1, "the income = 2"), (6, 15, 1, "the income = 3")],
    ),
    "a circle, and its attributes": (
        "the claimant is entitled if\n  the claimant is an adult\n"
        "the claimant is an adult if\n  the claimant is entitled\n",
        [(7, 12, 1, ["the claimant is entitled", "the claimant is an adult", "the claimant is entitled if"])],
    ),
    "nothing behind an error in a declaration": (
        "verb has / has not\nthe income = the weather\n",
        [(2, 12, 1, "verb has / has not")],
    ),
    "nothing behind an error in a line of a declaration": (
        "global\n  bool the claimant [has] a claim\nthe income = the weather\n",
        [(3, 13, 3, "bool the claimant [has] a claim")],
    ),
    "a condition of a membership block, and no phrase of such a block": (
        "global\n  every the roll: the friend\nmembers the old friends from the roll if\n  the frend's age > 1\n",
        [(3, 15, 3, "the frend's age > 1", "the frend's age", "the friend's age")],
    ),
    "the first line of a membership block": (
        "global\n  every the roll: the friend\nmembers the old friends from the rol if\n  the friend's age > 1\n",
        [(3, 14, 1, "members the old friends from the rol if")],
    ),
    "a phrase of a membership block": (
        "global\n  every the roll: the friend\nmembers the old friends from the roll if\n  the friend's age > 1\n"
        "the income = InstanceCount(the odl friends)\n",
        [(3, 16, 28, "the income = InstanceCount(the odl friends)", "the odl friends", "the old friends")],
    ),
    "no phrase is proposed where a declaration has an error": (
        "goal the incom\nglobal\n  number the income\n",
        [(3, 12, 6, "goal the incom", "the incom"), (6, 14, 3, "number the income")],
    ),
    "nothing behind an error of layout": (
        "the claimant is entitled if\n    the claimant is an adult\nthe income = the weather\n",
        [(2, 13, 1, [])],
    ),
    "nothing behind an odd blank": (
        "the claimant is entitled if\n   the claimant is an adult\nthe income = the weather\n",
        [(2, 13, 1, [])],
    ),
}


# Rules behind HEAD with a place that can't be read: line, column, the line's text, how many characters stand before the place,
# and which sort it is.
PLACES: dict[str, tuple[str, tuple[int, int, str, int, str]]] = {
    "a bracket that closes none": ("the income = (1 + 2))\n", (12, 21, "the income = (1 + 2))", 20, "closing")),
    "the first of several": ("the income = 1)) + (2\n", (12, 15, "the income = 1)) + (2", 14, "closing")),
    "a bracket that isn't closed": (
        "the income = ((1 + 2) * (3 - (4))\n",
        (12, 14, "the income = ((1 + 2) * (3 - (4))", 13, "opening"),
    ),
    "the first that isn't closed": (
        "the income = (1) + Minimum((2), (3) + (4\n",
        (12, 27, "the income = (1) + Minimum((2), (3) + (4", 26, "opening"),
    ),
    "brackets in a text are none": ('the name = (")" + "((" )) \n', (12, 25, 'the name = (")" + "((" )) ', 24, "closing")),
    "a bracket isn't closed in the next line": (
        "the claimant is entitled if\n  (the income > 1 and\n  the income < 3)\n",
        (13, 3, "(the income > 1 and", 0, "opening"),
    ),
    "a line below a first line, with tabs": (
        "the claimant is entitled if\n\tany\n\t\tthe income > 1 or\n\t\tthe income < 3) or\n\t\tthe income = 2\n",
        (15, 19, "the income < 3) or", 14, "closing"),
    ),
    "behind a comment, and characters are counted": (
        '# (\nthe claimant is entitled if\n  # (\n  the name = "\u00c4\u00d6" and\n'
        '  the name = "\u00c4\u00d6) and\n  not (1 > 2\n',
        (16, 14, 'the name = "\u00c4\u00d6) and', 11, "text"),
    ),
    "a text that isn't closed": ('the name = "a ""b""\n', (12, 19, 'the name = "a ""b""', 18, "text")),
    "a text with a tab": ('the name = "a\tb"\n', (12, 12, 'the name = "a?b"', 11, "control")),
    "a sign that no line has": ("the income = 10 %\n", (12, 17, "the income = 10 %", 16, "sign")),
    "a comment behind a line": ("the income = 1 # so\n", (12, 16, "the income = 1 # so", 15, "sign")),
    "a sign of declarations": ("the income = [1]\n", (12, 14, "the income = [1]", 13, "sign")),
    "a sign of rules": ("global\n  number the day = 5\n", (13, 18, "number the day = 5", 15, "sign")),
    "the brackets of a verb": (
        "global\n  bool the claimant [is well\n",
        (13, 21, "bool the claimant [is well", 18, "opening"),
    ),
    "two signs": ("the income = 1 + * 2\n", (12, 16, "the income = 1 + * 2", 15, "missing")),
    "a minus behind a sign": ("the income = 1 + - 2 +\n", (12, 22, "the income = 1 + - 2 +", 21, "missing")),
    "nothing before the last word": (
        "the claimant is entitled if\n  the income > and\n  the income < 3\n",
        (13, 14, "the income > and", 11, "missing"),
    ),
    "nothing behind a comma": ("the income = Minimum(1, )\n", (12, 23, "the income = Minimum(1, )", 22, "missing")),
    "no argument": ("the income = InstanceCount()\n", (12, 27, "the income = InstanceCount()", 26, "missing")),
    "two signs in a first line": ("the income = = 1\n", (12, 12, "the income = = 1", 11, "missing")),
    "a name with signs": ("the o'brien-income\u2019s = 1 +\n", (12, 26, "the o'brien-income\u2019s = 1 +", 25, "missing")),
    "cases below an equals sign": (
        "the income =\n  1 if\n    the income > 1 or\n    the income < and\n  2 otherwise\n",
        (15, 16, "the income < and", 11, "missing"),
    ),
    "neither a declaration nor a rule": (
        "gaol the claimant is entitled\n",
        (12, 1, "gaol the claimant is entitled", 0, "head"),
    ),
    "a rule without if": (
        "the claimant is entitled\n  the income > 1 or\n  the income < (3\n",
        (12, 1, "the claimant is entitled", 0, "head"),
    ),
    "two lines that nothing joins": (
        "the claimant is entitled if\n  the income > 1\n  the income < 3\n",
        (13, 17, "the income > 1", 14, "unjoined"),
    ),
    "the same in a case": (
        "the income =\n  1 if\n    the income > 1  \n    # so\n\n    the income < 3\n  2 otherwise\n",
        (14, 19, "the income > 1  ", 14, "unjoined"),
    ),
    "the same below a head": (
        "the claimant is entitled if\n  any\n    the income > 1\n    the income < 3\n  or\n  the income = 1\n",
        (14, 19, "the income > 1", 14, "unjoined"),
    ),
    "a word that joins to nothing": (
        "the claimant is entitled if\n  all\n    the income > 1 and\n    the income < 3 and\n  or\n  the income = 1\n",
        (15, 20, "the income < 3 and", 15, "dangling"),
    ),
    "a deeper line behind a word that joins": (
        "the claimant is entitled if\n  the income > 1 and\n    the income < 3\n",
        (13, 18, "the income > 1 and", 15, "dangling"),
    ),
    "a condition of a membership block": (
        "global\n  every the roll: the friend\nmembers the old from the roll if\n  the friend's age > (1\n",
        (15, 22, "the friend's age > (1", 19, "opening"),
    ),
}
# Rules behind HEAD that can't be read, and no place is found.
NO_PLACE = {
    "two words that join": "the claimant is entitled if\n  the income > 1 and\n  the income < 3 or\n  the income = 1\n",
    "cases that nothing joins": "the income =\n  1\n  2 otherwise\n",
    "a case without a condition": "the income =\n  1 if\n  2 otherwise\n",
    "two comparisons": "the claimant is entitled if\n  1 < 2 < 3\n",
    "a number that isn't followed by a sign": "the income = 1 2\n",
    "a verb of three parts": "verb has / has not / has\n",
}


def text_of(kind: int, line: int, column: int, shown: str | list[str], found: str = "", said: str = "") -> str:
    """An error of f.txt with its line; of a list the last item is the line, and the others are a circle."""
    lines = [shown] if isinstance(shown, str) else shown
    before = " " * lines[-1].index(found) if lines else ""
    words = WORDS[kind]
    if found and kind == 3:
        words = f"no attribute or list is called '{found}'" + (f"; did you mean '{said}'?" if said else "")
    elif said:
        words = SLIPS[said]
    below = "".join(f"  {each}\n" for each in lines) + (f"  {before}^\n" if lines else "")
    return f"f.txt:{line}:{column}: error: {words}\n{below}"


def ran(program: str, *words: str, folder: object) -> subprocess.CompletedProcess[bytes]:
    return subprocess.run([program, *words], cwd=str(folder), capture_output=True, timeout=300)


@unittest.skipUnless(os.access(RULES, os.X_OK), "RULES names no program")
class Faults(unittest.TestCase):
    maxDiff = None

    def setUp(self) -> None:
        room = tempfile.TemporaryDirectory(prefix="faults-")
        self.addCleanup(room.cleanup)
        self.folder = Path(room.name)

    def faults(self, name: str = "f.txt") -> tuple[str, int]:
        done = ran(RULES, "faults", name, folder=self.folder)
        self.assertEqual(done.stderr, b"")
        return done.stdout.decode(), done.returncode

    def put(self, text: str, name: str = "f.txt") -> None:
        (self.folder / name).write_text(text)

    def test_each_checked_story_in_words(self) -> None:
        seen = 0
        for path in sorted((DATA / "stories").glob("*.txt")):
            story = Story(path)
            if story.is_in_memory or len(story.words) != 3 or story.words[1] != "check" or story.status > 1:
                continue
            with self.subTest(path.stem), tempfile.TemporaryDirectory() as folder:
                for name, found in story.files.items():
                    Path(folder, name).write_bytes(found)
                done = ran(RULES, "faults", story.words[2], folder=folder)
                text = done.stdout.decode()
                self.assertEqual((done.returncode, bool(text)), (story.status, story.status == 1))
                wanted = REFUSED.fullmatch((story.printed or b"").decode(errors="replace"))
                if wanted:
                    seen += 1
                    kind, name, line, circle = wanted.groups()
                    words = re.escape(WORDS[int(kind)]) + (rf"|{re.escape(UNKNOWN)}.*" if kind == "3" else "")
                    head = rf"{re.escape(name)}:{line}:\d+: error: (?:{words})\n{re.escape(circle)}"
                    if kind == "2":
                        head += rf"|{re.escape(name)}:\d+:\d+: error: (?:{'|'.join(map(re.escape, SLIPS.values()))})\n"
                    self.assertRegex(text, rf"\A(?:{head})")
        self.assertGreater(seen, 20)

    def test_several_errors(self) -> None:
        for what, (rules, wanted) in SEVERAL.items():
            with self.subTest(what):
                self.put(HEAD + rules)
                self.assertEqual(self.faults(), ("".join(text_of(*each) for each in wanted), 1 if wanted else 0))

    def test_places_that_cannot_be_read(self) -> None:
        for what, (rules, (line, column, shown, before, sort)) in PLACES.items():
            with self.subTest(what):
                self.put(HEAD + rules)
                head = f"f.txt:{line}:{column}: error: {SLIPS[sort]}\n"
                self.assertEqual(self.faults(), (f"{head}  {shown}\n  {before * ' '}^\n", 1))
                (self.folder / "f.txt").write_bytes((HEAD + rules).replace("\n", "\r\n").encode())
                self.assertEqual(self.faults(), (f"{head}  {shown}\n  {before * ' '}^\n", 1))

    def test_no_place_is_found(self) -> None:
        for what, rules in NO_PLACE.items():
            with self.subTest(what):
                self.put(HEAD + rules)
                first = rules.split("\n", maxsplit=1)[0]
                self.assertEqual(self.faults(), (text_of(2, 12, 1, first), 1))

    def test_the_example_of_the_pages(self) -> None:
        """The list that GUIDE and REFERENCE print, of the library card with an `or` missing and a phrase wrong."""
        rules = (EXAMPLES / "library.txt").read_text()
        self.put(rules.replace("age > 65 or", "age > 65").replace("(the date of birth)", "(the day of birth)"), "library.txt")
        listed, status = self.faults("library.txt")
        self.assertEqual((status, listed.count(": error: ")), (1, 2))
        for page in ("GUIDE", "REFERENCE"):
            self.assertIn("".join(f"    {line}\n" for line in listed.splitlines()), (TOP / "docs" / f"{page}.md").read_text())

    def test_what_editors_are_tried_over(self) -> None:
        self.put(RULEBASE, "card.txt")
        self.assertEqual(self.faults("card.txt"), (OUTPUT, 1))

    def test_files_that_are_not_read(self) -> None:
        self.assertEqual(self.faults(), (f"f.txt:0:1: error: {WORDS[9]}\n", 1))
        self.put(f'include "more.txt"\n{HEAD}the income = the weather\n')
        self.assertEqual(self.faults(), (f"more.txt:0:1: error: {WORDS[9]}\n", 1))
        (self.folder / "more.txt").write_bytes(b"the claimant is entitled if\n  \xff\n")
        self.assertEqual(self.faults(), (f"more.txt:0:1: error: {WORDS[1]}\n", 1))

    def test_an_error_of_a_further_file_and_of_a_table(self) -> None:
        self.put(f'include "more.txt"\ntable "rates.csv"\n{HEAD}the income = the weather\n')
        self.put("the claimant is an adult if\n  the day > 1\n", "more.txt")
        self.put("the income,= the wether\n>= 3,1\notherwise,2\n", "rates.csv")
        text, status = self.faults()
        self.assertEqual((printed(text), status), ([(3, "f.txt", 14), (3, "more.txt", 2), (3, "rates.csv", 1)], 1))
        self.assertTrue(text.endswith(f"\nrates.csv:1:1: error: {WORDS[3]}\n"))

    def test_a_hundred_at_most(self) -> None:
        for count in (99, 100, 101, 300):
            self.put(HEAD + "the income = the weather\n" * count)
            text, status = self.faults()
            self.assertEqual((len(printed(text)), status), (min(count, 100), 1), count)
            self.assertEqual(text.endswith(f"  ^\n{ENDED.format(100)}"), count >= 100, count)

    def test_three_at_most_of_a_long_file(self) -> None:
        for length, most in ((1048576, 20), (1048577, 3)):
            text = HEAD + "the income = the weather\n" * 20
            # Comments of at most 1,000 bytes fill the file.
            rest = length - len(text)
            text += ("#" * 999 + "\n") * (rest // 1000) + "#" * (rest % 1000)
            self.put(text)
            found, _ = self.faults()
            self.assertEqual((len(printed(found)), ENDED.format(most) in found), (most, most == 3), length)

    @unittest.skipUnless(os.access(OPA, os.X_OK), "OPA names no program")
    def test_broken_rulebases_by_check(self) -> None:
        """The whole text is what `opa check` finds one after another (tools/faults_by_check.py)."""
        chance = random.Random(57)
        for turn in range(100):
            name = chance.choice(BROKEN)
            lines = (EXAMPLES / name).read_text().split("\n")
            places = [chance.randrange(len(lines)) for _ in range(3)]
            for place in places:
                old, at = lines[place], chance.randrange(len(lines[place]) + 1)
                put, rest = chance.choice(["x", "  ", "(", "", '"', "\t"]), old[at + chance.randrange(2) :]
                lines[place] = old[:at] + put + rest
            what = f"{turn} {name}:{[place + 1 for place in places]}"
            with self.subTest(what), tempfile.TemporaryDirectory() as room:
                for other in EXAMPLES.iterdir():
                    if other.suffix in (".txt", ".csv"):
                        Path(room, other.name).write_bytes(other.read_bytes())
                Path(room, name).write_text("\n".join(lines))
                done = ran(RULES, "faults", name, folder=room)
                text = done.stdout.decode()
                # Without a line that names a file `opa check` would read other files.
                named = [head_of(lines, line) for _, file, line in printed(text) if file == name and line]
                if not any(map(FILE_LINE.match, named)):
                    wanted = by_check(OPA, Path(room), name)
                    self.assertEqual((text, done.returncode), (wanted, 1 if wanted else 0))


if __name__ == "__main__":
    unittest.main()
