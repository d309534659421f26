"""`rules print`: each example as one file, which is accepted, prints as itself, declares the same and decides the same.

The program is the environment's RULES, or the built one of this repository.
"""
from __future__ import annotations

import json
import os
import pathlib
import re
import shutil
import subprocess
import tempfile
import unittest
from typing import Any

from tools.tests.base import EXAMPLES, OPA, TOP

RULES = os.environ.get("RULES", str(TOP / "crates" / "rules" / "out" / "rules"))
RULEBASES = sorted(
    p.name for p in EXAMPLES.glob("*.txt") if re.search(r"^(goal|include) ", p.read_text(), re.M) and not p.stem.endswith(("_input", "_output", "_replies"))
)
PLACE = re.compile(r"rule [^ ]+:\d+$", re.M)
RULES_OF_WIDE = """the house is full if
  Exists(the roll, ((the person has work) and (((not (the trade = "cook")) or (the birth <> 2000-01-01))))) or
  the house is old
the rate =
  -1.5 if
    the house is old = true
  the fee * 2 otherwise
"""


def ran(*words: str, folder: pathlib.Path = EXAMPLES) -> subprocess.CompletedProcess[str]:
    return subprocess.run([RULES, *words], cwd=folder, capture_output=True, text=True, timeout=60)


def declared(name: str, folder: pathlib.Path) -> Any:
    """The description, without files and the places of rules."""
    document = json.loads(ran("describe", name, folder=folder).stdout)
    for each in document["attributes"]:
        if each["rule"]:
            each["rule"] = each["rule"]["mentions"]
    return {key: value for key, value in document.items() if key != "files"}


def played(name: str, given: str, folder: pathlib.Path) -> tuple[int, str]:
    """What a run of commands prints, without the places of rules."""
    done = subprocess.run([OPA, "run", name], cwd=folder, input=given, capture_output=True, text=True, timeout=60)
    return done.returncode, PLACE.sub("rule", done.stdout)


@unittest.skipUnless(os.access(RULES, os.X_OK), "RULES names no program")
class Print(unittest.TestCase):
    maxDiff = None

    def setUp(self) -> None:
        self.folder = pathlib.Path(tempfile.mkdtemp(prefix="print-test-"))
        self.addCleanup(shutil.rmtree, self.folder)

    def printed(self, name: str) -> str:
        done = ran("print", name)
        self.assertEqual((done.returncode, done.stderr), (0, ""))
        (self.folder / name).write_text(done.stdout)
        return done.stdout

    def put(self, name: str, text: str) -> None:
        (self.folder / name).write_text(text)

    def test_a_print_prints_as_itself(self) -> None:
        for name in RULEBASES:
            with self.subTest(name=name):
                text = self.printed(name)
                again = ran("print", name, folder=self.folder)
                self.assertEqual((again.returncode, again.stdout), (0, text))

    def test_a_print_is_described_as_its_rulebase(self) -> None:
        for name in RULEBASES:
            with self.subTest(name=name):
                self.printed(name)
                self.assertEqual(declared(name, self.folder), declared(name, EXAMPLES))

    @unittest.skipUnless(os.access(OPA, os.X_OK), "OPA names no program")
    def test_a_print_decides_as_its_rulebase(self) -> None:
        for name in RULEBASES:
            stem = name.removesuffix(".txt")
            for path in sorted(EXAMPLES.glob(f"{stem}*_input.txt")):
                with self.subTest(name=name, given=path.name):
                    self.printed(name)
                    given = re.sub(r"^ *(save|load) .*$", "", path.read_text(), flags=re.M)
                    self.assertEqual(played(name, given, self.folder), played(name, given, EXAMPLES))

    def test_the_spelling_of_each_line(self) -> None:
        self.put(
            "wide.txt",
            'include "more.txt"\ntable "rate.csv"\nverb is / is not / is /\n\nverb has / has no / does / have\n'
            "# A comment.\nglobal\n\tnumber the rate:decimals 2 ,to 50\n\tcurrency the fee : from -5, decimals 2\n\tbool the house [is] old\n"
            "\tevery the roll: the person\nentity the person\n\tin global: the people\n\tbool the person [has] work\n"
            "\treference the friends: many the person\n\treference the spouse: one the person\n\ttext the trade\n\tdate the birth\n"
            'screen "A ""wide"" one"\n\tthe people\n\tthe trade\nglobal\n\tbool the house [is] full\ngoal the house is full\n'
            "members the workers from the roll if\n\tthe person has work\n",
        )
        self.put("more.txt", "the house is full if\n  for at least one of the workers\n    not   (the trade=\"cook\")   or\n    the birth <> 2000-01-01\n  or\n  the house is old\n")
        self.put("rate.csv", "the house is old,= the rate\ntrue,-1.50\notherwise,the fee*2\n")
        done = ran("print", "wide.txt", folder=self.folder)
        self.assertEqual(done.returncode, 0)
        self.assertEqual(
            done.stdout,
            "verb is / is not / is /\nverb has / has no / does / have\nglobal\n  number the rate: to 50, decimals 2\n  currency the fee: from -5\n"
            "  bool the house [is] old\n  every the roll: the person\nentity the person\n  in global: the people\n  bool the person [has] work\n"
            "  text the trade\n  date the birth\n  reference the friends: many the person\n  reference the spouse: one the person\nglobal\n"
            '  bool the house [is] full\nscreen "A ""wide"" one"\n  the people\n  the trade\ngoal the house is full\n' + RULES_OF_WIDE,
        )

    def test_a_refused_rulebase(self) -> None:
        self.put("bad.txt", "goal the weather\n")
        done = ran("print", "bad.txt", folder=self.folder)
        self.assertEqual((done.returncode, done.stdout), (1, "refused: rulebase 3 bad.txt:1\n"))

    def test_what_cannot_be_one_file(self) -> None:
        """Conditions that are on a hundred lines are on one line of a print, which is too long."""
        fact = f"the {'n' * 980} is old"
        self.put(
            "long.txt",
            f"verb is / is not / is /\nglobal\n  bool the house [is] full\nentity the person\n  in global: the people\n  bool the {'n' * 980} [is] old\n"
            "the house is full if\n  for all of the people\n" + f"    {fact} and\n" * 99 + f"    {fact}\n",
        )
        done = ran("print", "long.txt", folder=self.folder)
        self.assertEqual((done.returncode, done.stdout), (6, ""))


if __name__ == "__main__":
    unittest.main()
