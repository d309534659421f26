"""What editors find in an output of `rules faults`: Vim by its errorformat, VS Code by its problem matcher.

The output is a saved one; tools/tests/test_faults.py compares it with what the program prints. Without Vim its test is
skipped.
"""
from __future__ import annotations

import json
import re
import shutil
import subprocess
import tempfile
import unittest
from pathlib import Path

TOP = Path(__file__).resolve().parents[2]
VIM = shutil.which("vim")

RULEBASE = """verb is / is not / is /
global
  bool the card [is] free
  bool the reader [is] known
  number the age
goal the yearly fee
the card is free if
  the reader is known
the reader is known if
  the card is free
the age =
  1 if
    the aeg > 1
  2 otherwise
"""
OUTPUT = """card.txt:6:6: error: no attribute or list is called 'the yearly fee'
  goal the yearly fee
       ^
card.txt:13:5: error: no attribute or list is called 'the aeg'; did you mean 'the age'?
  the aeg > 1
  ^
card.txt:7:1: error: these conclusions need one another, so none of them can come first:
  the card is free
  the reader is known
  the card is free if
  ^
"""
# What a second run prints, of a rulebase that names a file that isn't there.
MISSING = "no such.txt:0:1: error: there is no such file\n"
# A line that looks as if it were an error itself.
LOOKS_SO = "card.txt:6:1: error: this can't be read\n  other.txt:1:1: error: no\n  ^\n"

PLACES = [("card.txt", 6, 6), ("card.txt", 13, 5), ("card.txt", 7, 1), ("no such.txt", 0, 1), ("card.txt", 6, 1)]
WORDS = "error: these conclusions need one another, so none of them can come first:".removeprefix("error: ")


class VsCode(unittest.TestCase):
    def test_the_problem_matcher(self) -> None:
        package = json.loads((TOP / "editors" / "textmate" / "package.json").read_text())
        (matcher,) = package["contributes"]["problemMatchers"]
        pattern = matcher["pattern"]
        lines = (OUTPUT + MISSING + LOOKS_SO).splitlines()
        found = [match for line in lines if (match := re.search(pattern["regexp"], line))]
        file, line, column = pattern["file"], pattern["line"], pattern["column"]
        places = [(match[file], int(match[line]), int(match[column])) for match in found]
        self.assertEqual(places, PLACES)
        self.assertEqual({match[pattern["severity"]] for match in found}, {"error"})
        self.assertEqual(found[2][pattern["message"]], WORDS)


# Prints each entry of the list as a line of JSON, into the file `found`.
SCRIPT = """set nomore
execute 'set runtimepath^=' . fnameescape($EDITORS)
edit card.txt
compiler rules
call writefile([&makeprg], 'program')
cgetfile output
let found = []
for each in getqflist()
  call add(found, json_encode([each.valid, bufname(each.bufnr), each.lnum, each.col, each.type, each.text]))
endfor
call writefile(found, 'found')
qall!
"""


@unittest.skipUnless(VIM, "vim isn't installed")
class Vim(unittest.TestCase):
    maxDiff = None

    def listed(self, text: str) -> tuple[list[list[object]], str]:
        """The list that Vim makes of an output, and its program."""
        with tempfile.TemporaryDirectory(prefix="editors-") as room:
            folder = Path(room)
            for name, held in {"card.txt": RULEBASE, "output": text, "script.vim": SCRIPT}.items():
                (folder / name).write_text(held)
            own = {"EDITORS": str(TOP / "editors" / "vim"), "HOME": room}
            env = {**own, "TERM": "dumb", "PATH": "/usr/bin:/bin", "LC_ALL": "C.UTF-8"}
            words = [str(VIM), "-N", "-u", "NONE", "-i", "NONE", "-es", "-S", "script.vim"]
            subprocess.run(words, cwd=folder, env=env, stdin=subprocess.DEVNULL, capture_output=True, timeout=60)
            found = [json.loads(line) for line in (folder / "found").read_text().splitlines()]
            return found, (folder / "program").read_text().strip()

    def test_the_list(self) -> None:
        found, program = self.listed(OUTPUT + MISSING + LOOKS_SO)
        self.assertEqual([tuple(each[1:4]) for each in found], PLACES)
        self.assertEqual([(each[0], str(each[4]).upper()) for each in found], [(1, "E")] * len(PLACES))
        self.assertEqual(found[2][5], f"{WORDS}\n  the card is free\n  the reader is known\n  the card is free if")
        self.assertEqual(program, "rules faults %:S")

    def test_an_accepted_rulebase(self) -> None:
        self.assertEqual(self.listed("")[0], [])


if __name__ == "__main__":
    unittest.main()
