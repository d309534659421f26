"""tools/unproved: which files are handed in."""
import os
import pathlib
import tempfile
import unittest

from loading import tool

unproved = tool("unproved")


class HandedIn(unittest.TestCase):
    def setUp(self) -> None:
        held = tempfile.TemporaryDirectory()
        self.addCleanup(held.cleanup)
        self.addCleanup(os.chdir, os.getcwd())
        self.place = pathlib.Path(held.name).resolve()
        (self.place / "rules").mkdir()
        os.chdir(self.place / "rules")

    def write(self, name: str, text: str = "") -> None:
        pathlib.Path(name).write_text(text)

    def test_files_that_files_name(self) -> None:
        self.write("a.txt", 'include "b.txt"\ntable "rates.csv"\n  include "not.txt"\n')
        self.write("b.txt", 'include "c.txt"\ninclude "gone.txt"\n')
        self.write("c.txt", 'include "a.txt"\ntable "say ""so"".csv"\n')
        for name in ("rates.csv", 'say "so".csv', "not.txt"):
            self.write(name)
        words, files = unproved.handed_in(["run", "a.txt"], "")
        self.assertEqual(words, ["run", "a.txt"])
        self.assertEqual(sorted(files), ["a.txt", "b.txt", "c.txt", "rates.csv", 'say "so".csv'])

    def test_files_that_commands_load(self) -> None:
        for name in ("a.txt", "kept.json", "also.json"):
            self.write(name)
        _, files = unproved.handed_in(["interview", "a.txt"], 'load "kept.json"\n/load "also.json"\nsave "x.json"\n')
        self.assertEqual(sorted(files), ["a.txt", "also.json", "kept.json"])

    def test_a_file_from_elsewhere_lies_in_the_folder(self) -> None:
        self.write("../up.txt")
        pathlib.Path("sub").mkdir()
        self.write("sub/low.txt")
        words, files = unproved.handed_in(["verify", "../up.txt", "./sub/low.txt"], "")
        self.assertEqual(words, ["verify", "up.txt", "sub/low.txt"])
        self.assertEqual(files["up.txt"], self.place / "up.txt")


if __name__ == "__main__":
    unittest.main()
