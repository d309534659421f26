"""tools/proving.py: which crates a program stands on, and what is said while they are proved."""
import unittest

import loading
import proving
from small import Checkout

CRATES = {"low": ["std"], "left": ["low"], "right": ["low"], "opa": ["left", "right"], "tests": ["opa"]}


class Below(unittest.TestCase):
    def test_lowest_first_and_each_once(self) -> None:
        self.assertEqual(proving.below(CRATES, ["opa"]), ["low", "left", "right", "opa"])
        self.assertEqual(proving.below(CRATES, ["left", "opa"]), ["low", "left", "right", "opa"])

    def test_a_program_that_is_not_listed(self) -> None:
        self.assertRaises(proving.Fault, proving.below, CRATES, ["desk"])

    def test_it_is_what_the_checksum_is_over(self) -> None:
        top = loading.TOOLS.parent
        names = proving.below(proving.crates_of(top), ["opa", "desk"])
        checkout = Checkout()
        self.addCleanup(checkout.close)
        _, listed, _ = checkout.run(str(top / "tools" / "source"), "--list")
        lines = [line.split(":")[0].split()[0] for line in listed.splitlines()[2:] if line.split(":")[0] in names]
        self.assertEqual(sorted(lines), sorted(names))
        self.assertNotIn("tests_base", names)


class Room(unittest.TestCase):
    def test_it_has_the_crates_and_nothing_else(self) -> None:
        checkout = Checkout()
        self.addCleanup(checkout.close)
        checkout.write("crates/opa/stdin", "given\n")
        checkout.write("crates/opa/must-fail/a.edit", "file: src/main.rt\n")
        room = checkout.room / "room"
        room.mkdir()
        (room / "old").write_text("left by an earlier run\n")
        proving.copy(checkout.top, room, ["low", "opa"])
        self.assertEqual((room / "crates.txt").read_text(), "low: std\nopa: low\n")
        files = sorted(str(path.relative_to(room)) for path in room.rglob("*") if path.is_file())
        wanted = ["HANDLES", "crates.txt", "crates/low/src/main.rt", "crates/opa/src/main.rt", "crates/opa/stdin"]
        self.assertEqual(files, wanted)
        self.assertTrue((room / ".git").is_dir())


class Told(unittest.TestCase):
    def setUp(self) -> None:
        self.said: list[str] = []
        self.progress = proving.Progress(["low", "left", "opa"], self.said.append)

    def test_what_is_proved_and_how_many_are_left(self) -> None:
        for line in ("== low\n", "fn low::a: proved\n", "rt: low proved\n", "rt: low: its tests proved\n"):
            self.progress.take(line)
        self.progress.take("rt: left is kept: an earlier run on this machine proved the same files\n")
        self.assertEqual(len(self.said), 2)
        self.assertTrue(self.said[0].startswith("low is proved, 2 left"))
        self.assertTrue(self.said[1].startswith("left is proved (by an earlier run of the same files), 1 left"))
        self.assertEqual((self.progress.kept, self.progress.proved, self.progress.left), (1, 1, {"opa"}))

    def test_what_is_not_proved(self) -> None:
        self.progress.take("rt: opa NOT PROVED\n")
        self.assertEqual((self.said, self.progress.left), (["opa NOT PROVED"], {"low", "left", "opa"}))


if __name__ == "__main__":
    unittest.main()
