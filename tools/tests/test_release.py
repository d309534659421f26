"""tools/release over a small checkout: what it makes, what it refuses to make, and what --check says."""
import os
import shutil
import unittest

from small import PROGRAMS, Checkout


class Release(unittest.TestCase):
    def setUp(self) -> None:
        self.checkout = Checkout()
        self.addCleanup(self.checkout.close)
        # Programs of this machine, since a release is of x86-64 and reads which C library it wants.
        for name in PROGRAMS:
            shutil.copy("/bin/true", self.checkout.programs / name)

    def made(self) -> None:
        self.checkout.commit()
        status, _, said = self.checkout.run("tools/release")
        self.assertEqual(status, 0, said)

    def checked(self, status: int, *wanted: str) -> None:
        found, printed, said = self.checkout.run("tools/release", "--check")
        self.assertEqual((found, printed, said.count("\n")), (status, "", 1), said)
        for part in wanted:
            self.assertIn(part, said)

    def test_it_is_made_of_what_is_proved(self) -> None:
        self.made()
        release = self.checkout.top / "release"
        self.assertEqual((release / "opa").read_bytes(), (self.checkout.programs / "opa").read_bytes())
        for name in PROGRAMS:
            self.assertTrue(os.access(release / name, os.X_OK))
            self.assertIn(f"  {name}\n", (release / "SHA256SUMS").read_text())
        self.assertEqual((release / "SOURCE").read_text().strip(), self.checkout.source())
        self.assertRegex((release / "NEEDS").read_text(), r"^glibc 2\.\d+\n$")
        notices = (release / "NOTICES").read_text()
        self.assertIn("libraries of the kit of Rattle: os, std.", notices)
        self.assertIn("\nos:\n\nthe licence of os\n", notices)
        self.checked(0, "of these sources", "no program was built here")
        self.assertTrue(self.checkout.run("./opa", "--which")[1].endswith("/release/opa\n"))

    def test_it_is_not_made_of_what_is_not_proved(self) -> None:
        self.checkout.write("crates/opa/src/main.rt", "wrong\n")
        self.checkout.commit()
        status, _, said = self.checkout.run("tools/release")
        self.assertEqual(status, 1)
        self.assertIn("opa NOT PROVED", said)
        self.checked(3, "there is no release/")

    def test_it_is_not_made_if_a_program_fails(self) -> None:
        self.checkout.write("crates/opa/src/main.rt", "differs\n")
        self.checkout.commit()
        self.assertEqual(self.checkout.run("tools/release")[0], 1)
        self.checked(3)

    def test_it_is_not_made_of_what_is_not_committed(self) -> None:
        self.checkout.commit()
        self.checkout.write("crates/low/src/more.rt", "// more\n")
        status, _, said = self.checkout.run("tools/release")
        self.assertEqual((status, "crates/low/src/more.rt" in said), (2, True), said)

    def test_it_is_not_made_if_a_story_differs(self) -> None:
        self.checkout.write("tools/stories.py", "import sys\nprint('0 passed, 1 failed')\nsys.exit(1)\n")
        self.checkout.commit()
        self.assertEqual(self.checkout.run("tools/release")[0], 1)
        self.checked(3)

    def test_it_is_not_made_if_a_test_of_rules_fails(self) -> None:
        self.checkout.write("tools/tests/test_rules.py", "raise ValueError\n")
        self.checkout.commit()
        status, _, said = self.checkout.run("tools/release")
        self.assertEqual((status, "a test of rules fails" in said), (1, True), said)
        self.checked(3)

    def test_it_is_not_made_if_the_gate_built_other_bytes(self) -> None:
        self.checkout.write("crates/opa/out/opa", "other\n", 0o755)
        self.checkout.commit()
        status, _, said = self.checkout.run("tools/release")
        self.assertEqual((status, "crates/opa/out/opa isn't what is proved" in said), (1, True), said)

    def test_check_of_other_sources(self) -> None:
        self.made()
        self.checkout.write("crates/low/src/main.rt", "// other\n")
        self.checked(4, "of other sources")

    def test_check_of_another_version(self) -> None:
        self.made()
        self.checkout.write("VERSION", "9.9.9\n")
        self.checked(4, "another VERSION")

    def test_check_of_changed_bytes(self) -> None:
        self.made()
        with open(self.checkout.top / "release" / "desk", "ab") as program:
            program.write(b"x")
        self.checked(5, "don't fit SHA256SUMS")
        (self.checkout.top / "release" / "desk").unlink()
        self.checked(5, "isn't there")

    def test_check_of_a_release_without_rules(self) -> None:
        """An earlier release had opa and desk only."""
        self.made()
        release = self.checkout.top / "release"
        (release / "rules").unlink()
        self.checked(5, "isn't there")
        (release / "SOURCE").write_text("the checksum of the sources of opa and desk\n")
        self.checked(4, "of other sources")

    def test_check_of_what_was_built_here(self) -> None:
        self.made()
        for name in PROGRAMS:
            built = self.checkout.top / "crates" / name / "out"
            built.mkdir()
            shutil.copy(self.checkout.programs / name, built)
        self.checked(0, "opa, desk and rules as built here, byte for byte")
        self.checkout.write("crates/desk/out/desk", "other\n")
        self.checked(6, "release/desk isn't byte for byte")
        # What a stamp says to be of other sources isn't compared.
        self.checkout.write("crates/desk/out/desk.source", "other sum\n")
        self.checked(0, "opa and rules as built here")


if __name__ == "__main__":
    unittest.main()
