"""tools/launch and tools/source over a small checkout: which program runs, and what is said if there is none."""
import shutil
import unittest

from small import Checkout


class Launch(unittest.TestCase):
    def setUp(self) -> None:
        self.checkout = Checkout()
        self.addCleanup(self.checkout.close)

    def refused(self, *wanted: str, **env: str) -> None:
        status, printed, said = self.checkout.run("./opa", "run", "x.txt", **env)
        self.assertEqual((status, printed, said.count("\n")), (2, "", 1), said)
        for part in wanted:
            self.assertIn(part, said)

    def test_without_a_program(self) -> None:
        self.refused("no program of these sources", "no release/", "./opa --prove")

    def test_a_release_of_these_sources_runs(self) -> None:
        self.checkout.release()
        self.assertEqual(self.checkout.run("./opa", "run", "a b")[:2], (0, "released opa run a b\n"))
        self.assertEqual(self.checkout.run("./desk")[:2], (0, "released desk\n"))
        self.assertEqual(self.checkout.run("./rules", "describe", "x")[:2], (0, "released rules describe x\n"))

    def test_a_release_of_other_sources_does_not_run(self) -> None:
        self.checkout.release()
        self.checkout.write("crates/low/specs/Lib.antt", "changed\n")
        self.refused("release/ is of other sources")

    def test_a_release_whose_bytes_changed_does_not_run(self) -> None:
        self.checkout.release()
        self.checkout.write("release/opa", "#!/bin/sh\necho other\n", 0o755)
        self.refused("don't fit its checksums")

    def test_a_release_without_the_programs_checksum_does_not_run(self) -> None:
        self.checkout.release()
        self.checkout.write("release/SHA256SUMS", "")
        self.refused("don't fit its checksums")

    def test_a_release_without_rules(self) -> None:
        """An earlier release is of other sources; one of these sources in which the program is missing is broken."""
        self.checkout.release()
        self.checkout.write("release/SOURCE", "the checksum of the sources of opa and desk\n")
        (self.checkout.top / "release" / "rules").unlink()
        status, printed, said = self.checkout.run("./rules", "describe", "x")
        self.assertEqual((status, printed, said.count("\n")), (2, "", 1), said)
        self.assertIn("rules: release/ is of other sources", said)
        self.checkout.write("release/SOURCE", f"{self.checkout.source()}\n")
        self.assertIn("rules: the files of release/ don't fit its checksums", self.checkout.run("./rules")[2])

    def test_a_later_c_library_is_named(self) -> None:
        self.checkout.release("glibc 99.1")
        self.refused("glibc 99.1 or later", "the C library here is")

    def test_another_system_is_named(self) -> None:
        self.checkout.release()
        uname = self.checkout.room / "bin" / "uname"
        uname.write_text('#!/bin/sh\n[ "$1" = -s ] && echo Darwin || echo arm64\n')
        uname.chmod(0o755)
        self.refused("Linux on an x86-64 processor", "this is Darwin on arm64")

    def test_what_was_built_here_comes_first(self) -> None:
        self.checkout.release()
        self.assertEqual(self.checkout.run("./opa", "--prove", "run", "x")[:2], (0, "proved opa run x\n"))
        self.assertEqual(self.checkout.run("./opa", "run", "x")[:2], (0, "proved opa run x\n"))
        self.assertTrue(self.checkout.run("./opa", "--which")[1].endswith("/crates/opa/out/opa\n"))
        # Of other sources, or with other bytes, it doesn't run.
        self.checkout.write("crates/opa/out/opa", "#!/bin/sh\necho other\n", 0o755)
        self.assertEqual(self.checkout.run("./opa")[1], "released opa\n")

    def test_what_is_not_proved_is_not_built(self) -> None:
        self.checkout.write("crates/low/src/main.rt", "wrong\n")
        status, printed, said = self.checkout.run("./opa", "--prove", "run", "x")
        self.assertEqual((status, printed), (1, ""))
        self.assertIn("low NOT PROVED", said)
        self.assertFalse((self.checkout.top / "crates/opa/out/opa").exists())

    def test_what_is_proved_and_fails_is_not_built(self) -> None:
        self.checkout.write("crates/opa/src/main.rt", "differs\n")
        status, printed, said = self.checkout.run("./opa", "--prove", "run", "x")
        self.assertEqual((status, printed, "3 passed, 1 failed" in said), (1, "", True), said)
        self.assertFalse((self.checkout.top / "crates/opa/out/opa").exists())

    def test_another_kit_proves_nothing(self) -> None:
        other = self.checkout.room / "kit"
        other.write_text("another kit\n")
        status, _, said = self.checkout.run("./opa", "--prove", KIT_OF_TEST=str(other))
        self.assertEqual(status, 1)
        self.assertIn("the rt here is of another kit", said)

    def test_without_the_kit_nothing_is_proved(self) -> None:
        folder = self.checkout.room / "few"
        folder.mkdir()
        for name in ("sh", "dirname", "readlink", "cat", "python3"):
            (folder / name).symlink_to(shutil.which(name))
        for word in ("--prove", "--unproved"):
            status, _, said = self.checkout.run("./opa", word, "run", "x", PATH=str(folder))
            self.assertEqual((status, said.count("\n")), (2, 1), said)
            self.assertIn(f"{word} needs Python 3.11 or later and the kit", said)
            self.assertIn("there is no rt here", said)

    def test_the_version(self) -> None:
        self.checkout.release()
        status, printed, _ = self.checkout.run("./desk", "--version")
        lines = printed.splitlines()
        version = (self.checkout.top / "VERSION").read_text().strip()
        self.assertEqual((status, lines[0], lines[1]), (0, f"desk {version}", f"sources {self.checkout.source()}"))
        self.assertTrue(lines[3].startswith("program released: "))

    def test_it_runs_from_elsewhere_through_a_link(self) -> None:
        self.checkout.release()
        link = self.checkout.room / "bin" / "opa"
        link.symlink_to(self.checkout.top / "opa")
        self.assertEqual(self.checkout.run("opa", "check")[:2], (0, "released opa check\n"))


class Source(unittest.TestCase):
    def setUp(self) -> None:
        self.checkout = Checkout()
        self.addCleanup(self.checkout.close)
        self.first = self.checkout.source()

    def test_it_is_a_checksum(self) -> None:
        self.assertRegex(self.first, r"^[0-9a-f]{64}$")

    def test_what_the_programs_stand_on_changes_it(self) -> None:
        for name in ("KIT", "HANDLES", "crates/low/src/main.rt", "crates/opa/proofs/F/Proof.antt", "crates/rules/src/b.rt"):
            before = self.checkout.source()
            self.checkout.write(name, "other\n")
            self.assertNotEqual(self.checkout.source(), before, name)

    def test_a_line_of_crates_txt_changes_it(self) -> None:
        self.checkout.write("crates.txt", "low: std csv\ntests_low: low\nopa: low\ndesk: low\nrules: low\n")
        self.assertNotEqual(self.checkout.source(), self.first)

    def test_nothing_else_changes_it(self) -> None:
        for name in ("README.md", "crates/tests_low/src/main.rt", "crates/opa/out/opa", "crates/opa/stdin"):
            self.checkout.write(name, "other\n")
        self.assertEqual(self.checkout.source(), self.first)

    def test_without_the_programs_there_is_none(self) -> None:
        for text in ("low: std\n", "low: std\nopa: low\ndesk: low\n"):
            self.checkout.write("crates.txt", text)
            self.assertNotEqual(self.checkout.run("tools/source")[0], 0)


if __name__ == "__main__":
    unittest.main()
