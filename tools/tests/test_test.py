"""How tools/test counts what its parts print."""
import pathlib
import sys
import tempfile
import unittest
from unittest import mock

from loading import tool

test = tool("test")


class Counts(unittest.TestCase):
    def test_one(self) -> None:
        self.assertEqual(test.one(0, ""), (1, 0))
        self.assertEqual(test.one(1, ""), (0, 1))

    def test_last_line(self) -> None:
        self.assertEqual(test.last_line(0, "x\n703 passed, 0 failed, 14 passed over\n"), (703, 0))
        self.assertEqual(test.last_line(1, "1 passed, 0 failed\n20 passed, 3 failed\n"), (20, 3))
        # What fails without a count counts as one failure.
        self.assertEqual(test.last_line(0, "nothing\n"), (0, 1))
        self.assertEqual(test.last_line(2, "5 passed, 0 failed\n"), (5, 1))

    def test_each_line(self) -> None:
        self.assertEqual(test.each_line(1, "a: passed\nb: FAILED\n  (1, 'x')\nc: d: passed\n"), (2, 1))
        self.assertEqual(test.each_line(0, ""), (0, 1))

    def test_unit_tests(self) -> None:
        self.assertEqual(test.unit_tests(0, "Ran 29 tests in 14.040s\n\nOK\n"), (29, 0))
        self.assertEqual(test.unit_tests(1, "Ran 29 tests in 1s\n\nFAILED (failures=1, errors=2)\n"), (26, 3))
        self.assertEqual(test.unit_tests(1, "no module\n"), (0, 1))
        self.assertEqual(test.unit_tests(0, "Ran 9 tests in 1s\n\nOK (skipped=9)\n"), (0, 0))
        self.assertEqual(test.unit_tests(1, "Ran 9 tests in 1s\n\nFAILED (errors=1, skipped=2)\n"), (6, 1))

    def test_reasons(self) -> None:
        said = "a (x.A.a) ... skipped 'no cc'\nb ... ok\nc ... skipped \"it isn't there\"\nd ... skipped 'no cc'\n"
        self.assertEqual(test.reasons(said), ["no cc", "it isn't there"])
        self.assertEqual(test.reasons("a ... ok\n"), [])

    def test_the_first_version_of_the_changes(self) -> None:
        with tempfile.TemporaryDirectory() as held, mock.patch.object(test, "TOP", pathlib.Path(held)):
            for name, text in (("VERSION", "1.2.0\n"), ("README.md", "Version 1.2.0\n")):
                (pathlib.Path(held) / name).write_text(text)
            changes = pathlib.Path(held) / "CHANGELOG.md"
            changes.write_text("## [Unreleased]\n\n## [1.2.0] - 2026-01-01\n\n## [1.1.0] - 2025-01-01\n")
            self.assertEqual(test.versions(), [])
            changes.write_text("## [Unreleased]\n\n## [1.1.0] - 2025-01-01\n")
            self.assertEqual(test.versions(), ["the first heading of a version in CHANGELOG.md isn't 1.2.0"])

    def test_a_python_with_modules(self) -> None:
        self.assertTrue(test.has(sys.executable, "json, csv"))
        self.assertFalse(test.has(sys.executable, "json, nothing_like_this"))
        self.assertFalse(test.has("/nowhere/python", "json"))
        self.assertEqual(test.python_with("json"), sys.executable)
        self.assertEqual(test.python_with("nothing_like_this"), sys.executable)

    def test_a_program_that_is_not_there(self) -> None:
        self.assertEqual(test.program_of("opa", "/nowhere/opa")[0], None)


if __name__ == "__main__":
    unittest.main()
