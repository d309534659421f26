"""examples/compared: one policy by three engines, with the sum worked out here by itself."""
from __future__ import annotations

import shutil
import subprocess
import sys
import unittest
from decimal import Decimal

from tools.tests.base import DESK, TOP, ToolTest
from tools.tests.test_compare import allowance

SCRIPT = TOP / "examples" / "compared" / "side_by_side"


class ComparedTest(ToolTest):
    @unittest.skipUnless(shutil.which("clips") and shutil.which("swipl"), "clips and swipl aren't there")
    def test_the_same_results(self) -> None:
        done = subprocess.run([sys.executable, SCRIPT, "--cases", "300", "--desk", DESK], capture_output=True, text=True, timeout=200)
        self.assertEqual((done.returncode, done.stderr), (0, ""))
        text = SCRIPT.read_text().replace("\nmain()\n", "\n")
        scope: dict[str, object] = {"__file__": str(SCRIPT), "__name__": "side_by_side"}
        exec(compile(text, str(SCRIPT), "exec"), scope)
        total = Decimal(0)
        for people, cents, pensioner in scope["made"](300):  # type: ignore[operator]
            household = {"the number of people": str(people), "the monthly income": str(Decimal(cents) / 100), "the household has a pensioner": pensioner}
            total += allowance(household, 2026)
        self.assertTrue(done.stdout.endswith(f"all results are the same: {total:.2f} in sum\n"), done.stdout)

    def test_bad_input(self) -> None:
        done = subprocess.run([sys.executable, SCRIPT, "--cases", "0", "--desk", DESK], capture_output=True, text=True)
        self.assertEqual((done.returncode, done.stdout, done.stderr), (2, "", "side_by_side: --cases 0: at least one is wanted\n"))


if __name__ == "__main__":
    unittest.main()
