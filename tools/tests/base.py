"""What the tests of the tools share: the programs, a folder of one's own, and running a tool.

The programs are those of the environment's OPA and DESK, or the built ones of this repository; without either the tests are skipped,
since building them takes hours.
"""
from __future__ import annotations

import os
import pathlib
import shutil
import subprocess
import sys
import tempfile
import unittest

TOP = pathlib.Path(__file__).resolve().parent.parent.parent
EXAMPLES = TOP / "examples"
OPA = os.environ.get("OPA", str(TOP / "crates" / "opa" / "out" / "opa"))
DESK = os.environ.get("DESK", str(TOP / "crates" / "desk" / "out" / "desk"))
sys.path.insert(0, str(TOP / "tools"))


@unittest.skipUnless(os.access(OPA, os.X_OK) and os.access(DESK, os.X_OK), "OPA and DESK name no programs")
class ToolTest(unittest.TestCase):
    """A test with a folder, and with the programs."""

    maxDiff = None
    tool = ""

    def setUp(self) -> None:
        self.folder = pathlib.Path(tempfile.mkdtemp(prefix="tool-test-"))
        self.addCleanup(shutil.rmtree, self.folder)

    def put(self, name: str, text: str) -> pathlib.Path:
        (self.folder / name).write_text(text)
        return self.folder / name

    def take(self, *names: str) -> None:
        """Copies of examples."""
        for name in names:
            shutil.copy(EXAMPLES / name, self.folder / name)

    def run_tool(self, *words: object) -> subprocess.CompletedProcess[str]:
        command = [sys.executable, str(TOP / "tools" / self.tool), *map(str, words), "--opa", OPA, "--desk", DESK]
        return subprocess.run(command, cwd=self.folder, capture_output=True, text=True, timeout=300)

    def printed(self, *words: object, status: int = 0) -> str:
        done = self.run_tool(*words)
        self.assertEqual((done.returncode, done.stderr), (status, ""))
        return done.stdout

    def refused(self, *words: object) -> str:
        """What a tool says that ends with status 2 and prints no result."""
        done = self.run_tool(*words)
        self.assertEqual((done.returncode, done.stdout), (2, ""))
        return done.stderr.strip()
