"""What docs/CHANGES_OF_LAW.md says that a tool prints is what it prints."""
from __future__ import annotations

import re
import shlex
import shutil
import unittest

from tools.tests.base import EXAMPLES, TOP, ToolTest


class PagesTest(ToolTest):
    def test_each_printed_block(self) -> None:
        page = (TOP / "docs" / "CHANGES_OF_LAW.md").read_text()
        blocks = re.findall(r"^<!-- printed by (.+?) -->\n\n((?:    [^\n]*\n|\n(?=    ))+)", page, re.M | re.S)
        self.assertEqual(len(blocks), page.count("<!-- printed by"))
        shutil.copytree(EXAMPLES, self.folder, dirs_exist_ok=True)
        alone = self.folder / "permit_alone"
        alone.mkdir()
        for name in ("permit.txt", "permit_replies.txt", "permit_output.txt"):
            shutil.copy(EXAMPLES / name, alone)
        printed: dict[str, str] = {}
        for command, block in blocks:
            self.tool, *words = shlex.split(command)
            printed.setdefault(command, "")
            printed[command] = printed[command] or self.printed(*words)
            said = "".join(line[4:] if line.startswith("    ") else line for line in block.splitlines(keepends=True))
            self.assertTrue(said in printed[command], f"{command} doesn't print:\n{said}")


if __name__ == "__main__":
    unittest.main()
