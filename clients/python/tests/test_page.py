"""The example of docs/WEB.md prints what the page says that it prints."""
import re
import subprocess
import sys
import unittest

from helping import TOP, needs_programs


@needs_programs
class ThePage(unittest.TestCase):
    def test_the_example(self) -> None:
        page = (TOP / "docs" / "WEB.md").read_text()
        blocks = re.findall(r"(?:^    .*\n|^\n(?=    ))+", page, re.M)
        at = next(n for n, block in enumerate(blocks) if "from sennabasket import" in block)
        example, printed = ("".join(line.removeprefix("    ") for line in block.splitlines(True)).strip() + "\n" for block in blocks[at : at + 2])
        done = subprocess.run([sys.executable, "-c", example], cwd=TOP, capture_output=True, text=True)
        self.assertEqual((done.stdout, done.stderr), (printed, ""))


if __name__ == "__main__":
    unittest.main()
