"""tools/tree.py: pages that don't say what the tree of crates is, and edits that don't fit, are found."""
import pathlib
import tempfile
import unittest

import loading  # noqa: F401 (tools/ is where modules are looked for)
import tree

LIST = "# ground: what is below\nlow: std\n\n# top: what is above\nmiddle: low\nopa_high: low middle\n"
PAGE = """There are 3 crates, at most 3 of them in a chain

**ground**: what is below

| crate | what it knows, and for whom | uses |
|---|---|---|
| `low` | much | |

**top**: what is above

| crate | what it knows, and for whom | uses |
|---|---|---|
| `middle` | some | `low` |
| `opa_high` | little | `middle` |
| `opa_high::part` | less | |
"""
EDIT = "file: src/lib.rt\nold: one\nnew: two\nold: two\nnew: three\n"


class Faults(unittest.TestCase):
    def setUp(self) -> None:
        room = tempfile.TemporaryDirectory(prefix="opa-tree-")
        self.addCleanup(room.cleanup)
        self.top = pathlib.Path(room.name)
        for name in ("low", "middle", "opa_high"):
            self.write(f"crates/{name}/src/lib.rt", "//! What it is.\nfn call() { one }\n")
        self.write("crates/opa_high/src/part.rt", "// A part.\n")
        self.write("crates/opa_high/src/part/more.rt", "")
        self.write("crates/opa_high/must-fail/wrong.edit", EDIT)
        self.write("crates.txt", LIST)
        self.write("README.md", "See `opa_high`.\n")
        self.write("docs/ARCHITECTURE.md", PAGE)
        self.write("docs/WRONG_BODIES.md", "| a wrong one | `opa_high`, `wrong`: a clause |\n")

    def write(self, path: str, text: str) -> None:
        (self.top / path).parent.mkdir(parents=True, exist_ok=True)
        (self.top / path).write_text(text)

    def wrong(self, path: str, old: str, new: str, said: str) -> None:
        """One text that is put in place of another gives one fault, which says so much."""
        before = (self.top / path).read_text()
        self.write(path, before.replace(old, new))
        found = list(tree.faults(self.top))
        self.assertEqual((len(found), said in "\n".join(found)), (1, True), found)
        self.write(path, before)

    def test_a_tree_that_is_as_it_is_told(self) -> None:
        self.assertEqual(list(tree.faults(self.top)), [])

    def test_the_page(self) -> None:
        page = "docs/ARCHITECTURE.md"
        self.wrong(page, "| little | `middle` |", "| little | `low` |", "opa_high uses middle")
        self.wrong(page, "| `opa_high::part` | less | |\n", "", "opa_high::part has no row")
        self.wrong(page, "at most 3", "at most 2", "at most 3 of them in a chain")
        self.wrong(page, "**top**: what is above", "**top**: what is over", "no table below")

    def test_names(self) -> None:
        self.wrong("README.md", "`opa_high`", "`opa_gone`", "no crate opa_gone")
        self.wrong("README.md", "`opa_high`", "`opa_high::gone`", "no opa_high::gone")
        self.wrong("docs/WRONG_BODIES.md", "`wrong`", "`gone`", "opa_high has no edit gone")

    def test_crates(self) -> None:
        self.wrong("crates/low/src/lib.rt", "//! What", "// What", "low: its first line")
        self.wrong("crates/opa_high/must-fail/wrong.edit", "old: two", "old: gone", "'gone' doesn't stand once")
        self.wrong("crates/opa_high/src/lib.rt", "one", "one one", "'one' doesn't stand once")


if __name__ == "__main__":
    unittest.main()
