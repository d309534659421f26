"""`rules describe`: the document of each example has the schema's form and says what tools/describe says; words and statuses.

The program is the environment's RULES, or the built one of this repository.
"""
from __future__ import annotations

import json
import os
import re
import subprocess
import sys
import tempfile
import unittest
from typing import Any

from tools.tests.base import EXAMPLES, OPA, TOP

try:
    import jsonschema
except ImportError:
    jsonschema = None  # type: ignore[assignment]

RULES = os.environ.get("RULES", str(TOP / "crates" / "rules" / "out" / "rules"))
RULEBASES = sorted(
    p.name for p in EXAMPLES.glob("*.txt") if re.search(r"^goal ", p.read_text(), re.M) and not p.stem.endswith(("_input", "_output", "_replies"))
)


def ran(*words: str, folder: object = EXAMPLES) -> subprocess.CompletedProcess[str]:
    return subprocess.run([RULES, *words], cwd=str(folder), capture_output=True, text=True, timeout=60)


def shared(document: dict[str, Any]) -> dict[str, Any]:
    """What both programs say: rules by the places where they stand, bounds as numbers, and no lists that `members` blocks conclude."""
    attributes = [
        {key: value for key, value in each.items() if key not in ("declared", "sentence", "rule", "least", "most")}
        | {"rule": each["rule"] and (each["rule"]["file"], each["rule"]["line"])}
        | {key: each[key] and float(each[key]) for key in ("least", "most")}
        for each in document["attributes"]
    ]  # fmt: skip
    lists = [{key: each[key] for key in ("phrase", "sort", "of", "to", "question", "screen")} for each in document["lists"] if each["sort"] != "concluded"]
    entities = [{key: each[key] for key in ("phrase", "in", "list")} for each in document["entities"]]
    plain = {key: document[key] for key in ("format", "rulebase", "goals", "screens", "limits")}
    return plain | {"attributes": attributes, "lists": lists, "entities": entities, "files": [each["name"] for each in document["files"]]}


@unittest.skipUnless(os.access(RULES, os.X_OK), "RULES names no program")
class Rules(unittest.TestCase):
    maxDiff = None

    def described(self, name: str) -> dict[str, Any]:
        done = ran("describe", name)
        self.assertEqual((done.returncode, done.stderr), (0, ""))
        self.assertTrue(done.stdout.endswith("}\n"))
        return json.loads(done.stdout)

    @unittest.skipUnless(jsonschema, "python3-jsonschema isn't installed")
    def test_each_example_is_of_the_form(self) -> None:
        schema = json.loads((TOP / "docs" / "description.schema.json").read_text())
        for name in RULEBASES:
            with self.subTest(name=name):
                jsonschema.validate(self.described(name), schema)

    @unittest.skipUnless(os.access(OPA, os.X_OK), "OPA names no program")
    def test_each_example_is_described_as_by_the_tool(self) -> None:
        for name in RULEBASES:
            with self.subTest(name=name):
                words = [sys.executable, str(TOP / "tools" / "describe"), str(EXAMPLES / name), "--opa", OPA]
                told = subprocess.run(words, capture_output=True, text=True, timeout=60, check=True)
                self.assertEqual(shared(self.described(name)), shared(json.loads(told.stdout)))

    def test_sentences_have_their_parts(self) -> None:
        for name in RULEBASES:
            for each in self.described(name)["attributes"]:
                with self.subTest(name=name, phrase=each["phrase"]):
                    said = each["sentence"]
                    self.assertEqual(said is not None, each["kind"] == "bool")
                    if said:
                        joined = [(each["phrase"], "subject", "said", "rest"), (each["denied"], "subject", "denied", "rest")]
                        joined.append((each["question"].removesuffix("?"), "ask", "subject", "tail", "rest"))
                        for text, *keys in joined:
                            self.assertEqual(text, " ".join(said[key] for key in keys if said[key]))

    def test_a_refused_rulebase(self) -> None:
        with tempfile.TemporaryDirectory() as folder:
            with open(f"{folder}/bad.txt", "w") as file:
                file.write("goal the weather\n")
            done = ran("describe", "bad.txt", folder=folder)
            self.assertEqual((done.returncode, done.stdout), (1, "refused: rulebase 3 bad.txt:1\n"))

    def test_other_words(self) -> None:
        for words in ([], ["describe"], ["describe", "-x"], ["check", "food.txt"], ["describe", "food.txt", "food.txt"], ["describe", "--", "food.txt"]):
            with self.subTest(words=words):
                done = ran(*words)
                self.assertEqual((done.returncode, done.stdout), (2, "usage: rules MODE NAME | rules review --json NAME\n"))


if __name__ == "__main__":
    unittest.main()
