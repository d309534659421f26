"""The descriptions of all examples: of the schema's form, and as the programs say it."""
import importlib
import importlib.util
import json
import os
import pathlib
import re
import subprocess
import sys
import tempfile
import unittest
from datetime import date
from typing import Any
from unittest import mock

from helping import DESCRIBE, EXAMPLES, TOP, base, needs_programs
from sennabasket import Attribute, Cases, Fault, Listed, Rulebase, RulebaseRefused, program
from sennabasket.program import found
from sennabasket.reports import Gone, Stated

# By its name: whether its types are known depends on what else is installed.
jsonschema: Any = importlib.import_module("jsonschema") if importlib.util.find_spec("jsonschema") else None

RULEBASES = sorted(
    p.name for p in EXAMPLES.glob("*.txt") if re.search(r"^goal ", p.read_text(), re.M) and not p.stem.endswith(("_input", "_output", "_replies"))
)


@needs_programs
class Descriptions(unittest.TestCase):
    @unittest.skipUnless(jsonschema, "python3-jsonschema isn't installed")
    def test_each_example_is_of_the_form(self) -> None:
        schema = json.loads((TOP / "docs" / "description.schema.json").read_text())
        jsonschema.Draft202012Validator.check_schema(schema) if hasattr(jsonschema, "Draft202012Validator") else None
        for name in RULEBASES:
            with self.subTest(name=name):
                jsonschema.validate(base(name).document, schema)

    def test_what_is_mentioned_is_declared(self) -> None:
        for name in RULEBASES:
            found = base(name)
            declared: list[Attribute | Listed] = [*found.attributes.values(), *found.lists.values()]
            for about in declared:
                with self.subTest(name=name, phrase=about.phrase):
                    for phrase in about.rule.attributes if about.rule else ():
                        self.assertIn(phrase, found.attributes)
                    for phrase in about.rule.lists if about.rule else ():
                        self.assertIn(phrase, found.lists)

    def test_rules_and_questions_are_the_programs(self) -> None:
        """Every conclusion's file and line is what a report says, and every first question is known."""
        for name in RULEBASES:
            found = base(name)
            with Cases(found) as cases:
                case = cases.open()
                for phrase in found.goals:
                    with self.subTest(name=name, goal=phrase):
                        report = case.report(phrase, date(2024, 5, 1))
                        for stated in report.stated:
                            rule = found.attributes[stated.point.phrase].rule
                            self.assertEqual((rule.file, rule.line) if rule else ("", 0), (stated.file, stated.line))
                            mentioned = {p for p in (rule.attributes if rule else ())}
                            below = {b.point.phrase for b in report.below(stated, found)}
                            self.assertLessEqual(below & set(found.attributes), mentioned | below)
                question = case.next()
                self.assertTrue(question is None or question.about.rule is None)

    def test_every_line_of_a_report_is_reached(self) -> None:
        """From the asked point, by what rules mention, each other line of the report is come to."""
        found = base("food.txt")
        lines = [
            line for line in (EXAMPLES / "food_cases_input.txt").read_text().split("\n# 2\n")[0].split("\n") if line.startswith(("answer", "list"))
        ]  # fmt: skip
        with Cases(found) as cases:
            case = cases.open(lines)
            for phrase in found.goals:
                report = case.report(phrase, date(2024, 3, 14))
                seen: set[int] = set()
                open_lines: list[Stated | Gone] = [report.asked]
                while open_lines:
                    line = open_lines.pop()
                    if line.number not in seen:
                        seen.add(line.number)
                        open_lines += report.below(line, found) if isinstance(line, Stated) else []
                self.assertEqual(seen, {s.number for s in report.stated} | {g.number for g in report.lists})

    def test_a_refused_rulebase(self) -> None:
        with tempfile.TemporaryDirectory() as folder:
            with open(f"{folder}/bad.txt", "w") as file:
                file.write("goal the weather\n")
            with self.assertRaises(RulebaseRefused) as refused:
                Rulebase.describe(f"{folder}/bad.txt", DESCRIBE)
            self.assertEqual(refused.exception.printed, "refused: rulebase 3 bad.txt:1")
            done = subprocess.run([sys.executable, DESCRIBE, f"{folder}/bad.txt"], capture_output=True, text=True)
            self.assertEqual((done.returncode, done.stdout), (1, "refused: rulebase 3 bad.txt:1\n"))
            with self.assertRaises(Fault):
                Rulebase.describe(f"{folder}/nowhere/bad.txt", DESCRIBE)

    def test_time_and_memory_are_bounded(self) -> None:
        """`rules`, tools/describe and what that runs: each has the same bounds, and who asks for too much is ended."""
        file = EXAMPLES / "permit.txt"
        with tempfile.TemporaryDirectory() as folder:
            asks = pathlib.Path(folder) / "asks"
            asks.write_text(f"#!{sys.executable}\nimport resource\nprint(resource.getrlimit(resource.RLIMIT_AS)[0] >> 20)\nbytes(900 << 20)\nraise SystemExit(7)\n")
            asks.chmod(0o755)
            ways: list[dict[str, Any]] = [{"rules": str(asks)}, {"describe": DESCRIBE, "opa": str(asks)}]
            for more in ways:
                with self.subTest(more=more), mock.patch.dict(os.environ):
                    os.environ.pop("RULES", None)
                    for memory, wanted in ((3 << 30, ": 3072$"), (500 << 20, "MemoryError")):
                        with self.assertRaisesRegex(Fault, wanted):
                            Rulebase.describe(file, memory=memory, **more)
            asks.write_text("#!/bin/sh\nexec sleep 60\n")
            with self.assertRaisesRegex(Fault, "timed out after 0.2"):
                Rulebase.describe(file, rules=str(asks), seconds=0.2)
            asks.write_text("#!/bin/sh\nkill -9 $$\n")
            with self.assertRaisesRegex(Fault, "status -9"):
                Rulebase.describe(file, rules=str(asks))
            for text in ("echo nothing", "exit 1"):
                asks.write_text(f"#!/bin/sh\n{text}\n")
                with self.subTest(text=text), self.assertRaisesRegex(Fault, "can't be described"):
                    Rulebase.describe(file, rules=str(asks))

    def test_a_refusal_in_words(self) -> None:
        refused = RulebaseRefused("refused: rulebase 7 a b.txt:12\nthe fee\nthe rate")
        self.assertEqual((refused.number, refused.file, refused.line), (7, "a b.txt", 12))
        self.assertIn("circle", refused.words)
        self.assertIn(refused.words, str(refused))

    def test_which_program_describes(self) -> None:
        """`rules` where it is given, named or there; else tools/describe."""
        file = EXAMPLES / "permit.txt"
        with tempfile.TemporaryDirectory() as folder:
            rules = pathlib.Path(folder) / "rules"
            rules.write_text(f"#!/bin/sh\n[ $1 = describe ] && {sys.executable} {DESCRIBE} $2 --opa {found('opa')} | sed 's/\"proved\": false/\"proved\": true/'\n")
            rules.chmod(0o755)
            is_proved = lambda **more: Rulebase.describe(file, **more).document["proved"]
            with mock.patch.dict(os.environ), mock.patch.object(program, "of_repository", program.of_repository.__wrapped__):
                os.environ.pop("RULES", None)
                self.assertTrue(is_proved(rules=str(rules)))
                os.environ["RULES"] = str(rules)
                self.assertTrue(is_proved() and is_proved(describe=DESCRIBE))
                del os.environ["RULES"]
                self.assertFalse(is_proved(describe=DESCRIBE, opa=found("opa")))
            for there, wanted in ((str(rules), True), ("", False)):
                with mock.patch.dict(os.environ, {"OPA": found("opa")}), mock.patch.object(program, "of_repository", lambda name: (there, "none")):
                    os.environ.pop("RULES", None)
                    self.assertEqual(is_proved(), wanted)
                    self.assertFalse(is_proved(describe=DESCRIBE))

    def test_tables(self) -> None:
        """Which files are tables is read from the main file, since `rules` doesn't say it."""
        held = base("food.txt")
        tables = {table["file"] for table in Rulebase.describe(EXAMPLES / "food.txt", DESCRIBE, found("opa")).document.get("tables", ())}
        self.assertEqual({file for file in held.files if held.is_table(file)}, tables or {f for f in held.files if f.endswith(".csv")})

    def test_another_form_is_refused(self) -> None:
        with self.assertRaises(Fault):
            Rulebase.from_description({"format": {"name": "sennabasket description", "version": 2}}, ".")


if __name__ == "__main__":
    unittest.main()
