"""Words for people: what they say, what stands in where they don't, and which of them are missing or name nothing."""
import pathlib
import subprocess
import sys
import tempfile
import unittest
from datetime import date
from decimal import Decimal

from browsing import EXAMPLES, HERE, MISSING, needs_site

if not MISSING:
    from interview.fields import Field, Piece, Wrong
    from interview.pictures import picture
    from interview.saying import Saying, languages
    from interview.words import BadWords, Words, beside
    from sennabasket import UNCERTAIN, UNKNOWN, Point, Rulebase, Timeline, Value

    BASE = Rulebase.describe(EXAMPLES / "food.txt")


@needs_site
class OfARulebase(unittest.TestCase):
    def words(self, text: str) -> "Words":
        with tempfile.TemporaryDirectory() as folder:
            path = pathlib.Path(folder) / "food.words.toml"
            path.write_text(text)
            return Words.read(BASE, path)

    def test_without_words(self) -> None:
        """The name stands in the place of the entity's phrase."""
        words = Words.read(BASE, None)
        says = lambda phrase, of=None: words.question("en", BASE.attributes.get(phrase) or BASE.lists[phrase], of)
        self.assertEqual(says("the member receives public assistance", "Ada"), "Does Ada receive public assistance?")
        self.assertEqual(says("the member's date of birth", "Ada"), "What is Ada's date of birth?")
        self.assertEqual(says("the members"), "Which are the members?")
        self.assertEqual(says("the member is a pupil", r"\1 {x}"), r"Is \1 {x} a pupil?")
        self.assertEqual(words.named("the price", "the member", "Ada"), "the price (Ada)")
        self.assertEqual(words.named("the membership of the members", "the member", "Ada"), "the membership of the members (Ada)")

    def test_with_words(self) -> None:
        words = self.words('language = "en"\n[en.words."the member\'s cash"]\nquestion = "What has {member}, {name}?"\nunit = "dollars"\n[de.words."the members"]\nquestion = "Wer?"\n')
        cash = BASE.attributes["the member's cash"]
        self.assertEqual(words.question("en", cash, "{member}"), "What has {member}, {member}?")
        self.assertEqual(words.question("de", cash, "Ada"), "What has Ada, Ada?")
        self.assertEqual(words.unit("de", cash.phrase), "dollars")
        self.assertEqual(words.question("de", BASE.lists["the members"], None), "Wer?")

    def test_faults(self) -> None:
        faults = self.words(
            'language = "en"\n[en.screens]\nCost = "x"\n[en.words."the weather"]\nquestion = "?"\n[en.words."the member\'s cash"]\nquestion = "{child}?"\n'
            '[en.words."the monthly rent"]\nquestion = "{member}?"\nchoices = {a = "b"}\n[en.words."the members"]\nunit = "x"\n[de.words."the members"]\nquestion = "Wer?"\n'
        ).faults()
        for said in (
            '[en.screens] "Cost" names no screen', '[en.words."the weather"] names nothing that is declared', "question has {child}, which names nothing",
            "question has {member}, which names nothing", "choices are for texts alone", "a unit is for numbers alone", '[de] has no title for the screen "Costs"',
            '[de] has no question for "the monthly rent"', '[en] has no label for the goal "the application is approved"',
        ):  # fmt: skip
            self.assertTrue(any(said in fault for fault in faults), said)

    def test_files_that_are_none(self) -> None:
        for text in ("x = [", '[english]\ntitle = "x"', '[en]\ntitel = "x"', '[en.words."the members"]\nquestion = 3', '[en.words."the members"]\nask = "x"', 'language = "de"\n[en]\ntitle = "x"', "en = 3"):
            with self.subTest(text=text), self.assertRaises(BadWords):
                self.words(text)

    def test_the_examples_words_are_whole(self) -> None:
        paths = list(EXAMPLES.glob("*.words.toml"))
        self.assertIn("food.words.toml", [path.name for path in paths])
        for path in paths:
            main = path.with_name(path.name.replace(".words.toml", ".txt"))
            self.assertEqual(beside(main), path)
            self.assertEqual(Words.read(Rulebase.describe(main), path).faults(), [])

    def test_the_tool(self) -> None:
        """What it writes to begin with is a file of words without faults."""
        with tempfile.TemporaryDirectory() as folder:
            for name in ("school", "permit"):
                main = pathlib.Path(folder) / f"{name}.txt"
                main.write_text((EXAMPLES / main.name).read_text())
                run = lambda: subprocess.run([sys.executable, str(HERE.parent / "words"), str(main)], capture_output=True, text=True)
                written = run()
                self.assertEqual(written.returncode, 0)
                main.with_name(f"{name}.words.toml").touch()
                self.assertEqual(run().stdout, written.stdout)
                main.with_name(f"{name}.words.toml").write_text(written.stdout)
                self.assertEqual(beside(main), main.with_name(f"{name}.words.toml"))
                self.assertEqual(run().stdout, f"{name}.words.toml: 0 faults\n")
            main.with_name("permit.words.toml").write_text('[en.words."the resident has a house"]\nquestion = "x"\n')
            done = run()
            self.assertEqual(done.returncode, 1)
            self.assertIn('[en.words."the resident has a house"] names nothing that is declared', done.stdout)


@needs_site
class Sayings(unittest.TestCase):
    def test_languages_have_the_same_texts(self) -> None:
        texts = {language: Saying(language).texts for language in languages()}
        for language, said in texts.items():
            self.assertEqual(said.keys(), texts["en"].keys(), language)
            for key, text in said.items():
                if isinstance(text, str):
                    parts = lambda each: sorted(part.split("}")[0] for part in each.split("{")[1:])
                    self.assertEqual(parts(text), parts(texts["en"][key]), key)

    def test_numbers(self) -> None:
        english, german = Saying("en"), Saying("de")
        for saying, text, value in (
            (english, "1,234.5", "1234.5"), (english, "1234.50", "1234.5"), (english, "-3", "-3"), (english, "−3", "-3"), (english, "1,23", None), (english, "1.2.3", None),
            (english, "", None), (english, ".5", None), (english, "1,234,567", "1234567"), (english, "12,34,567", None), (german, "1.234,5", "1234.5"), (german, "1,5", "1.5"),
            (german, "1.5", None), (german, "12", "12"), (english, "１", None), (english, "1 000", None), (english, "0x10", None), (english, "NaN", None),
        ):  # fmt: skip
            with self.subTest(text=text):
                self.assertEqual(saying.read_number(text), None if value is None else Decimal(value))
        self.assertEqual((english.number(Decimal("1234.5"), 2), german.number(Decimal("1234.5"), 2), english.number(Decimal(1000))), ("1,234.50", "1.234,50", "1,000"))

    def test_what_is_filled_in_is_read_back(self) -> None:
        about = BASE.attributes["the monthly rent"]
        for saying in (Saying("en"), Saying("de")):
            for value in ("0", "0.5", "1234.56", "1000000", "12"):
                made = Field("q0", Point(about.phrase), about, "number")
                held = Timeline.of(Decimal(value), [(date(2024, 5, 1), UNCERTAIN), (date(2024, 6, 1), Decimal("7.25"))])
                made.fill(held, saying)
                self.assertEqual(made.said(saying), held)

    def test_bounds(self) -> None:
        from interview.fields import bounds

        about = BASE.attributes["the monthly rent"]
        self.assertEqual((bounds(about, Saying("en")), bounds(about, Saying("de"))), ("0 or more.", "0 oder mehr."))
        self.assertEqual(bounds(about, Saying("en"), is_wrong=True), "0 or more. At most 2 digits after the decimal point.")
        self.assertEqual(bounds(BASE.lists["the members"], Saying("en")), "")

    def test_days(self) -> None:
        about = BASE.attributes["the member's date of birth"]
        for parts in (("31", "2", "2024"), ("0", "1", "2024"), ("1", "13", "2024"), ("1", "1", "24"), ("１", "1", "2024"), ("1", "1", "1599"), ("1", "1", "2400"), ("", "1", "2024")):
            made = Field("q0", Point(about.phrase, "Ada"), about, "date", value=Piece("", *parts))
            with self.subTest(parts=parts), self.assertRaises(Wrong):
                made.said(Saying("en"))


@needs_site
class Pictures(unittest.TestCase):
    def test_bars_fill_the_picture(self) -> None:
        for line in (
            Timeline.of(5), Timeline.of(UNKNOWN, [(date(2024, 5, 1), 3), (date(2025, 1, 1), UNCERTAIN)]), Timeline.of(True, [(date(1700, 1, 1), False), (date(2399, 12, 31), True)]),
            Timeline.of(-5, [(date(2024, n, 1), n * 10) for n in range(1, 13)]), Timeline.of("a", [(date(2030, 1, 1), "b")]), Timeline.of(date(2020, 1, 1)),
        ):  # fmt: skip
            for today in (date(1600, 1, 1), date(2024, 6, 1), date(2399, 12, 31)):
                made = picture(line, today)
                self.assertAlmostEqual(sum(bar.width for bar in made.bars), 100)
                self.assertAlmostEqual(made.bars[0].left, 0)
                self.assertTrue(0 <= made.today <= 100)
                places = [place for _, place in made.years]
                self.assertTrue(all(two - one > 15 for one, two in zip(places, places[1:])), places)  # 37 of 245 pixels
                self.assertTrue(all(7.5 < place < 92.5 for place in places), places)
                self.assertTrue(all(0 <= bar.top and 0 < bar.height <= 60 for bar in made.bars))

    def test_a_value_that_never_changes(self) -> None:
        """One bar over the whole picture, without a number: there is no table with rows."""
        said: list[tuple[Value, str]] = [
            (Decimal(204), "value"), (Decimal(0), "value"), (True, "true"), (False, "false"), (UNKNOWN, "unknown"), (UNCERTAIN, "uncertain"), ("a", "value"),
        ]  # fmt: skip
        for value, look in said:
            made = picture(Timeline.of(value), date(2024, 6, 1))
            self.assertEqual([(bar.left, bar.width, bar.look, bar.is_labelled) for bar in made.bars], [(0, 100, look, False)])
            self.assertEqual([year for year, _ in made.years], [2023, 2024, 2025, 2026])
            self.assertAlmostEqual(made.today, 50, delta=0.1)


if __name__ == "__main__":
    unittest.main()
