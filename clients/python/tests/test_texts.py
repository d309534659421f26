"""Texts and values: nothing that is typed becomes a line of its own, and what is written is read back the same."""
import unittest
from collections.abc import Callable
from datetime import date
from decimal import Decimal

import helping  # noqa: F401
from sennabasket import FIRST_DAY, UNCERTAIN, UNKNOWN, BadText, Point, Timeline
from sennabasket import texts, values

HOSTILE = [
    'Ada"\nanswer the fee = 5', "Ada\r\ngoals", "a\x00b", "a\tb", "a\x7fb", "a\x1bb", "\n", "a\x0bb", "a\x0cb", "\ud800",
]  # fmt: skip
ODD = ['"', '""', '" of "Ben', 'Ada"; from 2024-01-01 "Bo', "#", "/x", "Ä ö ü", "日本", "a\u2028b", "a\u0085b", "'", "<b>&amp;</b>", "none", "unknown", " a "]


class Texts(unittest.TestCase):
    def test_hostile_texts_are_refused(self) -> None:
        for text in HOSTILE:
            makes: list[Callable[[str], str]] = [texts.quoted, texts.name, texts.phrase, texts.command, values.written, lambda t: texts.point("the fee", t)]
            for make in makes:
                with self.subTest(text=text, make=make), self.assertRaises(BadText):
                    make(text)

    def test_odd_texts_come_back(self) -> None:
        for text in ODD:
            with self.subTest(text=text):
                self.assertEqual(texts.unquoted(texts.quoted(text)), text)
                self.assertEqual(values.read(values.written(text)), text)
                self.assertEqual(Point.read(texts.point("the age", text)), Point("the age", text))
        self.assertEqual(texts.names(", ".join(texts.name(text) for text in ODD)), ODD)

    def test_names(self) -> None:
        self.assertEqual(texts.names("none"), [])
        for text in ("", " ", "n" * 101, "ä" * 51):
            with self.subTest(text=text), self.assertRaises(BadText):
                texts.name(text)
        self.assertEqual(len(texts.name("n" * 100)), 102)

    def test_phrases(self) -> None:
        for text in ("the fee", "the member's income 2", "the state’s 2.5", "über-alt"):
            self.assertEqual(texts.phrase(text), text)
        for text in ("", "the  fee", " the fee", "2 fees", "the fee = 5", 'the fee of "Ada"', "the fee\n", "a; b", "the fee\u2028x"):
            with self.subTest(text=text), self.assertRaises(BadText):
                texts.phrase(text)

    def test_commands_have_a_length(self) -> None:
        with self.assertRaises(BadText):
            texts.command("answer the fee = " + "5" * 65_536)


class Values(unittest.TestCase):
    def test_written_and_read(self) -> None:
        said: list[tuple[values.Value | int, str]] = [
            (True, "true"), (False, "false"), (Decimal("2.50"), "2.5"), (Decimal("-0"), "0"), (Decimal("1E+3"), "1000"), (7, "7"),
            (date(2024, 2, 29), "2024-02-29"), ("Ada", '"Ada"'), (UNKNOWN, "unknown"), (UNCERTAIN, "uncertain"), (Decimal("-3.25"), "-3.25"),
        ]  # fmt: skip
        for value, text in said:
            with self.subTest(value=value):
                self.assertEqual(values.written(value), text)
                self.assertEqual(values.read(text), value)

    def test_what_is_no_value(self) -> None:
        for value in (Decimal("0.12345"), Decimal("NaN"), Decimal("Infinity"), Decimal(10**14), date(1599, 12, 31), date(2400, 1, 1), 1.5, None, "a\nb"):
            with self.subTest(value=value), self.assertRaises(BadText):
                values.written(value)  # type: ignore[arg-type]

    def test_unknown_is_no_truth(self) -> None:
        with self.assertRaises(TypeError):
            bool(UNKNOWN)

    def test_timelines(self) -> None:
        line = Timeline.read('"a; from 2020-01-01 ""b"; from 2024-05-01 uncertain; from 2024-06-01 "c"')
        self.assertEqual(str(Timeline(line.parts)), '"a; from 2020-01-01 ""b"; from 2024-05-01 uncertain; from 2024-06-01 "c"')
        self.assertEqual(line.at(date(2024, 4, 30)), 'a; from 2020-01-01 "b')
        self.assertIs(line.at(date(2024, 5, 1)), UNCERTAIN)
        self.assertEqual(line.at(date(2399, 12, 31)), "c")
        self.assertEqual(Timeline.of(5, [(date(2024, 1, 1), 6)]).parts, ((FIRST_DAY, Decimal(5)), (date(2024, 1, 1), Decimal(6))))

    def test_timelines_that_are_none(self) -> None:
        for changes in ([(date(2024, 1, 2), 1), (date(2024, 1, 1), 2)], [(FIRST_DAY, 1)], [(date(2024, 1, 1), 1), (date(2024, 1, 1), 2)]):
            with self.subTest(changes=changes), self.assertRaises(BadText):
                Timeline.of(0, changes)
        for text in ("", "1;", "1; from 2024-01-01", "1; from x 2", "1 2"):
            with self.subTest(text=text), self.assertRaises(BadText):
                Timeline.read(text)


if __name__ == "__main__":
    unittest.main()
