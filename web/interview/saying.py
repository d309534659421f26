"""The page's own texts in each language, and how a language writes dates and numbers."""
from __future__ import annotations

import pathlib
import re
import tomllib
from datetime import date
from decimal import Decimal
from typing import Any

from sennabasket import FIRST_DAY, UNCERTAIN, UNKNOWN, Value

FOLDER = pathlib.Path(__file__).resolve().parent / "texts"


class Saying:
    """One language."""

    def __init__(self, language: str) -> None:
        self.language = language
        self.texts: dict[str, Any] = tomllib.loads((FOLDER / f"{language}.toml").read_text(encoding="utf-8"))

    def __call__(self, key: str, **parts: object) -> str:
        return str(self.texts[key]).format(**parts)

    def day(self, day: date) -> str:
        return str(self.texts["date_form"]).format(day=day.day, month=self.texts["months"][day.month - 1], year=day.year)

    def number(self, value: Decimal, decimals: int | None = None) -> str:
        text = f"{value:,.{decimals}f}" if decimals is not None else f"{value.normalize():,f}"
        return text.translate(str.maketrans({",": self.texts["thousands"], ".": self.texts["decimal"]}))

    def read_number(self, text: str) -> Decimal | None:
        """A number as people of this language write it; nothing, where it is none."""
        thousands, decimal = re.escape(self.texts["thousands"]), re.escape(self.texts["decimal"])
        found = re.fullmatch(rf"(-?)(\d{{1,3}}(?:{thousands}\d{{3}})+|\d{{1,20}})(?:{decimal}(\d{{1,20}}))?", text.replace("−", "-"), re.ASCII)
        if not found:
            return None
        return Decimal(found[1] + found[2].replace(self.texts["thousands"], "") + "." + (found[3] or "0"))

    def value(self, value: Value, kind: str = "", unit: str = "", choices: dict[str, str] | None = None) -> str:
        if value is UNKNOWN or value is UNCERTAIN:
            return self(str(value))
        if isinstance(value, bool):
            return self("yes" if value else "no")
        if isinstance(value, Decimal):
            said = self.number(value, 2 if kind == "currency" else None)
            return f"{said} {unit}" if unit else said
        if isinstance(value, date):
            return self.day(value)
        return (choices or {}).get(str(value), str(value))

    def since(self, day: date, index: int) -> str:
        return self("at_first") if index == 0 or day == FIRST_DAY else self("from_day", day=self.day(day))


def languages() -> list[str]:
    return sorted(path.stem for path in FOLDER.glob("*.toml"))
