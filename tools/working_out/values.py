"""Days, amounts and lines of values, as they are printed."""
from __future__ import annotations

import datetime
import fractions
import math
import pathlib
from collections.abc import Callable, Iterable

EXAMPLES = pathlib.Path(__file__).resolve().parents[2] / "examples"
Day = datetime.date
FIRST, LAST = Day(1600, 1, 1), Day(2399, 12, 31)
Part = fractions.Fraction
Value = bool | str | Day | int | Part


def cents(amount: Part) -> Part:
    """To two decimals, halves away from zero."""
    size = math.floor(abs(amount) * 100 + Part(1, 2))
    return Part(size if amount >= 0 else -size, 100)


def spelled(value: Value, money: bool = True) -> str:
    if isinstance(value, bool):
        return "true" if value else "false"
    if isinstance(value, (str, Day)):
        return str(value)
    if money:
        return f"{math.floor(value * 100) // 100}.{math.floor(value * 100) % 100:02d}"
    return f"{float(value):.4f}".rstrip("0").rstrip(".")


def line(value_on: Callable[[Day], Value], changes: Iterable[Day], money: bool = True) -> str:
    """The values over days, which change at most on the days given."""
    texts: list[tuple[Day, str]] = []
    for day in sorted({FIRST, *changes}):
        if FIRST <= day <= LAST:
            text = spelled(value_on(day), money)
            if not texts or texts[-1][1] != text:
                texts.append((day, text))
    return "; ".join([texts[0][1], *(f"from {day} {text}" for day, text in texts[1:])])


def age_at(born: Day, day: Day) -> int:
    """Whole years; who was born on 29 February is a year older on 28 February of other years, as AddYears takes the month's last day."""
    years = day.year - born.year
    try:
        birthday = born.replace(year=day.year)
    except ValueError:
        birthday = Day(day.year, 2, 28)
    return years if day >= birthday else years - 1


def years_later(day: Day, years: int) -> Day:
    try:
        return day.replace(year=day.year + years)
    except ValueError:
        return Day(day.year + years, 2, 28)


def months_later(day: Day, months: int) -> Day:
    """The same day of a later month; the days of these examples are in every month."""
    year, month = divmod(day.year * 12 + day.month - 1 + months, 12)
    return Day(year, month + 1, day.day)
