"""Values: bool, Decimal, date and str as Python has them, UNKNOWN, UNCERTAIN, and Timeline for a value that changes over time."""
from __future__ import annotations

import enum
import re
from collections.abc import Iterable, Iterator
from dataclasses import dataclass
from datetime import date
from decimal import Decimal, InvalidOperation
from typing import Union

from . import texts
from .errors import BadText

FIRST_DAY, LAST_DAY = date(1600, 1, 1), date(2399, 12, 31)
GREATEST = Decimal(10_000_000_000_000)


class Missing(enum.Enum):
    """UNKNOWN: nobody has said it yet. UNCERTAIN: it was asked, and can't be told."""

    UNKNOWN = "unknown"
    UNCERTAIN = "uncertain"

    def __str__(self) -> str:
        return self.value

    def __bool__(self) -> bool:
        raise TypeError(f"{self.value} is neither true nor false: compare with `is`")


UNKNOWN, UNCERTAIN = Missing.UNKNOWN, Missing.UNCERTAIN
Value = Union[bool, Decimal, date, str, Missing]


def day(value: date) -> str:
    if not FIRST_DAY <= value <= LAST_DAY:
        raise BadText(f"days go from {FIRST_DAY} to {LAST_DAY}")
    return value.isoformat()


def written(value: Value | int) -> str:
    """A value as a command has it."""
    if isinstance(value, Missing):
        return value.value
    if isinstance(value, bool):
        return "true" if value else "false"
    if isinstance(value, (int, Decimal)):
        return number(Decimal(value))
    if isinstance(value, date):
        return day(date(value.year, value.month, value.day))
    if isinstance(value, str):
        return texts.quoted(value)
    raise BadText(f"this is no value: {value!r:.100}")


def number(value: Decimal) -> str:
    if not value.is_finite() or abs(value) > GREATEST:
        raise BadText(f"numbers go from -{GREATEST} to {GREATEST}")
    plain = value.normalize()
    exponent = plain.as_tuple().exponent
    if not isinstance(exponent, int) or exponent < -4:
        raise BadText("a number has at most four decimals")
    text = f"{plain:f}"
    return "0" if text == "-0" else text


def read(text: str) -> Value:
    """A value as the program prints it."""
    if text in ("unknown", "uncertain"):
        return Missing(text)
    if text in ("true", "false"):
        return text == "true"
    if text.startswith('"'):
        return texts.unquoted(text)
    if re.fullmatch(r"\d{4}-\d\d-\d\d", text):
        return date.fromisoformat(text)
    try:
        return Decimal(text)
    except InvalidOperation:
        raise BadText(f"this is no value: {text[:100]}") from None


def plain(value: Value | int) -> Value:
    return Decimal(value) if isinstance(value, int) and not isinstance(value, bool) else value


@dataclass(frozen=True)
class Timeline:
    """A value for every day: each part holds from its day to the day before the next one; the first begins on FIRST_DAY."""

    parts: tuple[tuple[date, Value], ...]

    def __post_init__(self) -> None:
        days = [since for since, _ in self.parts]
        if not days or days[0] != FIRST_DAY or any(one >= two for one, two in zip(days, days[1:])):
            raise BadText(f"a timeline begins on {FIRST_DAY}, and its days rise")

    @classmethod
    def of(cls, value: Value | int, changes: Iterable[tuple[date, Value | int]] = ()) -> Timeline:
        """A value, and others from later days on."""
        return cls(tuple((since, plain(each)) for since, each in [(FIRST_DAY, value), *changes]))

    @classmethod
    def read(cls, text: str) -> Timeline:
        """`VALUE; from DATE VALUE; ..`"""
        value = rf"{texts.QUOTED}|[^\s;\"]+"
        found = re.fullmatch(rf"({value})((?:; from \d{{4}}-\d\d-\d\d (?:{value}))*)", text)
        if not found:
            raise BadText(f"this is no line of values: {text[:100]}")
        later = re.findall(rf"; from (\d{{4}}-\d\d-\d\d) ({value})", found[2])
        return cls(((FIRST_DAY, read(found[1])), *((date.fromisoformat(since), read(v)) for since, v in later)))

    def at(self, when: date) -> Value:
        """The value on a day."""
        if not FIRST_DAY <= when <= LAST_DAY:
            raise BadText(f"days go from {FIRST_DAY} to {LAST_DAY}")
        return [value for since, value in self.parts if since <= when][-1]

    def __iter__(self) -> Iterator[tuple[date, Value]]:
        return iter(self.parts)

    def __str__(self) -> str:
        first, *later = self.parts
        return "; ".join([written(first[1]), *(f"from {day(since)} {written(value)}" for since, value in later)])
