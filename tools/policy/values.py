"""Values and the operations of rules on them, as docs/REFERENCE.md says them."""
from __future__ import annotations

import calendar
import datetime
import re
from collections.abc import Callable, Sequence
from decimal import ROUND_HALF_UP, Context, Decimal

from .texts import DATE, unquoted

UNKNOWN, UNCERTAIN = "unknown", "uncertain"
WIDE = Context(prec=60, rounding=ROUND_HALF_UP)
MOST = Decimal(10) ** 13
FIRST, LAST = datetime.date(1600, 1, 1), datetime.date(2399, 12, 31)

# unknown and uncertain are texts; true and false are bool; a number is a Decimal; texts and dates are pairs with their kind.
Value = object


def typed(printed: str) -> Value:
    """The value that a printed value is."""
    if printed in (UNKNOWN, UNCERTAIN):
        return printed
    if printed in ("true", "false"):
        return printed == "true"
    if re.fullmatch(DATE, printed):
        return ("date", printed)
    return ("text", unquoted(printed)) if printed.startswith('"') else Decimal(printed)


def is_plain(value: Value) -> bool:
    return value != UNKNOWN and value != UNCERTAIN


def strict(values: Sequence[Value]) -> Value | None:
    """unknown if one is unknown, else uncertain if one is uncertain, else None."""
    if UNKNOWN in values:
        return UNKNOWN
    return UNCERTAIN if UNCERTAIN in values else None


def joined(values: Sequence[Value], decides: bool) -> Value:
    """`all` (decides is False) or `any` (decides is True)."""
    if any(value is decides for value in values):
        return decides
    missing = strict(values)
    return (not decides) if missing is None else missing


def fit(number: Decimal, decimals: int = 4) -> Value:
    """A number rounded to so many decimals, halves away from zero; uncertain outside the range."""
    found = number.quantize(Decimal(1).scaleb(-decimals), context=WIDE)
    return found if abs(found) <= MOST else UNCERTAIN


def day_of(value: Value) -> datetime.date:
    assert isinstance(value, tuple)
    return datetime.date.fromisoformat(value[1])


def dated(day: datetime.date | None) -> Value:
    return UNCERTAIN if day is None or not FIRST <= day <= LAST else ("date", day.isoformat())


def whole(number: Value) -> int | None:
    assert isinstance(number, Decimal)
    return int(number) if number == number.to_integral_value() else None


def add_months(day: datetime.date, months: int) -> datetime.date | None:
    year, month = divmod(day.year * 12 + day.month - 1 + months, 12)
    if not FIRST.year <= year <= LAST.year:
        return None
    return datetime.date(year, month + 1, min(day.day, calendar.monthrange(year, month + 1)[1]))


def years(first: datetime.date, second: datetime.date) -> Value:
    """Whole years from one day to another; uncertain if the second is earlier."""
    if second < first:
        return UNCERTAIN
    found = second.year - first.year
    reached = add_months(first, 12 * found)
    return Decimal(found - (reached is None or reached > second))


def moved(day: Value, number: Value, step: Callable[[datetime.date, int], datetime.date | None]) -> Value:
    count = whole(number)
    if count is None:
        return UNCERTAIN
    try:
        return dated(step(day_of(day), count))
    except OverflowError:
        return UNCERTAIN


def concatenated(one: Value, other: Value) -> Value:
    assert isinstance(one, tuple) and isinstance(other, tuple)
    text = one[1] + other[1]
    return ("text", text) if len(text.encode()) <= 1000 else UNCERTAIN


OPERATIONS: dict[str, Callable[..., Value]] = {
    "+": lambda a, b: fit(a + b),
    "-": lambda a, b: fit(a - b),
    "*": lambda a, b: fit(WIDE.multiply(a, b)),
    "/": lambda a, b: UNCERTAIN if b == 0 else fit(WIDE.divide(a, b)),
    "negative": lambda a: -a,
    "=": lambda a, b: a == b,
    "<>": lambda a, b: a != b,
    "<": lambda a, b: a < b,
    "<=": lambda a, b: a <= b,
    ">": lambda a, b: a > b,
    ">=": lambda a, b: a >= b,
    "Round": lambda a, k: fit(a, int(k)),
    "Minimum": min,
    "Maximum": max,
    "AddDays": lambda d, n: moved(d, n, lambda day, count: day + datetime.timedelta(count)),
    "AddMonths": lambda d, n: moved(d, n, add_months),
    "AddYears": lambda d, n: moved(d, n, lambda day, count: add_months(day, 12 * count)),
    "DaysBetween": lambda a, b: Decimal((day_of(b) - day_of(a)).days),
    "YearsBetween": lambda a, b: years(day_of(a), day_of(b)),
    "YearOf": lambda d: Decimal(day_of(d).year),
    "MonthOf": lambda d: Decimal(day_of(d).month),
    "DayOf": lambda d: Decimal(day_of(d).day),
    "Concatenate": concatenated,
}


def operation(name: str, values: Sequence[Value]) -> Value:
    if name == "Certain":
        return UNKNOWN if values[0] == UNKNOWN else is_plain(values[0])
    if name == "CurrentlyKnown":
        return values[0] != UNKNOWN
    missing = strict(values)
    return OPERATIONS[name](*values) if missing is None else missing
