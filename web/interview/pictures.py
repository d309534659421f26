"""A line of values as a picture: bars over time, with a number for each row of the table that stands below it, if there is one."""
from __future__ import annotations

from dataclasses import dataclass
from datetime import date, timedelta
from decimal import Decimal

from sennabasket import FIRST_DAY, LAST_DAY, UNCERTAIN, UNKNOWN, Timeline, Value

YEARS = 12


@dataclass(frozen=True)
class Bar:
    """Places are in percent of the picture's width, heights in its own units."""

    number: int
    first: date
    last: date
    value: Value
    left: float
    width: float
    top: float
    height: float
    look: str
    is_labelled: bool


@dataclass(frozen=True)
class Picture:
    bars: list[Bar]
    today: float
    years: list[tuple[int, float]]


def window(line: Timeline, today: date) -> tuple[date, date]:
    """The days that are shown: the changes near to today, today, and a margin; for a value that never changes two years on each side."""
    days = [since.toordinal() for since, _ in line.parts[1:]]
    near = [day for day in days if abs(day - today.toordinal()) < YEARS * 366] or days[-3:]
    first, last = min([today.toordinal(), *near]), max([today.toordinal(), *near])
    margin = max(200, (last - first) // 10) if days else 2 * 366
    return date.fromordinal(max(first - margin, FIRST_DAY.toordinal())), date.fromordinal(min(last + margin, LAST_DAY.toordinal()))


def look(value: Value) -> str:
    if value is UNKNOWN:
        return "unknown"
    if value is UNCERTAIN:
        return "uncertain"
    if isinstance(value, bool):
        return "true" if value else "false"
    return "value"


def picture(line: Timeline, today: date) -> Picture:
    first, last = window(line, today)
    days = (last - first).days + 1

    def place(day: date) -> float:
        return 100 * (day - first).days / days

    numbers = [value for _, value in line.parts if isinstance(value, Decimal)]
    least, most = min([Decimal(0), *numbers]), max([Decimal(1), *numbers])
    ends = [since - timedelta(days=1) for since, _ in line.parts[1:]] + [LAST_DAY]
    bars = []
    for number, ((since, value), end) in enumerate(zip(line.parts, ends), 1):
        if end < first or since > last:
            continue
        one, two = max(since, first), min(end, last)
        left, width = place(one), 100 * ((two - one).days + 1) / days
        height = 30.0
        if isinstance(value, Decimal):
            height = 6 + 54 * float((value - least) / (most - least))
        elif value is True or not isinstance(value, (bool, type(UNKNOWN))):
            height = 60.0
        bars.append(Bar(number, since, end, value, left, width, 80 - height, height, look(value), len(ends) > 1 and width > (5 if number < 10 else 8)))
    step = max(1, (last.year - first.year) // 3)  # so few that they don't touch at 320 pixels
    years = [(year, place(date(year, 1, 1))) for year in range(first.year + 1, last.year + 1) if (year - first.year) % step == 0]
    return Picture(bars, place(today), [(year, at) for year, at in years if 8 < at < 92])  # a year is at most 15 wide
