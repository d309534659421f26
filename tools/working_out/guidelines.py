"""The poverty guidelines."""
from __future__ import annotations

import math
from collections.abc import Iterator

from .food import FURTHER, POVERTY
from .values import Day, Part, line


def guidelines() -> Iterator[str]:
    """Title 42 of the United States Code, section 9902(2)."""

    def amount(year: int, size: int) -> Part | str:
        if year not in POVERTY:
            return "uncertain"
        if year == 2016 and size > 6:
            return Part({7: 36730}.get(size, 40890 + 4160 * (size - 8)))
        return Part(POVERTY[year] + FURTHER[year] * (size - 1))

    changes = [Day(year, 1, 1) for year in range(2015, 2028)] + [Day(2023, 9, 1)]
    first = lambda day: amount(day.year, 4 if day >= Day(2023, 9, 1) else 2)
    known = lambda day, text: text if first(day) == "uncertain" else None
    percent = lambda day: known(day, "uncertain") or Part(math.floor(Part(100 * 27000 * 10) / first(day) + Part(1, 2)), 10)
    yield f"the guideline: {line(first, changes)}"
    yield f"the household is below the guideline: {line(lambda day: known(day, 'uncertain') or 27000 < first(day), changes)}"
    yield f"the income in percent of the guideline: {line(percent, changes, money=False)}"
    yield f"the guideline: {line(lambda day: amount(day.year, 10), changes)}"
    yield f"the guideline: {line(lambda day: amount(day.year, 7), changes)}"
    yield "refused: change 3"
