"""Housing benefit."""
from __future__ import annotations

import math
from collections.abc import Iterator

from .values import Day, Part, Value, age_at, cents, line, years_later


def housing() -> Iterator[str]:
    """Housing Benefit Regulations 2006; from 66 on others apply, and of a single claimant under 25 the amounts aren't in the rules."""
    couple_from = Day(2025, 1, 6)

    def benefit(earnings: int, capital: int, passport: bool = False, born: Day = Day(1984, 3, 10)) -> str:
        def at(day: Day) -> Value:
            couple, year = day >= couple_from, day.year if day >= Day(day.year, 4, 1) else day.year - 1
            if year not in (2023, 2024, 2025) or age_at(born, day) >= 66:
                return "uncertain"
            if passport:
                return Part(130)
            if capital > 16000:
                return Part(0)
            if age_at(born, day) < (18 if couple else 25):
                return "uncertain"
            needs = {2023: ("84.80", "133.30"), 2024: ("90.50", "142.25"), 2025: ("92.05", "144.65")}[year][couple]
            income = max(0, Part(earnings) - (10 if couple else 5)) + max(0, math.ceil(Part(capital - 6000, 250)))
            paid = max(Part(0), cents(130 - Part(65, 100) * max(Part(0), income - Part(needs))))
            return paid if paid >= Part(1, 2) else Part(0)

        changes = [Day(year, 4, 1) for year in range(2022, 2028)] + [couple_from, *(years_later(born, age) for age in (18, 25, 66))]
        return f"the weekly housing benefit: {line(at, changes)}"

    yield benefit(155, 5000)
    yield "the income from capital: 1.00"
    yield benefit(155, 6001)
    yield f"the income from capital: {math.ceil(Part(16000 - 6000, 250))}.00"
    yield benefit(155, 16001)
    yield benefit(155, 16001, passport=True)
    yield benefit(300, 0)
    for born in (Day(1949, 1, 1), Day(1959, 3, 10), Day(2003, 5, 5)):
        yield benefit(155, 0, born=born)
