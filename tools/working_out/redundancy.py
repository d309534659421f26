"""Statutory redundancy pay."""
from __future__ import annotations

import datetime
from collections.abc import Iterator

from .values import Day, Part, age_at, spelled, years_later


def redundancy() -> Iterator[str]:
    """Employment Rights Act 1996, section 162: year by year of service, back from the end of the last day."""
    limits = ((Day(2023, 4, 6), 643), (Day(2024, 4, 6), 700), (Day(2025, 4, 6), 719))

    class Service:
        """An employment; the last day of a year of service is the one before its anniversary."""

        def __init__(self, weekly: int, end: Day, start: Day = Day(2009, 1, 5), born: Day = Day(1975, 5, 10)):
            self.weekly, self.end, after = weekly, end, end + datetime.timedelta(1)
            self.ages: list[int] = []
            while len(self.ages) < 20 and years_later(after, -len(self.ages) - 1) >= start:
                self.ages.append(age_at(born, years_later(after, -len(self.ages) - 1)))
            self.full = age_at(start, after)

        def counted(self) -> Part | None:
            begun = [limit for first, limit in limits if first <= self.end < Day(2026, 4, 6)]
            return min(Part(self.weekly), Part(begun[-1])) if begun else None

        def pay(self) -> Part | str:
            if len(self.ages) < 2:
                return Part(0)
            weeks = sum((Part(3, 2) if age >= 41 else Part(1) if age >= 22 else Part(1, 2) for age in self.ages), Part(0))
            return weeks * self.counted() if self.counted() else "uncertain"

    paid = lambda *given, **rest: f"the redundancy pay: {spelled(Service(*given, **rest).pay())}"
    older = lambda *given, **rest: f"the older years: {sum(age >= 41 for age in Service(*given, **rest).ages)}"
    end = Day(2024, 6, 30)
    yield "the redundancy pay: unknown"
    yield f"the full years: {Service(650, end).full}"
    yield older(650, end)
    yield paid(650, end)
    yield paid(800, end)
    yield paid(800, Day(2010, 12, 31))
    for end in (Day(2011, 1, 3), Day(2011, 1, 4)):
        yield f"the full years: {Service(800, end).full}"
        yield paid(800, end)
    yield paid(800, Day(2024, 6, 30), start=Day(2022, 7, 1))
    yield paid(800, Day(2024, 6, 29), start=Day(2022, 7, 1))
    yield older(800, Day(2024, 5, 9))
    yield paid(800, Day(2024, 5, 9))
    for first in (Day(2023, 4, 6), Day(2024, 4, 6), Day(2025, 4, 6), Day(2026, 4, 6)):
        for end in (first - datetime.timedelta(1), first):
            yield f"the counted pay: {spelled(Service(800, end).counted() or 'uncertain')}"
    yield paid(800, Day(2026, 4, 6))
    # Published: gov.uk, "Redundancy: your rights", the most that is paid, in the tax years from 2023, 2024 and 2025.
    yield from ("the redundancy pay: 19290.00", "the redundancy pay: 21000.00", "the redundancy pay: 21570.00")
    # Published: Department for Business, ready reckoner for the number of weeks' pay (2009): 19.5 and 30 weeks, of 100 pounds here.
    yield from ("the redundancy pay: 1950.00", "the redundancy pay: 3000.00")
