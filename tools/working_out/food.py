"""Food assistance: Title 7 of the Code of Federal Regulations, Part 273; a household at the day of its application."""
from __future__ import annotations

import datetime
import math
from typing import Any

from .values import Day, Part, Value, age_at, cents

Person = dict[str, Any]
POVERTY = {2016: 11880, 2017: 12060, 2018: 12140, 2019: 12490, 2020: 12760, 2021: 12880, 2022: 13590, 2023: 14580, 2024: 15060, 2025: 15650}
FURTHER = {2016: 4140, 2017: 4180, 2018: 4320, 2019: 4420, 2020: 4480, 2021: 4540, 2022: 4720, 2023: 5140, 2024: 5380, 2025: 5500}
GREATEST = {2024: (291, 535, 766, 973, 1155, 1386, 1532, 1751, 219), 2025: (292, 536, 768, 975, 1158, 1390, 1536, 1756, 220)}
STANDARD = {2024: (198, 198, 198, 208, 244, 279), 2025: (204, 204, 204, 217, 254, 291)}
CAP, HOMELESS = {2024: 672, 2025: 712}, {2024: Part("179.66"), 2025: Part("190.30")}
RESOURCES = {2024: (2750, 4250), 2025: (3000, 4500)}


def by_size(amounts: tuple[int, ...], size: int) -> int:
    return amounts[size - 1] if size <= 8 else amounts[7] + amounts[8] * (size - 8)


def income_limit(year: int, size: int, percent: int) -> int:
    """A month's share of the poverty guideline of the year before, up to a full dollar; above eight people the step is rounded up."""
    one, more = POVERTY[year - 1], FURTHER[year - 1]
    month = lambda yearly: math.ceil(Part(yearly * percent, 1200))
    return month(one + more * (min(size, 8) - 1)) + month(more) * max(0, size - 8)


class Household:
    """A household at the day of its application; what isn't said of a member is 0 or false."""

    def __init__(self, day: Day, people: list[Person], **rest: Any):
        self.day, self.people, self.rest = day, people, rest
        self.year = 2024 if Day(2023, 10, 1) <= day < Day(2024, 10, 1) else 2025 if Day(2024, 10, 1) <= day < Day(2025, 10, 1) else None
        self.counted = [person for person in people if self.counts(person)]
        self.protected = any(self.is_protected(person) for person in self.counted)

    def get(self, name: str) -> Part:
        return Part(str(self.rest.get(name, 0)))

    def age(self, person: Person) -> int:
        return age_at(person["born"], self.day)

    def is_protected(self, person: Person) -> bool:
        return self.age(person) >= 60 or person.get("disabled", False)

    def counts(self, person: Person) -> bool:
        if not (person.get("student") and 18 <= self.age(person) <= 49):
            return True
        return person.get("hours", 0) >= 20 or any(person.get(excuse) for excuse in ("unfit", "family_aid", "cares"))

    def total(self, *names: str) -> Part:
        return sum((Part(str(person.get(name, 0))) for person in self.counted for name in names), Part(0))

    def earned(self) -> Part:
        found = Part(0)
        for person in self.counted:
            if not (person.get("pupil") and self.age(person) < 18):
                trade = max(Part(0), Part(str(person.get("sales", 0))) - Part(str(person.get("costs", 0))))
                found += Part(str(person.get("wages", 0))) + trade
        return found

    def gross(self) -> Part:
        return self.earned() + self.total("pension", "support")

    def shelter(self) -> Part:
        return self.get("rent") + self.get("tax") + (self.get("utility") if self.rest.get("heating") else 0)

    def net(self) -> Part:
        size, medical = len(self.counted), Part(0)
        for person in self.counted:
            if self.is_protected(person):
                medical += Part(str(person.get("medical", 0)))
        off = STANDARD[self.year][min(size, 6) - 1] + cents(self.earned() / 5) + max(Part(0), medical - 35)
        off += self.get("support_paid") + (self.get("care") if self.rest.get("care_needed") else 0)
        adjusted = max(Part(0), self.gross() - off)
        excess = max(Part(0), self.shelter() - cents(adjusted / 2))
        if not self.protected:
            excess = min(excess, Part(CAP[self.year]))
        if self.rest.get("homeless") and self.shelter() > 0:
            excess = max(excess, HOMELESS[self.year])
        return max(Part(0), adjusted - excess)

    def is_eligible(self) -> bool:
        if not self.counted:
            return False
        if all(person.get("assistance") for person in self.counted):
            return True
        size = len(self.counted)
        held = sum((Part(str(p.get("cash", 0))) + Part(str(p.get("other", 0))) for p in self.counted if not p.get("assistance")), Part(0))
        gross_is_low = self.protected or self.gross() <= income_limit(self.year, size, 130)
        return gross_is_low and self.net() <= income_limit(self.year, size, 100) and held <= RESOURCES[self.year][self.protected]

    def benefit(self) -> Part:
        if not self.is_eligible():
            return Part(0)
        size = len(self.counted)
        amount = Part(max(0, by_size(GREATEST[self.year], size) - math.ceil(self.net() * 3 / 10)))
        return max(amount, Part(23)) if size <= 2 else amount

    def decided(self) -> tuple[Value, Value, Value, Day]:
        """Approved, the benefit, the first month's, and the last day for a decision."""
        urgent = self.gross() < 150 and self.total("cash") <= 100 or self.gross() + self.total("cash") < self.shelter()
        last = self.day + datetime.timedelta(7 if urgent else 30)
        if self.year is None:
            return "uncertain", "uncertain", "uncertain", last
        benefit = self.benefit()
        share = benefit * (31 - min(30, self.day.day)) / 30
        return benefit > 0, benefit, Part(0) if share < 10 else Part(math.floor(share)), last


def person(born: tuple[int, int, int], **rest: Any) -> Person:
    return {"born": Day(*born), **rest}
