"""Child Benefit, and its charge."""
from __future__ import annotations

import datetime
from collections.abc import Callable

from .values import Day, Part, Value, age_at, cents, line, years_later


def child_benefit() -> tuple[list[str], list[str]]:
    """Child Benefit (Rates) Regulations 2006, Child Benefit (General) Regulations 2006, and Income Tax (Earnings and Pensions) Act 2003,
    sections 681B to 681H: week by week, by what is so on its Monday. The lines of the example, and those of its edges."""
    rates = {Day(2022, 4, 11): ("21.80", "14.45"), Day(2023, 4, 10): ("24.00", "15.90"), Day(2024, 4, 8): ("25.60", "16.95"), Day(2025, 4, 7): ("26.05", "17.25")}
    anna, ben = (Day(2010, 5, 1), Day(2026, 6, 26)), (Day(2015, 9, 10), Day(2034, 6, 30))
    mondays = [Day(2010, 4, 26) + datetime.timedelta(7 * week) for week in range(52 * 30)]
    weeks = [Day(2013, 1, 7), *mondays]

    def terminal(last: Day) -> Day:
        """The first of the four terminal dates that isn't before this day."""
        day = last
        while (day + datetime.timedelta(1)).day != 1 or day.month not in (2, 5, 8, 11):
            day += datetime.timedelta(1)
        return day

    def counts(monday: Day, born: Day, last: Day) -> bool:
        if monday < born:
            return False
        sixteen = years_later(born, 16)
        august = Day(sixteen.year + (sixteen > Day(sixteen.year, 8, 31)), 8, 31)
        return monday <= august or monday <= terminal(last) and age_at(born, monday) < 20

    def number(*children: tuple[Day, Day]) -> Callable[[Day], int]:
        count = lambda day: sum(counts(day, *child) for child in children)
        return lambda day: count(day - datetime.timedelta(day.weekday()))

    def percent(income_at: Callable[[Day], int]) -> Callable[[Day], Value]:
        def at(day: Day) -> Value:
            if not Day(2013, 1, 7) <= day < Day(2026, 4, 6):
                return "uncertain" if day > Day(2013, 1, 7) else Part(0)
            later = day >= Day(2024, 4, 8)
            return Part(min(100, max(0, income_at(day) - (60000 if later else 50000)) // (200 if later else 100)))

        return at

    both, charge = number(anna, ben), percent(lambda day: 67350 if day >= Day(2025, 4, 7) else 56000)

    def weekly(day: Day) -> Value:
        if both(day) == 0:
            return Part(0)
        begun = [first for first in rates if first <= day]
        if not begun or day >= Day(2026, 4, 6):
            return "uncertain"
        eldest, further = rates[max(begun)]
        return Part(eldest) + Part(further) * (both(day) - 1)

    def left(day: Day) -> Value:
        paid = weekly(day)
        return paid if paid == "uncertain" or paid == 0 else cents(paid * (100 - charge(day)) / 100)

    shown = lambda *children: f"the children who count: {line(lambda day: Part(number(*children)(day)), mondays, money=False)}"
    told = [
        shown(anna, ben),
        f"the charge in percent: {line(charge, weeks, money=False)}",
        f"the weekly benefit: {line(weekly, weeks)} (settled)",
        f"the weekly benefit after the charge: {line(left, weeks)} (settled)",
    ]
    edges = []
    for last in (Day(2036, 6, 30), Day(2032, 12, 1), Day(2033, 2, 28)):
        edges.append(shown(anna, (ben[0], last)))
    for born in (anna[0], Day(2010, 9, 1), Day(2010, 8, 30), Day(2010, 8, 31)):
        is_counted = number((born, Day(2026, 5, 1)))
        edges.append(f'the child is counted of "Anna": {line(lambda day: bool(is_counted(day)), mondays)}')
    # Published: HM Treasury, Spring Budget 2024 (6 March 2024): from 60,000 pounds on, 1% for every 200, all of it from 80,000 on.
    for income in (60000, 60199, 60200, 80000, 50099):
        edges.append(f"the charge in percent: {line(percent(lambda day: income), weeks, money=False)}")
    return told, edges
