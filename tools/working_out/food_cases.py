"""Households, on both sides of each limit; with what differs from the calculation if an answer is missing or refused."""
from __future__ import annotations

from collections.abc import Iterator

from .food import Household, person
from .values import Day


def food_cases() -> Iterator[tuple[Household, dict[str, tuple[str, ...]]]]:
    """Households; with what differs from the calculation where an answer is missing or refused, worked out by hand."""
    day, next_year = Day(2024, 3, 14), Day(2024, 11, 12)
    adult = lambda **rest: person((1990, 5, 17), **rest)
    child = lambda year, **rest: person((year, 2, 3), pupil=True, **rest)
    old = lambda **rest: person((1955, 6, 30), **rest)
    student = lambda **rest: person((2004, 9, 1), student=True, **rest)
    flat = {"rent": 950, "heating": True, "utility": 480}
    yield Household(day, [adult(wages=1200)], **flat), {}
    yield Household(day, [adult(wages=1580)], **flat), {}
    yield Household(day, [adult(wages="1580.01")], **flat), {}
    yield Household(next_year, [adult(wages="1580.01")], **flat), {}
    yield Household(Day(2024, 9, 30), [adult(wages=1600)], **flat), {}
    yield Household(Day(2024, 10, 1), [adult(wages=1600)], **flat), {}
    yield Household(day, [adult(wages=1900), child(2015)], **flat), {}
    yield Household(day, [adult(wages=1900), child(2015), child(2018)], care=300, care_needed=True, **flat), {}
    yield Household(day, [adult(wages=1900), child(2015), child(2018)], care=300, care_needed=False, **flat), {}
    yield Household(day, [adult(wages=2100), adult(wages=800), child(2012), child(2019)], rent=1400, heating=True, utility=480), {}
    # Published: Food and Nutrition Service, "SNAP Eligibility", the example of a household of four in the fiscal year 2025: 657 dollars.
    yield Household(next_year, [adult(wages=1500), adult(pension=550), child(2015), child(2018)], care=361, care_needed=True, rent=700), {}
    yield Household(day, [adult(wages=1500), person((2007, 1, 9), pupil=True, wages=600)], **flat), {}
    yield Household(day, [adult(wages=1500), person((2006, 1, 9), pupil=True, wages=600)], **flat), {}
    yield Household(day, [old(pension=1400, medical=35)], rent=700), {}
    yield Household(day, [old(pension=1400, medical=250)], rent=700, heating=True, utility=480), {}
    yield Household(day, [old(pension=2200)], rent=500), {}
    yield Household(day, [adult(disabled=True, pension=1100, medical=90, cash=4250)], rent=900), {}
    yield Household(day, [adult(disabled=True, pension=1100, medical=90, cash="4250.01")], rent=900), {}
    yield Household(day, [adult(wages=900, cash=2000, other=750)], rent=800), {}
    yield Household(day, [adult(wages=900, cash=2000, other="750.01")], rent=800), {}
    yield Household(next_year, [adult(assistance=True, pension=1900, cash=9000)], rent=400), {}
    yield Household(next_year, [student(wages=500, hours=19)], rent=400), {}
    yield Household(next_year, [student(wages=500, hours=20)], rent=400), {}
    yield Household(next_year, [student(wages=500, hours=0, cares=True), child(2023)], rent=400), {}
    # A student with family assistance is excused, and one with another public assistance isn't (273.5(b)(3)).
    yield Household(next_year, [student(wages=500, assistance=True, family_aid=True)], rent=400), {}
    yield Household(next_year, [student(wages=500, assistance=True)], rent=400), {}
    yield Household(next_year, [adult(wages=1500), student(wages=900, hours=10)], rent=1100), {}
    yield Household(Day(2025, 1, 31), [adult(wages=200)], homeless=True, rent=60), {}
    yield Household(Day(2025, 1, 31), [adult(wages=200)], homeless=True), {}
    yield Household(next_year, [adult(wages=149, cash=100)], rent=600), {}
    yield Household(next_year, [adult(wages=700, cash=150)], rent=900), {}
    yield Household(next_year, [adult(sales=2400, costs=1300, support=150), child(2016)], support_paid=120, **flat), {}
    yield Household(Day(2025, 9, 30), [adult(wages=1620)], rent=300), {}
    yield Household(Day(2025, 10, 1), [adult(wages=1620)], rent=300), {}
    # Without the rent all is unknown, but where the gross income is too high: then only the days for a decision are.
    yield Household(day, [adult(wages=1200)], unsaid=["rent"], **flat), {"goals": ("unknown", "unknown", "unknown", "unknown")}
    yield Household(day, [adult(wages=1700)], unsaid=["rent"], **flat), {"goals": ("false", "0.00", "0.00", "unknown")}
    yield Household(day, [adult(wages=-5)], **flat), {"fault": ("the member's monthly wages of \"Ann\"", "change 3")}
    yield Household(day, [adult(wages="much")], **flat), {"fault": ("the member's monthly wages of \"Ann\"", "command 3")}
