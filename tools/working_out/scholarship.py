"""The scholarship by points."""
from __future__ import annotations

import math
from collections.abc import Callable, Iterator

from .values import Day, Part, line


def scholarship() -> Iterator[str]:
    """The statutes that stand in the head of scholarship.txt."""
    changes = [Day(2025, 10, 1), Day(2026, 8, 1), Day(2029, 8, 1)]

    def points(grade: str, voluntary: int) -> Callable[[Day], int]:
        for_grade = math.floor(Part(40) * (4 - Part(grade)) / 3 + Part(1, 2))
        return lambda day: for_grade + 20 + 10 + min(15, 5 * sum(day < end for end in changes[1:])) + min(10, 5 * voluntary)

    def goals(count: Callable[[Day], int]) -> Iterator[str]:
        started = lambda day: day >= Day(2025, 10, 1)
        yield f"the applicant is awarded a scholarship: {line(lambda day: started(day) and count(day) >= 60, changes)} (settled)"
        amount = lambda day: Part(0 if not started(day) or count(day) < 60 else 800 if count(day) >= 80 else 450)
        yield f"the monthly amount: {line(amount, changes)} (settled)"

    yield f"the points for grades: {math.floor(Part(40) * (4 - Part('1.6')) / 3 + Part(1, 2))}"
    yield f"the points: {line(points('1.6', 0), changes, money=False)}"
    yield from goals(points("1.6", 0))
    yield from goals(points("1.6", 1))
    yield from goals(points("1", 1))
