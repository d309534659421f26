"""When the new State Pension begins, and its share."""
from __future__ import annotations

from collections.abc import Iterator

from .values import EXAMPLES, Day, Part, months_later, spelled, years_later


def pension() -> Iterator[str]:
    """The timetables of the Department for Work and Pensions: steps of a month of births from the sixth on."""
    # Published: "State Pension age timetables" (2014), women born from 6 April 1953 to 5 December 1953.
    women = ("2016-07-06", "2016-11-06", "2017-03-06", "2017-07-06", "2017-11-06", "2018-03-06", "2018-07-06", "2018-11-06")

    def begins(born: Day, woman: bool | None) -> Day | str:
        step = lambda first: (born.year * 12 + born.month - (born.day < 6)) - (first.year * 12 + first.month)
        if born < Day(1951, 4, 6) or born < Day(1953, 4, 6) and woman:
            return "uncertain"
        if born < Day(1953, 12, 6):
            return women[step(Day(1953, 4, 6))] if woman else years_later(born, 65)
        if born < Day(1954, 10, 6):
            return months_later(Day(2019, 3, 6), 2 * step(Day(1953, 12, 6)))
        if born < Day(1960, 4, 6):
            return years_later(born, 66)
        if born < Day(1961, 3, 6):
            return months_later(born, 66 * 12 + 1 + step(Day(1960, 4, 6)))
        if born < Day(1977, 4, 6):
            return years_later(born, 67)
        if born < Day(1978, 4, 6):
            return months_later(Day(2044, 5, 6), 2 * step(Day(1977, 4, 6)))
        return years_later(born, 68)

    woman = None
    for text in (EXAMPLES / "pension_input.txt").read_text().splitlines():
        if text.startswith("answer the date of birth = "):
            born = Day.fromisoformat(text.rpartition(" ")[2])
        elif text.startswith("answer the person is a woman = "):
            woman = text.endswith("true")
        elif text == "show the pension date":
            yield f"the pension date: {begins(born, woman)}"
    share = lambda years: f"the share of the full pension: {spelled(min(Part(1), Part(years, 35)) if years >= 10 else Part(0), money=False)}"
    yield f"the person has a claim: false; from {begins(Day(1961, 1, 1), None)} true (settled)"
    yield "the share of the full pension: uncertain (settled)"
    yield "the person has a claim: false (settled)"
    yield f"{share(9)} (settled)"
    yield f"the person has a claim: false; from {begins(Day(1990, 1, 1), None)} true (settled)"
    yield f"{share(28)} (settled)"
    # Published: gov.uk, "The new State Pension: how it's calculated", the example of 20 years: the full rate, by 35, times 20.
    yield from (share(20), share(10), share(35), share(40))
    yield "the person has a claim: uncertain (settled)"
    yield "the share of the full pension: uncertain (settled)"
