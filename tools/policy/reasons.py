"""Why a case changes between two rulebases: both reports, and where they begin to differ."""
from __future__ import annotations

import dataclasses

from .cases import Case
from .comparing import Pair, Version
from .programs import Fault, Programs
from .texts import Report, differing, reports_of, without_place


@dataclasses.dataclass
class Why:
    """Both reports of a case, and where they begin to differ."""

    place: int
    sort: str
    day: str
    old: Report
    new: Report
    first: tuple[str, str]
    begins: list[str]


def why(programs: Programs, old: Version, new: Version, pair: Pair, place: int, goal: str, sort: str, day: str) -> Why:
    if sort == "other days only":
        day = differing(pair.old.lines[goal], pair.new.lines[goal])[0]
    reports = [report(programs, made, pair.case, goal, day) for made in (old, new)]
    return Why(place, sort, day, reports[0], reports[1], first_difference(*reports), beginnings(old, new, *reports))


def report(programs: Programs, made: Version, case: Case, goal: str, day: str) -> Report:
    given = "".join(f"{command}\n" for command in [*made.commands(case), f"report {goal} at {day}"])
    printed = programs.run("run", made.rulebase, given)
    found = reports_of(printed)
    if len(found) != 1:
        raise Fault(f"{made.rulebase}: no report of {goal} at {day} for {case.name}: {printed.strip()[:200]}")
    return found[0]


def first_difference(old: Report, new: Report) -> tuple[str, str]:
    """The first lines below the goal's own that differ, apart from their numbers and the places of rules."""
    lines = [report.lines[1:-1] for report in (old, new)]
    for place in range(1, max(map(len, lines))):
        one, other = (side[place] if place < len(side) else "(no line)" for side in lines)
        if without_place(one) != without_place(other):
            return one, other
    return lines[0][0], lines[1][0]


def values(report: Report) -> dict[str, list[tuple[str, str, str]]]:
    found: dict[str, list[tuple[str, str, str]]] = {}
    for said in report.said:
        found.setdefault(said.point, []).append((said.first, said.last, said.value))
    return found


def beginnings(old: Version, new: Version, first: Report, second: Report) -> list[str]:
    """The points whose value differs although nothing that their rules mention does: there the change begins."""
    before, after = values(first), values(second)
    changed = [point for point in before if point in after and before[point] != after[point]]
    phrases = {point.split(' of "')[0] for point in changed}
    found = []
    for point in changed:
        phrase = point.split(' of "')[0]
        mentioned = {name for made in (old, new) if phrase in made.rules.of_phrase for name in made.rules.of_phrase[phrase].mentions()}
        if not (mentioned - {phrase}) & phrases:
            found.append(phrase)
    return list(dict.fromkeys(found))
