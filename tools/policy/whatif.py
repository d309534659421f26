"""Which single answers would change a goal's value: suppositions of `desk cases`, and the nearest number or day that does it."""
from __future__ import annotations

import dataclasses
import datetime
import re
from collections.abc import Callable
from decimal import Decimal

from .declared import Attribute
from .programs import Fault, Programs
from .rules import Rules
from .texts import FIRST_DAY, LINE, Pairs, Report, names_of, number, pairs_of, quoted, reports_of, split_point, value_at

FIRST, LAST = datetime.date(1600, 1, 1), datetime.date(2399, 12, 31)
RANGE = Decimal(10) ** 13
Wanted = Callable[[str], bool]


@dataclasses.dataclass
class Supposed:
    """Another answer or list: the command, what it says in words, and the goal's value with it."""

    command: str
    said: str
    now: str
    value: str = ""
    report: Report | None = None


@dataclasses.dataclass
class Part:
    """The days of an answer on which one value holds, as it is answered now."""

    point: str
    attribute: Attribute
    pairs: Pairs
    place: int

    @property
    def now(self) -> str:
        return self.pairs[self.place][1]

    @property
    def days(self) -> str:
        if len(self.pairs) == 1:
            return ""
        first = self.pairs[self.place][0]
        end = f" to before {self.pairs[self.place + 1][0]}" if self.place + 1 < len(self.pairs) else " on"
        return f" from {first}{end}" if first != FIRST_DAY else end.replace(" to before", " before")

    def supposed(self, value: str) -> Supposed:
        pairs = [(day, value if n == self.place else old) for n, (day, old) in enumerate(self.pairs)]
        line = "; ".join(said if n == 0 else f"from {day} {said}" for n, (day, said) in enumerate(pairs))
        return Supposed(f"answer {self.point} = {line}", f"{self.point} were {value}{self.days}", self.now)


def wanted(text: str | None, now: str) -> tuple[Wanted, str]:
    """The test of a value, and its words: --want, or else what a claimant would ask for."""
    if text is None:
        amount = number(now)
        if amount is not None:
            text = f"> {now}"
        elif now in ("true", "false"):
            text = "false" if now == "true" else "true"
        else:
            return lambda value: value not in (now, "unknown", "uncertain"), "another value"
    compared = re.fullmatch(r"(<=|>=|<>|<|>)\s*(-?\d+(?:\.\d+)?)", text.strip())
    if not compared:
        amount = number(text.strip())
        if amount is not None:
            return lambda value: number(value) == amount, text
        return lambda value: value == text.strip(), text
    sign, least = compared[1], Decimal(compared[2])
    tests: dict[str, Callable[[Decimal], bool]] = {
        "<": lambda x: x < least, "<=": lambda x: x <= least, ">": lambda x: x > least, ">=": lambda x: x >= least, "<>": lambda x: x != least,
    }  # fmt: skip
    return lambda value: (amount := number(value)) is not None and tests[sign](amount), text


class WhatIf:
    """A case, one of its goals, and one day."""

    def __init__(self, programs: Programs, rules: Rules, commands: list[str], goal: str, day: str) -> None:
        self.programs, self.rules, self.declared = programs, rules, rules.declared
        self.commands, self.goal, self.day = commands, goal, day
        if split_point(goal)[0] not in self.declared.attributes:
            raise Fault(f"{self.declared.main} declares no {goal}")
        printed = self.run([*commands, f"report {goal} at {day}"])
        reports = reports_of(printed)
        if not reports:
            refused = printed.strip().splitlines()[-1:] or ["nothing is printed"]
            raise Fault(f"no report of {goal} at {day}: {refused[0]}")
        self.report = reports[0]
        self.now = self.report.said[0].value

    def run(self, commands: list[str]) -> str:
        return self.programs.run("run", self.declared.main, "".join(f"{line}\n" for line in commands))

    def tried(self, several: list[Supposed]) -> list[str]:
        """The goal's value with each supposition; an empty text where it is refused."""
        if not several:
            return []
        lines = list(self.commands)
        for one in several:
            lines += ["suppose", one.command, f"show {self.goal}", "undo"]
        printed = self.programs.run("cases", self.declared.main, "".join(f'"w" {line}\n' for line in lines))
        found = []
        for part in printed.split('"w" undone\n')[:-1]:
            said = [line.removeprefix('"w" ') for line in part.split('"w" supposed\n')[-1].splitlines()]
            read = [LINE.fullmatch(line) for line in said]
            refused = any(line.startswith("refused:") for line in said)
            found.append("" if refused or not read or not read[-1] else value_at(pairs_of(read[-1][2]), self.day))
        return found

    def parts(self) -> list[Part]:
        """The answers that the value rests on, each in the days on which it has one value; and what isn't answered."""
        points = [said for said in self.report.said if said.origin != "rule"]
        shown = self.run([*self.commands, *dict.fromkeys(f"show {said.point}" for said in points)])
        lines = {found[1]: pairs_of(found[2]) for found in map(LINE.fullmatch, shown.splitlines()) if found}
        found: dict[tuple[str, int], Part] = {}
        for said in points:
            pairs = lines[said.point]
            attribute = self.declared.attributes[split_point(said.point)[0]]
            for place, (first, _) in enumerate(pairs):
                end = pairs[place + 1][0] if place + 1 < len(pairs) else "9999-12-31"
                if first <= said.last and said.first < end:
                    found.setdefault((said.point, place), Part(said.point, attribute, pairs, place))
        return list(found.values())

    def found(self, wants: Wanted) -> list[Supposed]:
        """Each single answer that changes the value as it is wanted; of a number or a day the nearest one on each side."""
        plain, searches = [], []
        for part in self.parts():
            if part.attribute.kind in ("bool", "text"):
                plain += [part.supposed(value) for value in self.others(part)]
            else:
                searches += [Search(part, scale_of(part.attribute), side, literals(self.rules, part.attribute.kind)) for side in (-1, 1)]
        plain += self.lists()
        found = [dataclasses.replace(one, value=value) for one, value in zip(plain, self.tried(plain)) if value and wants(value)]
        found += self.nearest(searches, wants)
        found = list({one.command: one for one in found}.values())
        for one in found:
            one.report = reports_of(self.run([*self.commands, one.command, f"report {self.goal} at {self.day}"]))[0]
        return found

    def others(self, part: Part) -> list[str]:
        if part.attribute.kind == "bool":
            return [value for value in ("true", "false") if value != part.now]
        texts = dict.fromkeys(tree.value[1] for rule in self.rules.rules for tree in rule.tree.walk() if isinstance(tree.value, tuple) and tree.value[0] == "text")
        return [quoted(text) for text in texts if quoted(text) != part.now]

    def lists(self) -> list[Supposed]:
        """Each list without one of its names; an unknown list as an empty one."""
        found = []
        for point, names in self.report.lists.items():
            if self.declared.relations[split_point(point)[0]].sort == "every":
                continue
            listed = [] if names in ("unknown", "none") else names_of(names)
            for gone in listed:
                rest = ", ".join(quoted(name) for name in listed if name != gone) or "none"
                found.append(Supposed(f"list {point} = {rest}", f"{gone} weren't among {point}", names))
            if names == "unknown":
                found.append(Supposed(f"list {point} = none", f"{point} were none", names))
        return found

    def nearest(self, searches: list[Search], wants: Wanted) -> list[Supposed]:
        probes = [(search, at) for search in searches for at in search.probes]
        values = self.tried([search.supposed(at) for search, at in probes])
        for (search, at), value in zip(probes, values):
            search.take(at, bool(value) and wants(value), value)
        while open_ones := [search for search in searches if search.middle is not None]:
            asked = [search.supposed(search.middle) for search in open_ones]
            for search, value in zip(open_ones, self.tried(asked)):
                search.take(search.middle, bool(value) and wants(value), value)
        return [dataclasses.replace(search.supposed(search.good), value=search.value) for search in searches if search.good is not None]


@dataclasses.dataclass
class Scale:
    """The numbers or days that can be answered, as whole steps."""

    least: int
    most: int
    text: Callable[[int], str]
    step: Callable[[str], int]


def scale_of(attribute: Attribute) -> Scale:
    if attribute.kind == "date":
        day = lambda at: (FIRST + datetime.timedelta(at)).isoformat()
        return Scale(0, (LAST - FIRST).days, day, lambda text: (datetime.date.fromisoformat(text) - FIRST).days)
    places = attribute.decimals
    step = lambda text: int(Decimal(text).scaleb(places).to_integral_value())
    text = lambda at: f"{Decimal(at).scaleb(-places):f}"
    return Scale(step(attribute.least or str(-RANGE)), step(attribute.most or str(RANGE)), text, step)


def literals(rules: Rules, kind: str) -> list[str]:
    """The numbers or the days that rules and tables mention: limits that a value is compared with."""
    found = set()
    for rule in rules.rules:
        for tree in rule.tree.walk():
            if kind == "date" and isinstance(tree.value, tuple) and tree.value[0] == "date":
                found.add(tree.value[1])
            elif kind != "date" and isinstance(tree.value, Decimal):
                found.add(str(tree.value))
    return sorted(found)


class Search:
    """The search for the nearest step on one side of what is answered now."""

    def __init__(self, part: Part, scale: Scale, side: int, limits: list[str]) -> None:
        self.part, self.scale, self.side = part, scale, side
        known = part.now not in ("unknown", "uncertain")
        self.start = scale.step(part.now) if known else min(max(0, scale.least), scale.most) - side
        steps = {self.start + side * 2**k for k in range(60)} | {scale.least, scale.most}
        steps |= {scale.step(limit) + near for limit in limits for near in (-1, 0, 1)}
        self.probes = sorted((at for at in steps if scale.least <= at <= scale.most and (at - self.start) * side > 0), key=lambda at: (at - self.start) * side)
        self.bad, self.good, self.value = self.start, None, ""  # type: int, int | None, str

    def supposed(self, at: int) -> Supposed:
        return self.part.supposed(self.scale.text(at))

    def take(self, at: int, is_good: bool, value: str) -> None:
        """What a probe gives: probes come from near to far, and after the first good one the gap is halved."""
        if is_good and (self.good is None or abs(at - self.start) < abs(self.good - self.start)):
            self.good, self.value = at, value
        elif not is_good and (self.good is None or abs(at - self.start) < abs(self.good - self.start)):
            self.bad = max(self.bad, at) if self.side > 0 else min(self.bad, at)

    @property
    def middle(self) -> int | None:
        """The step to be tried next, or None where the nearest good one is found or there is none."""
        if self.good is None or abs(self.good - self.bad) <= 1:
            return None
        return (self.good + self.bad) // 2
