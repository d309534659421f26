"""Works a rule out again from a report, and marks what decided its value: rows, and operands of `and` and `or`.

A report lists all that a value rests on, so this needs nothing else of the case. What the report doesn't list is missing; a part that is
missing wasn't needed.
"""
from __future__ import annotations

import datetime
from collections.abc import Callable, Iterable
from decimal import Decimal

from .rules import Rule, Rules
from .texts import Report, names_of, split_point
from .trees import Tree
from .values import UNCERTAIN, UNKNOWN, Value, day_of, fit, is_plain, joined, operation, strict, typed, years

MISSING = "missing"
Place = tuple[str, str]  # an entity, and the name of an instance
Mark = Callable[[Tree, Value], None]
DAY = datetime.timedelta(1)


class Seen:
    """What one report lists, and the values that rules have over it."""

    def __init__(self, rules: Rules, report: Report) -> None:
        self.rules, self.declared = rules, rules.declared
        self.points: dict[Place, list[tuple[str, str, Value]]] = {}
        for said in report.said:
            self.points.setdefault(split_point(said.point), []).append((said.first, said.last, typed(said.value)))
        self.lists = {split_point(point): names for point, names in report.lists.items()}
        self.containers: dict[Place, Place] = {}
        for point, name in report.members:
            phrase, holder = split_point(point)
            relation = self.declared.relations[phrase]
            self.containers[relation.target, name] = (relation.source, holder)
        self.memory: dict[tuple[int, tuple[Place, ...], str], Value] = {}

    def listed(self, phrase: str, name: str, day: str) -> Value:
        return next((value for first, last, value in self.points.get((phrase, name), []) if first <= day <= last), MISSING)

    def place(self, entity: str, around: tuple[Place, ...]) -> str | None:
        """The name of the instance that an attribute of an entity belongs to."""
        for inner in around:
            at: Place | None = inner
            while at is not None:
                if at[0] == entity:
                    return at[1]
                at = None if at[0] == "" else self.containers.get(at)
        return "" if entity == "" else None

    def value(self, tree: Tree, around: tuple[Place, ...], day: str) -> Value:
        key = (id(tree), around, day)
        if key not in self.memory:
            self.memory[key] = self.worked_out(tree, around, day)
        return self.memory[key]

    def worked_out(self, tree: Tree, around: tuple[Place, ...], day: str) -> Value:
        if tree.sort == "value":
            return tree.value
        if tree.sort == "attribute":
            name = self.place(self.declared.attributes[tree.name].entity, around)
            return MISSING if name is None else self.listed(tree.name, name, day)
        if tree.sort in ("all", "any"):
            return self.group([self.value(part, around, day) for part in tree.parts], tree.sort == "any")
        if tree.sort == "not":
            inner = self.value(tree.parts[0], around, day)
            return (not inner) if isinstance(inner, bool) else inner
        if tree.sort == "operation":
            values = [self.value(part, around, day) for part in tree.parts]
            return MISSING if MISSING in values else operation(tree.name, values)
        if tree.sort == "table":
            return self.row(tree, around, day)
        if tree.sort == "over":
            return self.over(tree, around, day)
        return self.window(tree, around, day)

    @staticmethod
    def group(values: list[Value], decides: bool) -> Value:
        if any(value is decides for value in values):
            return decides
        return MISSING if MISSING in values else joined(values, decides)

    def row(self, tree: Tree, around: tuple[Place, ...], day: str) -> Value:
        for row in tree.parts[:-1]:
            condition = self.value(row.parts[0], around, day)
            if condition is not False:
                return self.value(row.parts[1], around, day) if condition is True else condition
        return self.value(tree.parts[-1].parts[0], around, day)

    def listing(self, tree: Tree, around: tuple[Place, ...]) -> list[tuple[Place, ...]] | str:
        """The listed instances, each around which stands what stood around; or unknown, or missing."""
        relation = self.declared.relations[tree.relation]
        source = self.place(relation.source, around)
        names = MISSING if source is None else self.lists.get((tree.relation, source), MISSING)
        if names in (MISSING, UNKNOWN):
            return names
        return [((relation.target, name), *around) for name in names_of(names)]

    def over(self, tree: Tree, around: tuple[Place, ...], day: str) -> Value:
        inner = self.listing(tree, around)
        if isinstance(inner, str):
            return inner
        if tree.name == "InstanceCount":
            return Decimal(len(inner))
        values = [self.value(tree.parts[0], place, day) for place in inner]
        if tree.name in ("ForAll", "Exists"):
            return self.group(values, tree.name == "Exists")
        if tree.name == "InstanceSumIf":
            tests = [self.value(tree.parts[1], place, day) for place in inner]
            values = [value if test is True else Decimal(0) if test is False else test for value, test in zip(values, tests)]
        if MISSING in values:
            return MISSING
        if tree.name == "For":
            return values[0] if values else UNCERTAIN
        return folded(tree.name, values)

    def days(self, tree: Tree, around: tuple[Place, ...], day: str) -> Iterable[str] | str:
        """The days that a window looks at; or unknown, uncertain or missing."""
        if tree.sort == "rolling":
            count = tree.parts[0].value
            assert isinstance(count, Decimal)
            last = datetime.date.fromisoformat(day)
            first = max(datetime.date(1600, 1, 1), last - DAY * (int(count) - 1))
            return days_from(first, last + DAY)
        dates = [self.value(part, around, day) for part in tree.parts[: 1 if tree.name == "ValueAt" else 2]]
        missing = MISSING if MISSING in dates else strict(dates)
        if missing is not None:
            return str(missing)
        first = day_of(dates[0])
        return days_from(first, first + DAY if tree.name == "ValueAt" else day_of(dates[1]))

    def window(self, tree: Tree, around: tuple[Place, ...], day: str) -> Value:
        if tree.name in ("TemporalBefore", "TemporalOnOrAfter", "TemporalYearsSince"):
            date = self.value(tree.parts[0], around, day)
            if date == MISSING or not is_plain(date):
                return date
            here, there = datetime.date.fromisoformat(day), day_of(date)
            return years(there, here) if tree.name == "TemporalYearsSince" else (here < there) == (tree.name == "TemporalBefore")
        days = self.days(tree, around, day)
        if isinstance(days, str):
            return days
        values = [self.value(tree.parts[-1], around, other) for other in days]
        if tree.name == "ValueAt":
            return values[0]
        if tree.name.endswith(("Always", "AlwaysDays", "Sometimes", "SometimesDays")):
            return self.group(values, "Sometimes" in tree.name)
        return MISSING if MISSING in values else folded(tree.name, values)

    # What decided a value.

    def mark(self, tree: Tree, around: tuple[Place, ...], day: str, told: Mark) -> None:
        """Tells each row that gave the value and each operand that decided it."""
        value = self.value(tree, around, day)
        if value == MISSING or value == UNKNOWN:
            return
        if tree.sort in ("all", "any"):
            values = [self.value(part, around, day) for part in tree.parts]
            for part in self.deciding(tree.parts, values, value, tree.sort == "any"):
                told(part, value)
                self.mark(part, around, day, told)
        elif tree.sort == "table":
            self.mark_rows(tree, around, day, told)
        elif tree.sort == "over":
            inner = self.listing(tree, around)
            assert not isinstance(inner, str)
            decides = tree.name == "Exists"
            if tree.name in ("ForAll", "Exists"):
                inner = self.deciding(inner, [self.value(tree.parts[0], place, day) for place in inner], value, decides)
            for place in inner:
                for part in reversed(tree.parts):
                    self.mark(part, place, day, told)
        elif tree.sort in ("window", "rolling"):
            self.mark_window(tree, around, day, told)
        else:
            for part in tree.parts:
                self.mark(part, around, day, told)

    @staticmethod
    def deciding(parts: list, values: list[Value], value: Value, decides: bool) -> list:
        """The parts that decide a group: the first one that does so alone, else all that have the group's value."""
        if value is decides:
            return [next(part for part, own in zip(parts, values) if own is decides)]
        return [part for part, own in zip(parts, values) if own == value and type(own) is type(value)]

    def mark_rows(self, tree: Tree, around: tuple[Place, ...], day: str, told: Mark) -> None:
        for row in tree.parts[:-1]:
            condition = self.value(row.parts[0], around, day)
            self.mark(row.parts[0], around, day, told)
            if condition is not False:
                if condition is True:
                    told(row, self.value(row.parts[1], around, day))
                    self.mark(row.parts[1], around, day, told)
                return
        last = tree.parts[-1]
        told(last, self.value(last.parts[0], around, day))
        self.mark(last.parts[0], around, day, told)

    def mark_window(self, tree: Tree, around: tuple[Place, ...], day: str, told: Mark) -> None:
        if tree.sort == "window":
            for part in tree.parts[:-1] or tree.parts:
                self.mark(part, around, day, told)
        if tree.name in ("TemporalBefore", "TemporalOnOrAfter", "TemporalYearsSince"):
            return
        days = self.days(tree, around, day)
        assert not isinstance(days, str) or days in (UNCERTAIN, UNKNOWN)
        for other in [] if isinstance(days, str) else days:
            self.mark(tree.parts[-1], around, other, told)


def days_from(first: datetime.date, end: datetime.date) -> list[str]:
    return [(first + DAY * n).isoformat() for n in range(max(0, (end - first).days))]


def folded(name: str, values: list[Value]) -> Value:
    """Counts, sums, greatest and least values, and the longest run of true days."""
    missing = strict(values)
    if missing is not None:
        return missing
    if name == "InstanceCountIf":
        return Decimal(sum(value is True for value in values))
    if name == "IntervalConsecutiveDays":
        longest = run = 0
        for value in values:
            run = run + 1 if value is True else 0
            longest = max(longest, run)
        return Decimal(longest)
    if name in ("InstanceSum", "InstanceSumIf", "IntervalDailySum"):
        return fit(sum(values, Decimal(0)))  # type: ignore[arg-type]
    if not values:
        return UNCERTAIN
    return (max if name.endswith("Maximum") else min)(values)  # type: ignore[type-var]


def concluded(seen: Seen, rule: Rule, name: str, day: str) -> Value:
    """The value of a rule at its own instance: a currency has two decimals."""
    attribute = seen.declared.attributes[rule.phrase]
    found = seen.value(rule.tree, ((attribute.entity, name),), day)
    return fit(found, 2) if attribute.kind == "currency" and isinstance(found, Decimal) else found
