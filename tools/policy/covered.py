"""What tests reach: rules, rows, records of tables, and operands of `and` and `or` that decided some value on some day."""
from __future__ import annotations

import dataclasses
import datetime
import pathlib
from collections import Counter
from collections.abc import Iterator

from .declared import Declared, declared
from .moments import Moment, moments, rulebase, tests
from .programs import Programs
from .rules import Rule, Rules
from .seen import Seen, concluded
from .texts import LINE, Report, pairs_of, reports_of, split_point
from .trees import Tree
from .values import UNKNOWN, Value, typed

MOST_DAYS = 12  # further days, of one point at one moment
Evaluated = tuple[str, str, str, str]
Key = tuple[str, str, int, str, int]


@dataclasses.dataclass
class Item:
    """Something that a test can reach: a rule, a row, a record or an operand."""

    kind: str
    file: str
    line: int
    text: str
    outcomes: set[str] = dataclasses.field(default_factory=set)

    @property
    def is_reached(self) -> bool:
        return bool(self.outcomes)


class Coverage:
    """The items of all rule files of a folder, and what was found about them."""

    def __init__(self, programs: Programs) -> None:
        self.programs = programs
        self.items: dict[Key, Item] = {}
        self.of_tree: dict[int, Key] = {}
        self.texts: dict[str, list[str]] = {}
        self.rulebases: dict[str, Rules] = {}
        self.untold: list[str] = []  # report lines that couldn't be worked out again
        self.reports = 0
        self.sides = False  # whether both sides of each operand are looked for
        self.checks = False  # whether each line of a report is worked out again, though it reaches nothing new
        self.later: list[tuple[Moment, pathlib.Path, dict[str, list[str]], set[tuple[str, str]]]] = []
        self.parts: dict[int, list[Item]] = {}
        self.of_base: dict[str, list[Key]] = {}

    def rules(self, base: pathlib.Path) -> Rules:
        if base.name not in self.rulebases:
            self.programs.run("check", base, "")
            made = Rules(declared(base))
            self.rulebases[base.name] = made
            self.texts.update(made.declared.texts)
            counts: Counter[tuple[str, str, int, str]] = Counter()
            for kind, tree, file, line, text in parts_of(made):
                counts[kind, file, line, text] += 1
                key = (kind, file, line, text, counts[kind, file, line, text])
                self.items.setdefault(key, Item(kind, file, line, text))
                self.of_tree[id(tree)] = key
                self.of_base.setdefault(base.name, []).append(key)
        return self.rulebases[base.name]

    def play(self, moment: Moment, base: pathlib.Path) -> None:
        """Reports of each asked point at each day on which it changes."""
        rules, done = self.rules(base), set[Evaluated]()
        points = [point for point, day in moment.asked if not day]
        wanted = [(point, day) for point, day in moment.asked if day]
        wanted += [(point, day) for point, pairs in self.lines(moment, base, points).items() for day, _ in pairs]
        found = reports_of(self.told(moment, base, wanted))
        for report in found:
            self.take(rules, report, done)
        if set(points) & {report.point for report in found}:
            self.later.append((moment, base, {p: sorted({s.point for r in found if r.point == p for s in r.said}) for p in points}, set(wanted)))

    def play_later(self) -> None:
        """The same at each day on which something that a point's reports list changes, as long as something isn't reached."""
        for moment, base, below, taken in self.later:
            rules, done = self.rules(base), set[Evaluated]()
            if not any(self.is_open(rule) for rule in rules.rules):
                continue
            known = self.lines(moment, base, sorted({point for points in below.values() for point in points}))
            wanted = []
            for point, points in below.items():
                lines = sorted((known[other] for other in points if other in known), key=len)
                days = list(dict.fromkeys(day for line in lines for day, _ in line))
                wanted += [(point, day) for day in days[:MOST_DAYS]]
            open_rules = [f", rule {rule.file}:{rule.line}\n" for rule in rules.rules if self.is_open(rule)]
            for printed in self.told(moment, base, [pair for pair in wanted if pair not in taken]).split("\nend\n"):
                if any(said in printed for said in open_rules):
                    for report in reports_of(f"{printed}\nend\n"):
                        self.take(rules, report, done)

    def lines(self, moment: Moment, base: pathlib.Path, points: list[str]) -> dict[str, list[tuple[str, str]]]:
        if not points:
            return {}
        given = [*moment.commands, *(f"show {point}" for point in points)]
        printed = self.programs.run("run", base, "".join(f"{line}\n" for line in given))
        return {found[1]: pairs_of(found[2]) for found in map(LINE.fullmatch, printed.splitlines()) if found}

    def told(self, moment: Moment, base: pathlib.Path, wanted: list[tuple[str, str]]) -> str:
        """The reports of points at days, as they are printed."""
        if not wanted:
            return ""
        given = [*moment.commands, *(f"report {point} at {day}" for point, day in dict.fromkeys(wanted))]
        return self.programs.run("run", base, "".join(f"{line}\n" for line in given))

    def take(self, rules: Rules, report: Report, done: set[Evaluated]) -> None:
        """Marks what the lines of a report reach; what was worked out before for the same case isn't again."""
        self.reports += 1
        seen: Seen | None = None
        for said in report.said:
            if said.origin != "rule" or said.value == UNKNOWN:
                continue
            phrase, name = split_point(said.point)
            rule = rules.of_phrase[phrase]
            self.items[self.of_tree[id(rule)]].outcomes.add(said.value)
            if (phrase, name, said.first, said.last) in done or not (self.checks or self.is_open(rule)):
                continue
            done.add((phrase, name, said.first, said.last))
            seen = seen or Seen(rules, report)
            around = ((rules.declared.attributes[phrase].entity, name),)
            for day in days_of(said.first, said.last):
                if concluded(seen, rule, name, day) != typed(said.value):
                    self.untold.append(f"{said.point} at {day}: {said.value} ({said.file}:{said.line})")
                    break
                seen.mark(rule.tree, around, day, self.mark)

    def is_open(self, rule: Rule) -> bool:
        """Whether a rule or something in it isn't reached yet, or with --sides is known from one side only."""
        if id(rule) not in self.parts:
            self.parts[id(rule)] = [self.items[self.of_tree[id(part)]] for part in (rule, *rule.tree.walk()) if id(part) in self.of_tree]
        return any(len(item.outcomes) < (2 if self.sides and item.kind == "operand" else 1) for item in self.parts[id(rule)])

    def mark(self, tree: Tree, value: Value) -> None:
        key = self.of_tree.get(id(tree))
        if key:
            self.items[key].outcomes.add(str(value).lower() if isinstance(value, bool) else "a value")


def days_of(first: str, last: str) -> Iterator[str]:
    day, end = datetime.date.fromisoformat(first), datetime.date.fromisoformat(last)
    for n in range(min((end - day).days + 1, 400)):
        yield (day + datetime.timedelta(n)).isoformat()


def parts_of(rules: Rules) -> Iterator[tuple[str, object, str, int, str]]:
    """All that can be reached: kind, tree (or rule), file, line and text."""
    several = Counter(rule.file for rule in rules.rules)
    done: set[int] = set()
    for members in rules.members.values():
        yield from operands(members.condition, done)
    for rule in rules.rules:
        yield "rule", rule, rule.file, rule.line, rule.phrase
        is_table = rule.file in rules.declared.tables
        for row in rule.tree.parts if rule.tree.sort == "table" else []:
            column = f" ({rule.phrase})" if is_table and several[rule.file] > 1 else ""
            yield "record" if is_table else "row", row, row.file, row.line, row.text + column
        yield from operands(rule.tree, done)


def operands(tree: Tree, done: set[int]) -> Iterator[tuple[str, object, str, int, str]]:
    for part in tree.walk():
        if part.sort in ("all", "any") and part.is_written:
            for operand in part.parts:
                if id(operand) not in done:
                    done.add(id(operand))
                    yield "operand", operand, operand.file, operand.line, operand.text or operand.name


def cover(programs: Programs, folder: pathlib.Path, only: list[str], sides: bool = False, checks: bool = False) -> Coverage:
    """Plays all tests of a folder, or those of some rulebases."""
    made = Coverage(programs)
    made.sides, made.checks = sides, checks
    for file, name, mode in tests(folder):
        base = rulebase(folder, name)
        if only and base.stem not in only:
            continue
        rules = made.rules(base)
        for moment in moments(programs, file, name, mode, base, rules.declared):
            made.play(moment, base)
    made.play_later()
    return made
