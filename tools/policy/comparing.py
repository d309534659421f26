"""Two rulebases over the same cases: outcomes, changes of each goal, and groups."""
from __future__ import annotations

import dataclasses
import pathlib
import re
from collections import Counter
from decimal import Decimal

from .cases import Case, head_of, record_commands, records, table
from .declared import Declared, declared
from .programs import Fault, Programs
from .rules import Rules
from .texts import LINE, Pairs, differing, number, pairs_of, quoted, value_at


@dataclasses.dataclass
class Outcome:
    """What one version says of a case: the line of each goal, or why it isn't accepted."""

    lines: dict[str, Pairs]
    fault: str = ""


@dataclasses.dataclass
class Version:
    """A rulebase: its declarations, its rules, and the heads of the cases that it doesn't know."""

    rulebase: pathlib.Path
    declared: Declared
    rules: Rules
    unknown: Counter[str] = dataclasses.field(default_factory=Counter)

    def commands(self, case: Case) -> list[str]:
        """The commands of a case that this version knows."""
        return [command for command in case.commands if head_of(command) not in self.unknown]


@dataclasses.dataclass
class Pair:
    """A case with both outcomes."""

    case: Case
    old: Outcome
    new: Outcome

    @property
    def is_compared(self) -> bool:
        return not self.old.fault and not self.new.fault


def version(path: str) -> Version:
    found = declared(pathlib.Path(path))
    return Version(found.main, found, Rules(found))


# Running both versions.


def batch(programs: Programs, made: Version, text: str, where: str, by: list[str]) -> list[Outcome]:
    """The outcome of each record; columns that the version doesn't know are left out and counted."""
    heads, rows = records(text, where)
    used = list(range(len(heads)))
    while True:
        if not used:
            raise Fault(f"{made.rulebase} knows no column of {where}")
        kept = [[heads[k] for k in used]]
        kept += [[row[k] for k in used] if len(row) == len(heads) else [""] * (len(used) + 1) for row in rows]
        status, printed = programs.tried("batch", made.rulebase, table(kept))
        if not status:
            break
        found = re.match(r"refused: column (\d+) command ([12])", printed)
        if not found:
            raise Fault(f"{made.rulebase}: {printed.splitlines()[0]}")
        place = used.pop(int(found[1]) - 1)
        if found[2] == "1" and heads[place] not in by:
            raise Fault(f"{where}: the head of column {place + 1} is no POINT: {heads[place]}")
        if heads[place] not in by:
            made.unknown[heads[place]] = sum(bool(row[place]) for row in rows if place < len(row))
        else:
            made.unknown[heads[place]] = 0
    goals, decided = records(printed, "the batch's output")
    outcomes = []
    for cells in decided:
        fault = re.sub(r"column (\d+)", lambda m: f"column {used[int(m[1]) - 1] + 1} ({heads[used[int(m[1]) - 1]]})", cells[-1])
        outcomes.append(Outcome({} if fault else {goal: pairs_of(cell) for goal, cell in zip(goals[1:-1], cells[1:-1])}, fault))
    return outcomes


def caseload(programs: Programs, made: Version, cases: list[Case]) -> list[Outcome]:
    """The outcome of each case of a caseload; commands whose phrase the version doesn't know are counted."""
    lines = []
    for case in cases:
        lines += [f"{quoted(case.name)} {command}" for command in case.commands] + [f"{quoted(case.name)} goals"]
    printed = programs.run("cases", made.rulebase, "".join(f"{line}\n" for line in lines)).splitlines()
    phrases = {*made.declared.attributes, *made.declared.relations}
    for case in cases:
        for command in case.commands:
            if head_of(command).split(' of "')[0] not in phrases:
                made.unknown[head_of(command)] += 1
    outcomes = []
    for case in cases:
        front = quoted(case.name) + " "
        said = [line[len(front) :] for line in printed if line.startswith(front)]
        refused = [line[len("refused: ") :] for line in said if line.startswith("refused: ") and line != "refused: command 2"]
        found = {m[1]: pairs_of(m[2]) for m in map(LINE.fullmatch, said) if m}
        outcomes.append(Outcome({}, refused[0]) if refused else Outcome(found))
    return outcomes


def pairs(programs: Programs, old: Version, new: Version, cases: list[Case], text: str | None, where: str, by: list[str]) -> list[Pair]:
    """All cases with both outcomes: of a batch (its text is given) or of a caseload."""
    both = [batch(programs, made, text, where, by) if text is not None else caseload(programs, made, cases) for made in (old, new)]
    return [Pair(case, *outcomes) for case, *outcomes in zip(cases, *both)]


def batch_cases(text: str, where: str, versions: tuple[Version, ...]) -> list[Case]:
    heads, rows = records(text, where)
    lists = {phrase for made in versions for phrase in made.declared.relations}
    return [Case(f"row {n}", record_commands(heads, row, lists)) for n, row in enumerate(rows, 1)]


# What changes.


@dataclasses.dataclass
class Tally:
    """Counts and sums of some cases at one day."""

    cases: int = 0
    changed: int = 0
    more: int = 0
    less: int = 0
    gained: Decimal = Decimal(0)
    lost: Decimal = Decimal(0)

    def add(self, old: str, new: str) -> None:
        self.cases += 1
        self.changed += old != new
        before, after = number(old), number(new)
        if before is not None and after is not None:
            self.more, self.less = self.more + (after > before), self.less + (after < before)
            self.gained, self.lost = self.gained + max(after - before, Decimal(0)), self.lost + max(before - after, Decimal(0))
        elif old != new and {old, new} == {"true", "false"}:
            self.more, self.less = self.more + (new == "true"), self.less + (new == "false")


@dataclasses.dataclass
class Change:
    """How one goal changes over all cases."""

    goal: str
    kind: str
    day: str
    changed: int
    begins: Counter[str]
    total: Tally
    moves: Counter[tuple[str, str]]
    days: dict[str, Tally]
    groups: dict[str, dict[str, Tally]]
    sorts: dict[str, list[int]]

    @property
    def is_amount(self) -> bool:
        return self.kind in ("number", "currency")


def sort_of(old: str, new: str) -> str:
    """What sort of change this is, in words."""
    before, after = number(old), number(new)
    if old == new:
        return "other days only"
    if before is not None and after is not None:
        return "more" if after > before else "less"
    plain = {"true", "false", "unknown", "uncertain"}
    return f"{old if old in plain else 'a value'} to {new if new in plain else 'a value'}"


def change(goal: str, kind: str, found: list[Pair], at: str | None, by: dict[str, list[str]]) -> Change:
    """The change of a goal; `by` has for each column the group of each case."""
    compared = [(place, pair, differing(pair.old.lines[goal], pair.new.lines[goal])) for place, pair in enumerate(found) if pair.is_compared]
    begins: Counter[str] = Counter(day for _, _, days in compared for day in days)
    day = at or (max(sorted(begins), key=lambda day: begins[day]) if begins else "1600-01-01")
    made = Change(goal, kind, day, sum(bool(days) for _, _, days in compared), begins, Tally(), Counter(), {}, {}, {})
    made.days = {day: Tally() for day in sorted(begins)}
    for place, pair, days in compared:
        lines = pair.old.lines[goal], pair.new.lines[goal]
        old, new = (value_at(line, day) for line in lines)
        made.total.add(old, new)
        for other, tally in made.days.items():
            tally.add(*(value_at(line, other) for line in lines))
        for column, groups in by.items():
            made.groups.setdefault(column, {}).setdefault(groups[place], Tally()).add(old, new)
        if old != new:
            made.moves[old, new] += 1
        if days:
            made.sorts.setdefault(sort_of(old, new), []).append(place)
    return made


def groups(cases: list[Case], text: str | None, where: str, by: list[str]) -> dict[str, list[str]]:
    """For each `--by COLUMN` or `--by COLUMN:STEP` the group of each case."""
    found: dict[str, list[str]] = {}
    for word in by:
        column, _, step = word.partition(":")
        column = column.strip()
        if text is not None:
            heads, rows = records(text, where)
            if column not in heads:
                raise Fault(f"{where} has no column {column}")
            place = heads.index(column)
            values = [row[place] if place < len(row) else "" for row in rows]
        else:
            values = [next((c.partition("=")[2].strip() for c in reversed(case.commands) if head_of(c) == column), "") for case in cases]
            if not any(values):
                raise Fault(f"no case of {where} answers {column}")
        found[word] = [banded(value, step, word) for value in values]
    return found


def banded(value: str, step: str, word: str) -> str:
    amount = number(value)
    if not step or amount is None:
        return value or "(empty)"
    width = number(step.strip())
    if not width or width < 0:
        raise Fault(f"--by {word}: {step} is no width of a group")
    low = amount // width * width
    return f"{low} to below {low + width}" if amount >= 0 or amount % width == 0 else f"{low - width} to below {low}"
