"""The columns of a batch from parts, and the rows that `desk batch` prints as rows of the cases."""
from __future__ import annotations

import csv
import dataclasses
import io
import re

from .declared import Declared
from .parts import Part, Row, entity
from .programs import Fault
from .texts import TEXT, names_of, pairs_of, value_at


@dataclasses.dataclass(frozen=True)
class Column:
    """A column of the batch: its phrase, and of which member; `part` is where its cells are from."""

    phrase: str
    number: int  # from 1, in the order of the case's rows; 0 for the case itself
    part: Part

    def head(self) -> str:
        return f'{self.phrase} of "{self.number}"' if self.number else self.phrase


class Batch:
    """A batch of parts. A member's name is its number in its case, so that the cases share their columns."""

    def __init__(self, declared: Declared, parts: list[Part]) -> None:
        self.cases, self.members = parts[0], parts[1:]
        self.most = {part.file: max((len(rows) for rows in part.rows.values()), default=0) for part in parts}
        self.above = {part.file: next((other for other in parts if other.lists == part.lists[:-1]), parts[0]) for part in self.members}
        self.targets: dict[str, Part] = {}
        for part in parts:
            for phrase in part.references:
                target = declared.relations[phrase].target
                found = [other for other in self.members if entity(declared, other) == target]
                if not found:
                    raise Fault(f'{part.file}:1: "{phrase}" refers to "{target}", which no file is about')
                self.targets[phrase] = found[0]
        self.columns = self.all_columns()
        if not self.columns:
            raise Fault(f"{self.cases.file}:1: there is no column for the rulebase")

    def all_columns(self) -> list[Column]:
        """The case's answers, the lists from above, the members' answers, and then what refers to members."""
        found = [Column(phrase, 0, self.cases) for phrase in self.cases.answers]
        for part in self.members:
            above = self.above[part.file]
            numbers = range(1, self.most[above.file] + 1) if above.lists else [0]
            found += [Column(part.lists[-1], number, part) for number in numbers]
        for part in self.members:
            found += [Column(phrase, number, part) for number in range(1, self.most[part.file] + 1) for phrase in part.answers]
        found += [Column(phrase, 0, self.cases) for phrase in self.cases.references]
        for part in self.members:
            found += [Column(phrase, number, part) for number in range(1, self.most[part.file] + 1) for phrase in part.references]
        return found

    def record(self, case: str) -> list[str]:
        """The cells of a case, one for each column."""
        row = self.cases.of(case)[0]
        found = list(row.answers)
        for part in self.members:
            found += self.lists(part, case)
        for part in self.members:
            for member in part.of(case):
                found += member.answers
            found += [""] * (len(part.answers) * (self.most[part.file] - len(part.of(case))))
        found += self.referred(self.cases, row)
        for part in self.members:
            for member in part.of(case):
                found += self.referred(part, member)
            found += [""] * (len(part.references) * (self.most[part.file] - len(part.of(case))))
        return found

    def lists(self, part: Part, case: str) -> list[str]:
        """Who is in the part's list: of the case, or of each member above; nothing is said of members that aren't there."""
        inside: dict[tuple[str, ...], list[str]] = {row.path: [] for row in self.above[part.file].of(case)}
        for number, row in enumerate(part.of(case), 1):
            inside[row.path[:-1]].append(f'"{number}"')
        found = [", ".join(numbers) or "none" for numbers in inside.values()]
        wanted = self.most[self.above[part.file].file]
        return found + [""] * (wanted - len(found))

    def referred(self, part: Part, row: Row) -> list[str]:
        """The cells of a row that refer to members, with their numbers in the place of their names."""
        found = []
        for phrase, cell in zip(part.references, row.references):
            quoted = re.fullmatch(rf"{TEXT}(?:, ?{TEXT})*", cell)
            names = names_of(cell) if quoted else [] if cell in ("", "none") else [cell]
            target = self.targets[phrase]
            numbers = []
            for name in names:
                places = [number for number, member in enumerate(target.of(row.case), 1) if member.path[-1] == name]
                if len(places) != 1:
                    said = f'{target.file} has {len(places) or "no"} "{name}" in "{target.lists[-1]}" of the case "{row.case}"'
                    raise Fault(f'{part.file}:{row.line}: "{phrase}": {said}')
                numbers.append(f'"{places[0]}"')
            found.append(", ".join(numbers) or cell)
        return found

    def table(self) -> list[list[str]]:
        return [[column.head() for column in self.columns], *(self.record(case) for case in self.cases.rows)]

    def error(self, case: str, said: str) -> str:
        """The error of a row, with the file, the line and the head of its cell in the place of the column's number."""
        found = re.fullmatch(r"column (\d+) (.+)", said)
        line = self.cases.of(case)[0].line
        if not found or not 1 <= int(found[1]) <= len(self.columns):
            return f"{self.cases.file}:{line}: {said}"
        column = self.columns[int(found[1]) - 1]
        rows = self.above[column.part.file].of(case) if column.phrase in column.part.lists else column.part.of(case)
        part = self.above[column.part.file] if column.phrase in column.part.lists else column.part
        line = rows[max(column.number, 1) - 1].line
        return f"{part.file}:{line}: {column.phrase}: {found[2]}"

    def rows(self, text: str, where: str, day: str | None) -> list[list[str]]:
        """What `desk batch` printed, behind the names of the cases; with each goal's value on the day beside its line."""
        try:
            records = [record for record in csv.reader(io.StringIO(text), strict=True) if record]
        except csv.Error as error:
            raise Fault(f"{where} isn't what desk batch prints: {error}") from error
        heads = records[0] if records else []
        if len(heads) < 2 or heads[0] != "row" or heads[-1] != "fault":
            raise Fault(f"{where} isn't what desk batch prints: its first line is {','.join(heads) or 'empty'}")
        for number, record in enumerate(records[1:], 1):
            if len(record) != len(heads) or record[0] != str(number):
                raise Fault(f"{where} isn't what desk batch prints: its row {number} is {','.join(record)}")
        if len(records) - 1 != len(self.cases.rows):
            raise Fault(f"{where} has {len(records) - 1} rows, and {self.cases.file} has {len(self.cases.rows)} cases")
        beside = [[goal, f"{goal} at {day}"] if day else [goal] for goal in heads[1:-1]]
        found = [[self.cases.head, *sum(beside, []), "fault"]]
        for case, record in zip(self.cases.rows, records[1:]):
            lines = [[line, value_at(pairs_of(line), day) if line else ""] if day else [line] for line in record[1:-1]]
            found.append([case, *sum(lines, []), self.error(case, record[-1]) if record[-1] else ""])
        return found
