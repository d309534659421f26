"""Parts of a batch as agencies keep them: a file with one row a case, and for each list a file with one row a member."""
from __future__ import annotations

import csv
import dataclasses
import io
from collections.abc import Iterator

from .declared import Declared
from .programs import Fault, read


@dataclasses.dataclass(frozen=True)
class Row:
    """A row: its line, its case, the names on the way down (its own one is last), its answers, and whom it refers to."""

    line: int
    case: str
    path: tuple[str, ...]
    answers: list[str]
    references: list[str]


@dataclasses.dataclass
class Part:
    """A file. A row of the cases' file is in no list; a member's row is in the last one of `lists`."""

    file: str
    head: str  # of the column that names the case
    lists: list[str]
    answers: list[str]
    references: list[str]
    rows: dict[str, list[Row]]  # those of each case, in order

    def of(self, case: str) -> list[Row]:
        return self.rows.get(case, [])


def records(file: str) -> Iterator[tuple[int, list[str]]]:
    """The records of a file, each with the line on which it begins; blank lines are none."""
    reader = csv.reader(io.StringIO(read(file)), strict=True)
    line = 1
    try:
        for record in reader:
            if any("\n" in cell or "\r" in cell for cell in record):
                raise Fault(f"{file}:{line}: a cell has a line feed in it")
            if record:
                yield line, [cell.strip() for cell in record]
            line = reader.line_num + 1
    except csv.Error as error:
        raise Fault(f"{file}:{line}: {error}") from error


def way(declared: Declared, phrase: str) -> list[str]:
    """The lists on the way down from the case to this one."""
    found = [phrase]
    while source := declared.relations[found[0]].source:
        found.insert(0, next(name for name, it in declared.relations.items() if it.sort == "in" and it.target == source))
    return found


def columns(declared: Declared, where: str, heads: list[str], left: list[str]) -> dict[str, list[str]]:
    """The heads behind the first one by sort: the lists that contain, the attributes, and the lists that refer."""
    found: dict[str, list[str]] = {"lists": [], "answers": [], "references": []}
    for place, head in enumerate(heads, 1):
        relation = declared.relations.get(head)
        if not head:
            raise Fault(f"{where}: column {place} has no head")
        if heads.index(head) != place - 1:
            raise Fault(f'{where}: columns {heads.index(head) + 1} and {place} are both "{head}"')
        if place == 1:
            if relation or head in declared.attributes:
                raise Fault(f'{where}: column 1 names the case, and "{head}" is a phrase of the rulebase')
        elif head in left:
            continue
        elif relation and relation.sort == "every":
            raise Fault(f'{where}: column {place}: "{head}" is a list of an "every" line, which isn\'t answered')
        elif relation:
            found["lists" if relation.sort == "in" else "references"].append(head)
        elif head in declared.attributes:
            found["answers"].append(head)
        else:
            raise Fault(f'{where}: column {place}: the rulebase has no phrase "{head}"')
    return found


def entity(declared: Declared, part: Part) -> str:
    """What a row of the part is about; an empty text for the case."""
    return declared.relations[part.lists[-1]].target if part.lists else ""


def place_of(declared: Declared, where: str, part: Part) -> None:
    """Puts the lists of a member's file in order; a Fault if they don't lead down from the case, or a column isn't about the member."""
    given = part.lists
    if given:
        part.lists = max((way(declared, phrase) for phrase in given), key=len)
    for phrase in part.lists:
        if phrase not in given:
            raise Fault(f'{where}: there is no column "{phrase}", which leads to "{part.lists[-1]}"')
    for phrase in given:
        if phrase not in part.lists:
            raise Fault(f'{where}: "{phrase}" doesn\'t lead to "{part.lists[-1]}"')
    wanted = entity(declared, part)
    for head in part.answers + part.references:
        owner = declared.attributes[head].entity if head in declared.attributes else declared.relations[head].source
        if owner != wanted:
            said = [f'"{name}"' if name else "the case" for name in (owner, wanted)]
            raise Fault(f'{where}: "{head}" is said of {said[0]}, and the rows are about {said[1]}')


def part_of(declared: Declared, file: str, left: list[str], cases: Part | None) -> Part:
    """Reads a file; the first one, which has the cases, is read with `cases` None."""
    lines = records(file)
    line, heads = next(lines, (1, []))
    where = f"{file}:{line}"
    if not heads:
        raise Fault(f"{where}: there is no heading")
    sorts = columns(declared, where, heads, left)
    part = Part(file, heads[0], **sorts, rows={})
    if cases is None and part.lists:
        raise Fault(f'{where}: "{part.lists[0]}" is a list, and its members have a file of their own')
    if cases is not None and not part.lists:
        raise Fault(f"{where}: no column has the names of a list's members")
    if cases is not None and part.head != cases.head:
        raise Fault(f'{where}: column 1 is "{part.head}", and that of {cases.file} is "{cases.head}"')
    place_of(declared, where, part)
    there: dict[tuple[str, ...], int] = {}
    for line, record in lines:
        where = f"{file}:{line}"
        if len(record) != len(heads):
            raise Fault(f"{where}: {len(record)} cells, and the heading has {len(heads)}")
        row = row_of(part, where, line, dict(zip(heads, record)))
        key = (row.case, *row.path)
        if key in there:
            what = f'has a second "{row.path[-1]}" in "{part.lists[-1]}"' if row.path else "is there already"
            raise Fault(f'{where}: the case "{row.case}" {what}; the first is on line {there[key]}')
        there[key] = line
        if cases is not None and row.case not in cases.rows:
            raise Fault(f'{where}: {cases.file} has no case "{row.case}"')
        part.rows.setdefault(row.case, []).append(row)
    return part


def row_of(part: Part, where: str, line: int, cells: dict[str, str]) -> Row:
    for head in (part.head, *part.lists):
        if not cells[head]:
            raise Fault(f'{where}: the cell of "{head}" is empty')
    path = tuple(cells[phrase] for phrase in part.lists)
    return Row(line, cells[part.head], path, [cells[head] for head in part.answers], [cells[head] for head in part.references])


def parts(declared: Declared, files: list[str], left: list[str]) -> list[Part]:
    """The cases' file, and then the others, each behind the one that contains its members."""
    cases = part_of(declared, files[0], left, None)
    found = [cases] + sorted((part_of(declared, file, left, cases) for file in files[1:]), key=lambda part: len(part.lists))
    by_list: dict[str, Part] = {}
    for part in found[1:]:
        if part.lists[-1] in by_list:
            raise Fault(f'{part.file}:1: the members of "{part.lists[-1]}" are in {by_list[part.lists[-1]].file} already')
        by_list[part.lists[-1]] = part
        if len(part.lists) > 1:
            contained(part, by_list.get(part.lists[-2]))
    return found


def contained(part: Part, above: Part | None) -> None:
    """A Fault if a row is contained in nobody."""
    if above is None:
        raise Fault(f'{part.file}:1: no file has the members of "{part.lists[-2]}"')
    for case, rows in part.rows.items():
        there = {row.path for row in above.of(case)}
        for row in rows:
            if row.path[:-1] not in there:
                raise Fault(f'{part.file}:{row.line}: {above.file} has no "{row.path[-2]}" in "{part.lists[-2]}" of the case "{case}"')
