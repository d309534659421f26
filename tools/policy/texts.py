"""What the programs print: values, lines of values over days, and reports."""
from __future__ import annotations

import dataclasses
import re
from decimal import Decimal

DATE = r"\d{4}-\d{2}-\d{2}"
TEXT = r'"(?:[^"]|"")*"'
VALUE = rf"(?:unknown|uncertain|true|false|{DATE}|-?\d+(?:\.\d+)?|{TEXT})"
LINE = re.compile(rf"(.+?): ({VALUE}(?:; from {DATE} {VALUE})*)(?: \((settled|decided|undecided)\))?")
POINT = re.compile(rf"(\d+) (.+), ({DATE}) to ({DATE}): ({VALUE}), (rule (.+):(\d+)|answer|unanswered)")
LIST = re.compile(rf"(\d+) list (.+?): (unknown|none|{TEXT}(?:, {TEXT})*)")
MEMBER = re.compile(rf"(\d+) member (.+?): ({TEXT})")
FIRST_DAY = "1600-01-01"

Pairs = list[tuple[str, str]]


def pairs_of(line: str) -> Pairs:
    """`VALUE; from DATE VALUE` as pairs of a first day and a value."""
    found = re.findall(rf"(?:^|; from ({DATE}) )({VALUE})", line)
    return [(day or FIRST_DAY, value) for day, value in found]


def value_at(pairs: Pairs, day: str) -> str:
    return [value for first, value in pairs if first <= day][-1]


def number(value: str) -> Decimal | None:
    """The number that a value is, or None."""
    return Decimal(value) if re.fullmatch(r"-?\d+(?:\.\d+)?", value) else None


def differing(old: Pairs, new: Pairs) -> list[str]:
    """The first day of each stretch of days on which two lines differ."""
    found, apart = [], False
    for day in sorted({day for day, _ in old + new}):
        differs = value_at(old, day) != value_at(new, day)
        if differs and not apart:
            found.append(day)
        apart = differs
    return found


def quoted(name: str) -> str:
    return '"' + name.replace('"', '""') + '"'


def unquoted(text: str) -> str:
    return text[1:-1].replace('""', '"')


def names_of(text: str) -> list[str]:
    """The names of `"Ada", "Bo"`; none for `none`."""
    return [unquoted(name) for name in re.findall(TEXT, text)]


def split_point(point: str) -> tuple[str, str]:
    """The phrase, and the instance's name or an empty text."""
    found = re.fullmatch(rf"(.+?) of ({TEXT})", point)
    return (found[1], unquoted(found[2])) if found else (point, "")


@dataclasses.dataclass(frozen=True)
class Said:
    """A line of a report that says a point's value from one day to another one."""

    point: str
    first: str
    last: str
    value: str
    origin: str  # answer, unanswered, or rule
    file: str
    line: int


@dataclasses.dataclass
class Report:
    """A report: its lines as they are printed, its points, its lists, and where each instance is."""

    point: str
    day: str
    lines: list[str]
    said: list[Said]
    lists: dict[str, str]
    members: list[tuple[str, str]]


def reports_of(printed: str) -> list[Report]:
    """All reports of a transcript, in order."""
    found: list[Report] = []
    current: Report | None = None
    for line in printed.splitlines():
        head = re.fullmatch(rf"report (.+) at ({DATE})", line)
        if current is None and head:
            current = Report(head[1], head[2], [line], [], {}, [])
        elif current is not None:
            current.lines.append(line)
            if line == "end":
                found.append(current)
                current = None
            elif point := POINT.fullmatch(line):
                origin = "rule" if point[7] else point[6]
                current.said.append(Said(point[2], point[3], point[4], point[5], origin, point[7] or "", int(point[8] or 0)))
            elif named := LIST.fullmatch(line):
                current.lists[named[2]] = named[3]
            elif member := MEMBER.fullmatch(line):
                current.members.append((member[2], unquoted(member[3])))
    return found


def without_place(line: str) -> str:
    """A report's line without its number and without the place of its rule: what two versions of a rulebase can share."""
    return re.sub(r", rule .+:\d+$", ", rule", re.sub(r"^\d+ ", "", line))
