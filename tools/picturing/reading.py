"""What is read of a transcript: files, days, lines of values, reports."""
from __future__ import annotations

import dataclasses
import datetime
import pathlib
import re

DATE = r"\d{4}-\d{2}-\d{2}"
TEXT = r'"(?:[^"]|"")*"'
VALUE = rf"(?:unknown|uncertain|true|false|{DATE}|-?\d+(?:\.\d+)?|{TEXT})"
LINE = re.compile(rf"(.+?): ({VALUE}(?:; from {DATE} {VALUE})*)(?: \((settled|decided|undecided)\))?")
POINT = re.compile(rf"(\d+) (.+), ({DATE}) to ({DATE}): ({VALUE}), (rule (.+):(\d+)|answer|unanswered)")
LIST = re.compile(rf"(\d+) list (.+?): (unknown|none|{TEXT}(?:, {TEXT})*)")
MEMBER = re.compile(rf"(\d+) member (.+?): ({TEXT})")
HEAD = re.compile(rf"report (.+) at ({DATE})")

Day = datetime.date
Pairs = list[tuple[Day | None, str]]


class Fault(Exception):
    """What can't be read, by name."""


def read(path: pathlib.Path | str) -> str:
    try:
        return pathlib.Path(path).read_text()
    except (OSError, UnicodeDecodeError) as error:
        raise Fault(f"can't read {path}: {error}") from error


def day_of(text: str, where: str) -> Day:
    try:
        return Day.fromisoformat(text)
    except ValueError as error:
        raise Fault(f"{where}: {text} is no day") from error


def lines_of_values(text: str, where: str) -> dict[str, tuple[Pairs, str | None]]:
    """Each point of a transcript with its pairs (day, value) and its state; the first day is None. The last line of a point counts."""
    found: dict[str, tuple[Pairs, str | None]] = {}
    in_report = False
    for line in text.splitlines():
        in_report = line != "end" and (in_report or HEAD.fullmatch(line) is not None)
        values = LINE.fullmatch(line)
        if values and not in_report:
            parts = re.findall(rf"(?:^|; from ({DATE}) )({VALUE})", values[2])
            found[values[1]] = ([(day_of(day, where) if day else None, value) for day, value in parts], values[3])
    if not found:
        raise Fault(f"{where} has no line POINT: VALUE; from DATE VALUE")
    return found


@dataclasses.dataclass
class Node:
    """A line of a report: what it says of a point or a list."""

    number: int
    phrase: str
    name: str | None
    value: str
    days: tuple[str, str] | None
    origin: str
    file: str = ""
    line: int = 0


def parted(point: str) -> tuple[str, str | None]:
    """A point's phrase and the name of its instance, if there is one."""
    split = re.fullmatch(rf"(.+?) of ({TEXT})", point)
    return (split[1], split[2][1:-1].replace('""', '"')) if split else (point, None)


def report_of(text: str, where: str) -> tuple[str, str, list[Node]]:
    """The asked point, its day, and the lines of the first report of a transcript, without those on where an instance is."""
    lines = text.splitlines()
    start = next((n for n, line in enumerate(lines) if HEAD.fullmatch(line)), None)
    end = next((n for n in range(start or 0, len(lines)) if lines[n] == "end"), None)
    head = HEAD.fullmatch(lines[start]) if start is not None else None
    if start is None or end is None or head is None:
        raise Fault(f"{where} has no report: no lines from `report POINT at DATE` to `end`")
    nodes = []
    for place, line in enumerate(lines[start + 1 : end], start + 2):
        if point := POINT.fullmatch(line):
            phrase, name = parted(point[2])
            origin = point[6].split()[0]
            nodes.append(Node(int(point[1]), phrase, name, point[5], (point[3], point[4]), origin, point[7] or "", int(point[8] or 0)))
        elif named := LIST.fullmatch(line):
            phrase, name = parted(named[2])
            nodes.append(Node(int(named[1]), phrase, name, named[3], None, "list"))
        elif not MEMBER.fullmatch(line):
            raise Fault(f"{where}:{place} is no line of a report")
    if not nodes:
        raise Fault(f"{where}:{start + 1}: the report has no lines")
    return head[1], head[2], nodes
