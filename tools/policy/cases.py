"""Cases: the commands of records, caseloads and inputs that answer something."""
from __future__ import annotations

import csv
import dataclasses
import io
import re

from .programs import Fault
from .texts import TEXT, unquoted

CHANGES = ("answer", "withdraw", "list", "forget", "load")


@dataclasses.dataclass
class Case:
    """A case: its name, and its commands in order."""

    name: str
    commands: list[str] = dataclasses.field(default_factory=list)


def records(text: str, where: str) -> tuple[list[str], list[list[str]]]:
    """The heads and the records of a table of comma-separated values."""
    rows = list(csv.reader(io.StringIO(text)))
    if not rows:
        raise Fault(f"{where} has no record")
    return rows[0], [row for row in rows[1:] if row]


def table(rows: list[list[str]]) -> str:
    out = io.StringIO()
    csv.writer(out, lineterminator="\n").writerows(rows)
    return out.getvalue()


def record_commands(heads: list[str], record: list[str], lists: set[str]) -> list[str]:
    """The commands that `desk batch` carries out for a record; `lists` has the phrases of lists."""
    found = []
    for head, cell in zip(heads, record):
        if cell:
            found.append(f"{'list' if head.split(' of ')[0].strip() in lists else 'answer'} {head} = {cell}")
    return found


def head_of(command: str) -> str:
    """The point that a command answers or lists."""
    found = re.fullmatch(r"\s*(?:answer|withdraw|list|forget)\s+(.*?)\s*(?:=.*)?", command)
    return found[1] if found else command


def caseload(text: str) -> list[tuple[str, str]]:
    """The lines of a caseload: the name of the case, and the command."""
    found = []
    for line in text.splitlines():
        named = re.match(rf"\s*({TEXT})\s*(.*)", line)
        if named:
            found.append((unquoted(named[1]), named[2].strip()))
    return found


def held(text: str) -> list[Case]:
    """The cases that a caseload leaves open, each with the commands that made it what it is."""
    cases: dict[str, Case] = {}
    piles: dict[str, list[list[str]]] = {}
    for name, command in caseload(text):
        case, pile = cases.setdefault(name, Case(name)), piles.setdefault(name, [])
        step(case, pile, command)
        if command == "close":
            del cases[name], piles[name]
    return list(cases.values())


def step(case: Case, pile: list[list[str]], command: str) -> None:
    """Carries out what a caseload's command does to a case's commands."""
    word = command.split(" ", 1)[0]
    if word in CHANGES:
        case.commands.append(command)
    elif command == "suppose" and len(pile) < 4:
        pile.append(list(case.commands))
    elif command == "undo" and pile:
        case.commands = pile.pop()
    elif command == "close":
        case.commands, pile[:] = [], []
