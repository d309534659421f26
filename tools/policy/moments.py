"""The tests of a folder as moments: the commands so far, and the points whose values are printed then."""
from __future__ import annotations

import dataclasses
import pathlib
import re

from .cases import CHANGES, Case, caseload, record_commands, records, step
from .declared import Declared
from .programs import Fault, Programs, read
from .texts import DATE, TEXT

KINDS = (
    ("_input.txt", "run"),
    ("_expect.txt", "run"),
    ("_replies.txt", "interview"),
    ("_batch.csv", "batch"),
    ("_caseload.txt", "cases"),
)


@dataclasses.dataclass
class Moment:
    """A case at a moment, and what is asked of it: points, each with a day or with all days."""

    test: str
    commands: list[str]
    asked: list[tuple[str, str | None]]


def rulebase(folder: pathlib.Path, name: str) -> pathlib.Path:
    """The rulebase of a test: the longest front of its name, cut at a _, that has one."""
    parts = name.split("_")
    for count in range(len(parts), 0, -1):
        file = folder / f"{'_'.join(parts[:count])}.txt"
        if file.is_file():
            return file
    raise Fault(f"there is no rulebase for the test {name} in {folder}")


def tests(folder: pathlib.Path) -> list[tuple[pathlib.Path, str, str]]:
    """Each test's file, its name and its mode."""
    if not folder.is_dir():
        raise Fault(f"{folder} is no folder")
    found = []
    for ending, mode in KINDS:
        found += [(file, file.name[: -len(ending)], mode) for file in sorted(folder.glob(f"*{ending}"))]
    return found


def asked_by(command: str, declared: Declared) -> list[tuple[str, str | None]] | None:
    """What a command asks for: nothing for a change, or None for another command."""
    command = command.strip()
    word = command.split(" ", 1)[0]
    if word == "goals":
        return [(goal, None) for goal in declared.goals]
    shown = re.fullmatch(r"show\s+(.*)", command)
    if shown:
        return [(shown[1], None)] if shown[1].split(' of "')[0] in declared.attributes else []
    reported = re.fullmatch(rf"report\s+(.*)\s+at\s+({DATE})", command)
    if reported:
        return [(reported[1], reported[2])]
    expected = re.fullmatch(rf"expect\s+(.*?)(?:\s+at\s+({DATE}))?\s*=.*", command)
    if expected:
        return [(expected[1], expected[2])]
    return None


def of_commands(test: str, lines: list[str], declared: Declared) -> list[Moment]:
    """The moments of a run."""
    found: list[Moment] = []
    commands: list[str] = []
    for line in lines:
        asked = asked_by(line, declared)
        if asked is None:
            if line.strip().split(" ", 1)[0] in (*CHANGES, "save"):
                commands.append(line.strip())
        elif asked:
            if found and found[-1].commands == commands:
                found[-1].asked += asked
            else:
                found.append(Moment(test, list(commands), asked))
    return found


def of_replies(programs: Programs, base: pathlib.Path, test: str, text: str, declared: Declared) -> list[Moment]:
    """The moments of an interview: its replies as answers to the questions that it asked."""
    printed = programs.run("interview", base, text)
    questions = declared.questions()
    prompts = []
    for line in printed.splitlines():
        asked = re.fullmatch(rf"\[.*?\] (.+?)( of {TEXT})?\?", line)
        if asked and asked[1] in questions:
            prompts.append((questions[asked[1]], asked[2] or ""))
    lines = []
    for (phrase, of), reply in zip(prompts, text.splitlines()):
        if reply.lstrip().startswith("/"):
            lines.append(reply.lstrip()[1:])
        elif reply.strip() and not reply.lstrip().startswith("#"):
            lines.append(f"{'list' if phrase in declared.relations else 'answer'} {phrase}{of} = {reply.strip()}")
    return of_commands(test, [*lines, "goals"], declared)


def of_batch(programs: Programs, base: pathlib.Path, test: str, text: str, declared: Declared) -> list[Moment]:
    """One moment for each record that isn't faulty."""
    heads, rows = records(text, test)
    decided = records(programs.run("batch", base, text), test)[1]
    asked: list[tuple[str, str | None]] = [(goal, None) for goal in declared.goals]
    lists = set(declared.relations)
    return [Moment(test, record_commands(heads, row, lists), list(asked)) for row, cells in zip(rows, decided) if not cells[-1]]


def of_caseload(test: str, text: str, declared: Declared) -> list[Moment]:
    found: list[Moment] = []
    cases: dict[str, tuple[Case, list[list[str]]]] = {}
    for name, command in caseload(text):
        case, pile = cases.setdefault(name, (Case(name), []))
        asked = asked_by(command, declared)
        if asked:
            found.append(Moment(test, list(case.commands), asked))
        step(case, pile, command)
    return found


def moments(programs: Programs, file: pathlib.Path, name: str, mode: str, base: pathlib.Path, declared: Declared) -> list[Moment]:
    text = read(file)
    if mode == "interview":
        return of_replies(programs, base, name, text, declared)
    if mode == "batch":
        return of_batch(programs, base, name, text, declared)
    if mode == "cases":
        return of_caseload(name, text, declared)
    return of_commands(name, text.splitlines(), declared)
