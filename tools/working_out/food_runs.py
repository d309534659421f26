"""The records of the batch of food assistance, the same as commands, and a large family day by day."""
from __future__ import annotations

import csv
import io
from typing import Any

from .food import GREATEST, Household, by_size, income_limit
from .food_cases import food_cases
from .values import Day, Part, line, spelled

NAMES = ("Ann", "Ben", "Cid", "Dee")
OF_MEMBER = (
    ("born", "the member's date of birth"), ("disabled", "the member receives disability payments"), ("assistance", "the member receives public assistance"),
    ("family_aid", "the member receives family assistance"),
    ("student", "the member is a student of higher education"), ("pupil", "the member is a pupil"), ("hours", "the member's hours of work a week"),
    ("unfit", "the member is unfit for work"), ("cares", "the member cares for a child under six"), ("wages", "the member's monthly wages"),
    ("sales", "the member's monthly sales"), ("costs", "the member's monthly costs of trade"), ("pension", "the member's monthly pension"),
    ("support", "the member's monthly payments of support"), ("medical", "the member's monthly medical expenses"), ("cash", "the member's cash"),
    ("other", "the member's other resources"),
)  # fmt: skip
OF_ALL = (
    ("care_needed", "the care is needed for work"), ("care", "the monthly costs of care"), ("support_paid", "the monthly child support paid"),
    ("homeless", "the household is homeless"), ("rent", "the monthly rent"), ("tax", "the monthly property tax"),
    ("heating", "the household pays for heating"), ("utility", "the state's utility allowance"),
)  # fmt: skip
TRUTHS = {"disabled", "assistance", "family_aid", "student", "pupil", "unfit", "cares", "care_needed", "homeless", "heating"}
GOALS = ("the application is approved", "the benefit at the application", "the first month's benefit", "the last day for a decision")


def cell(given: dict[str, Any], name: str) -> str:
    value = given.get(name, False if name in TRUTHS else 0)
    return spelled(value) if isinstance(value, (bool, Day)) else str(value)


def food_batch() -> dict[str, str]:
    """The records of the batch, what they give, and the same as commands of a run and what these print."""
    heads = ["the day of the application", "the members"]
    heads += [f'{phrase} of "{name}"' for name in NAMES for _, phrase in OF_MEMBER] + [phrase for _, phrase in OF_ALL]
    records, results, commands, printed = [heads], [["row", *GOALS, "fault"]], [], []
    for number, (case, apart) in enumerate(food_cases(), 1):
        record = [str(case.day), ", ".join(f'"{name}"' for name in NAMES[: len(case.people)])]
        for place in range(len(NAMES)):
            known = place < len(case.people)
            record += [cell(case.people[place], name) if known else "" for name, _ in OF_MEMBER]
        unsaid = case.rest.get("unsaid", [])
        record += ["" if name in unsaid else cell(case.rest, name) for name, _ in OF_ALL]
        records.append(record)
        commands.append(f"# {number}")
        lists = {"the members"}
        for head, value in zip(heads, record):
            if value:
                commands.append(f"{'list' if head in lists else 'answer'} {head} = {value}")
        if "fault" in apart:
            head, fault = apart["fault"]
            results.append([str(number), "", "", "", "", f"column {heads.index(head) + 1} {fault}"])
            printed.append(f"refused: {fault}")
            goals = None
        else:
            goals = apart.get("goals") or [spelled(value) for value in case.decided()]
            results.append([str(number), *goals, ""])
        if goals:
            commands.append("goals")
            printed += [f"{goal}: {value} ({'undecided' if value == 'unknown' else 'settled'})" for goal, value in zip(GOALS, goals)]
        commands.append('load "food_none.json"')
        printed.append("loaded from version 1")
    lines = lambda texts: "".join(f"{text}\n" for text in texts)
    return {
        "food_batch.csv": table(records),
        "food_batch_output.csv": table(results),
        "food_cases_input.txt": lines(commands),
        "food_cases_output.txt": lines(printed),
        "food_none.json": '{"answers":[],"format":"policy-case","lists":[],"version":1}\n',
    }


def food_family() -> dict[str, str]:
    """Ten people in one home, day by day: the commands of a run, and what they print."""
    born = [Day(1984, 4, 4), Day(1983, 11, 30), Day(2006, 8, 2)] + [Day(2008 + 2 * k, 1, 1) for k in range(7)]
    wages = [2400, 1800, 500] + [0] * 7
    people = [{"born": born[k], "wages": wages[k], "pupil": k > 1} for k in range(10)]
    names = ["Ann", "Ben", "Bea"] + [f"C{k}" for k in range(1, 8)]
    costs = {"rent": 1500, "heating": True, "utility": 500}
    commands = ["# Ten people in one home: the last rows of the tables. Bea's wages count from her 18th birthday on.", "list the members = " + ", ".join(f'"{name}"' for name in names)]
    for name, given in zip(names, people):
        commands += [f'answer {phrase} of "{name}" = {cell(given, key)}' for key, phrase in OF_MEMBER]
    commands += [f"answer {phrase} = {cell(costs, key)}" for key, phrase in OF_ALL]
    changes = [Day(2023, 10, 1), Day(2024, 10, 1), Day(2025, 10, 1), Day(2024, 8, 2)]
    at = lambda day: Household(day, people, **costs)
    known = lambda day: None if at(day).year else "uncertain"
    shown = [
        ("the household size", "10"),
        ("the gross limit", line(lambda day: known(day) or Part(income_limit(at(day).year, 10, 130)), changes)),
        ("the net limit", line(lambda day: known(day) or Part(income_limit(at(day).year, 10, 100)), changes)),
        ("the greatest benefit", line(lambda day: known(day) or Part(by_size(GREATEST[at(day).year], 10)), changes)),
        ("the monthly benefit", line(lambda day: known(day) or at(day).benefit(), changes)),
    ]
    lines = lambda texts: "".join(f"{text}\n" for text in texts)
    return {
        "food_family_input.txt": lines(commands + [f"show {phrase}" for phrase, _ in shown]),
        "food_family_output.txt": lines(f"{phrase}: {value}" for phrase, value in shown),
    }


def table(records: list[list[str]]) -> str:
    text = io.StringIO()
    csv.writer(text, lineterminator="\n").writerows(records)
    return text.getvalue()
