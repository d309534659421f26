"""Forms and the case: which fields a page has, and what becomes of those that are sent."""
from __future__ import annotations

import re
from typing import Any

from sennabasket import BadText, Case, Listed, Point, Refused, Screen, Timeline, UNKNOWN

from . import fields
from .fields import Change, Field, Wrong
from .saying import Saying
from .words import Words

MOST_PAGES, MOST_LINES = 300, 4_000


def instances(case: Case, words: Words, about: Any) -> list[str]:
    """Who may be chosen in a list that refers to instances which live elsewhere."""
    if not isinstance(about, Listed) or about.sort not in ("one", "many") or about.to is None:
        return []
    return living(case, words, about.to)


def living(case: Case, words: Words, entity: str) -> list[str]:
    """All instances of an entity that are listed."""
    container = words.base.container(entity)
    found: list[str] = []
    places: list[str | None] = [None] if container.of is None else [*living(case, words, container.of)]
    for of in places:
        held = case.show(container.phrase, of)
        found += held if isinstance(held, tuple) else ()
    return found


def a_field(case: Case, key: str, point: Point, words: Words, saying: Saying) -> Field | None:
    about = words.base.lists.get(point.phrase)
    return fields.field_of(key, point, words, saying, instances(case, words, about))


def needed(case: Case) -> tuple[Screen | None, set[Point]]:
    """The screen that is asked next, and all that the open goals miss: of each on the first day on which it is unknown."""
    opened = [goal for goal in case.goals() if goal.state == "undecided"]
    if not opened:
        return None, set()
    days = [next(since for since, value in goal.line.parts if value is UNKNOWN) for goal in opened]
    look = case.look([(Point(goal.phrase), day) for goal, day in zip(opened, days)])
    asked = {question.point for question in look.screen.questions} if look.screen else set()
    return look.screen, asked.union(*(report.unanswered for report in look.reports))


def fresh(case: Case, screen: Screen, words: Words, saying: Saying) -> list[Field]:
    """The fields of a screen, instance by instance in the order in which these are first asked about."""
    order = list(dict.fromkeys(question.point.of for question in screen.questions))
    questions = sorted(screen.questions, key=lambda question: order.index(question.point.of))
    made = [a_field(case, f"q{n}", question.point, words, saying) for n, question in enumerate(questions[: fields.MOST_FIELDS])]
    return [each for each in made if each is not None]


def progress(case: Case, still: int, made: list[Field]) -> tuple[int, int]:
    """How many answers there are, and how many questions are open at least."""
    kept = case.stats()
    return kept["answers"] + kept["lists"], max(still, len(made))


def held(case: Case, points: list[Point], words: Words, saying: Saying) -> list[Field]:
    """Fields with what is held; those whose instance has gone are left out."""
    found = []
    for number, point in enumerate(points):
        try:
            made = a_field(case, f"q{number}", point, words, saying)
            if made is not None:
                made.fill(case.show(point.phrase, point.of), saying)
                found.append(made)
        except Refused:
            continue
    return found


def sent(case: Case, words: Words, saying: Saying, form: Any, one: Point | None) -> list[Field]:
    """The fields that were sent, with what was typed. Each says its point: whether that can be answered is asked of the program."""
    made = []
    for number in range(fields.MOST_FIELDS):
        if f"q{number}-p" not in form:
            break
        point = Point(form[f"q{number}-p"][:1000], form.get(f"q{number}-i"))
        if one is not None and point != one:
            continue
        try:
            str(point)
        except BadText:
            continue
        found = a_field(case, f"q{number}", point, words, saying)
        if found is not None:
            fields.take(found, form, form.getlist(f"q{number}-r"))
            made.append(found)
    return made


def act(case: Case, made: list[Field], saying: Saying, form: Any, is_strict: bool) -> bool:
    """Carries out what was sent; whether all of it is done. What is wrong stands at its field afterwards."""
    action = form.get("action", "go")
    if action not in ("go", "remove"):
        arrange(made, action)
        return False
    empty = []
    for each in made:
        try:
            if action == "remove":
                remove(case, each)
            elif each.is_empty:
                empty.append(each)
            else:
                answer(case, each, each.said(saying))
        except Wrong as wrong:
            each.error, each.error_at = saying(wrong.key, **wrong.parts), wrong.at
        except Refused as refused:
            key = f"error_change_{refused.number if refused.sort == 'change' else 0}"
            each.error = saying(key, bounds=fields.bounds(each.about, saying, is_wrong=True), printed=refused.printed)
        except BadText:
            each.error = saying("error_text")
        each.error_at = each.error_at or (f"{each.key}-0" if each.is_list else each.control(each.key))
    if empty:
        mark_needed(case, empty, saying, is_strict)
    return not any(each.error for each in made)


def mark_needed(case: Case, empty: list[Field], saying: Saying, is_strict: bool) -> None:
    """What was left empty is wrong where it is still needed, or was answered before."""
    _, asked = needed(case)
    for each in empty:
        try:
            is_held = is_strict and case.show(each.point.phrase, each.point.of) not in (UNKNOWN, Timeline.of(UNKNOWN))
        except Refused:
            continue
        if is_held or each.point in asked:
            each.error = saying("error_empty_list" if each.sort == "names" else "error_empty_choice" if each.is_list else "error_empty")


def bounded(case: Case) -> None:
    if len(case.lines) >= MOST_LINES:
        raise Wrong("error_full")


def answer(case: Case, each: Field, said: Timeline | list[str]) -> None:
    bounded(case)
    if isinstance(said, list):
        if case.show(each.point.phrase, each.point.of) != tuple(said):
            case.list(each.point.phrase, said, each.point.of)
    else:
        case.answer(each.point.phrase, said, each.point.of)


def remove(case: Case, each: Field) -> None:
    if each.is_list:
        bounded(case)
        case.forget(each.point.phrase, each.point.of)
    else:
        case.withdraw(each.point.phrase, each.point.of)


def arrange(made: list[Field], action: str) -> None:
    """Adds or takes away a box, as a button asks for it; nothing is carried out."""
    said = re.fullmatch(r"(add-name|remove-name|add-change):(q\d{1,3})(?::(\d{1,3}))?", action)
    found = next((each for each in made if said and each.key == said[2]), None)
    if said is None or found is None:
        return
    if said[1] == "add-name" and len(found.names) < fields.MOST_NAMES:
        found.names.append("")
        found.focus = f"{found.key}-{len(found.names) - 1}"
    elif said[1] == "remove-name" and said[3] and int(said[3]) < len(found.names):
        found.names.pop(int(said[3]))
        found.focus = f"{found.key}-{max(0, int(said[3]) - 1)}"
    elif said[1] == "add-change" and len(found.changes) < fields.MOST_CHANGES:
        found.changes.append(Change())
        found.focus = f"{found.key}-c{len(found.changes)}-f-d"


def answered(case: Case, words: Words, saying: Saying) -> list[tuple[str, list[dict[str, Any]]]]:
    """What is held, screen by screen: the question, the answer in words, and the point."""
    base = words.base
    screens = [*base.screens, "Questions"]
    order = {phrase: place for place, phrase in enumerate([phrase for shown in base.screens.values() for phrase in shown])}
    order |= {phrase: len(order) + place for place, phrase in enumerate([*base.lists, *base.attributes]) if phrase not in order}
    names: dict[str | None, int] = {}
    for point in case.points:
        names.setdefault(point.of, len(names))
    found: dict[str, list[dict[str, Any]]] = {}
    for point in sorted(case.points, key=lambda point: (names[point.of], order[point.phrase])):
        about: Any = base.attributes.get(point.phrase) or base.lists[point.phrase]
        lines = said_lines(case, point, about, words, saying)
        if lines:
            row = {"question": words.question(saying.language, about, point.of), "lines": lines, "point": point}
            found.setdefault(about.screen or "Questions", []).append(row)
    return sorted(found.items(), key=lambda group: screens.index(group[0]))


def said_lines(case: Case, point: Point, about: Any, words: Words, saying: Saying) -> list[str]:
    """What is held of a point, in words; nothing, where nothing is."""
    try:
        value = case.show(point.phrase, point.of)
    except Refused:
        return []
    if isinstance(value, tuple):
        return list(value) or [saying("none")]
    if not isinstance(value, Timeline) or value == Timeline.of(UNKNOWN):
        return []
    unit, choices = words.unit(saying.language, point.phrase), words.choices(saying.language, point.phrase)
    said = [saying.value(each, about.kind, unit, choices) for _, each in value]
    return [text if n == 0 else f"{saying.since(since, n)}: {text}" for n, ((since, _), text) in enumerate(zip(value.parts, said))]
