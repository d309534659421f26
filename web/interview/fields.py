"""Questions as fields of a form: what was typed, read by its kind, and what is wrong with it.

What is read here is only whether something is a day, a number or a name at all. Whether it can be held is said by the program.
"""
from __future__ import annotations

import re
from collections.abc import Mapping
from dataclasses import dataclass, field
from datetime import date
from decimal import Decimal

from sennabasket import FIRST_DAY, LAST_DAY, UNCERTAIN, UNKNOWN, Attribute, BadText, Listed, Missing, Point, Timeline, Value
from sennabasket import texts, values

from .saying import Saying
from .words import Words

MOST_FIELDS, MOST_NAMES, MOST_CHANGES, MOST_TYPED = 200, 60, 40, 2_000


class Wrong(Exception):
    """What is wrong with something typed: the key of its text, what is put into that, and the control that it is about."""

    def __init__(self, key: str, at: str = "", **parts: object) -> None:
        self.key, self.at, self.parts = key, at, parts


@dataclass
class Piece:
    """One value as it was typed."""

    text: str = ""
    day: str = ""
    month: str = ""
    year: str = ""
    is_cant: bool = False

    @property
    def is_empty(self) -> bool:
        return not (self.text or self.day or self.month or self.year or self.is_cant)


@dataclass
class Change:
    when: Piece = field(default_factory=Piece)
    value: Piece = field(default_factory=Piece)

    @property
    def is_empty(self) -> bool:
        return self.when.is_empty and self.value.is_empty


@dataclass
class Field:
    """A question on a page. `key` begins the names of its controls; `sort` is that of the control."""

    key: str
    point: Point
    about: Attribute | Listed
    sort: str
    choices: dict[str, str] = field(default_factory=dict)
    value: Piece = field(default_factory=Piece)
    changes: list[Change] = field(default_factory=list)
    names: list[str] = field(default_factory=list)
    is_none: bool = False
    is_too_many: bool = False
    error: str = ""
    error_at: str = ""
    focus: str = ""

    @property
    def is_list(self) -> bool:
        return self.sort in ("names", "one", "many")

    @property
    def has_changes(self) -> bool:
        """Whether the part for changes is to be seen."""
        return any(not change.is_empty for change in self.changes) or any(at.startswith(f"{self.key}-c") for at in (self.focus, self.error_at))

    @property
    def is_empty(self) -> bool:
        if self.is_list:
            return not (self.is_none or any(self.names))
        return self.value.is_empty and all(change.is_empty for change in self.changes)

    def said(self, saying: Saying) -> Timeline | list[str]:
        """The answer that was typed."""
        return self.said_names() if self.is_list else self.said_line(saying)

    def said_names(self) -> list[str]:
        names = [name for name in self.names if name]
        if self.is_too_many:
            raise Wrong("error_many", f"{self.key}-0", most=MOST_NAMES)
        if names and self.is_none:
            raise Wrong("error_both_list", f"{self.key}-0")
        for place, name in enumerate(self.names):
            try:
                if name:
                    texts.name(name)
            except BadText:
                raise Wrong("error_name", f"{self.key}-{place}") from None
        if self.sort != "names" and not set(names) <= set(self.choices):
            raise Wrong("error_change_1", f"{self.key}-0")
        return names

    def said_line(self, saying: Saying) -> Timeline:
        if self.is_too_many:
            raise Wrong("error_many", self.control(self.key), most=MOST_CHANGES)
        first = self.read(self.value, self.key, saying)
        parts: list[tuple[date, Value]] = []
        for place, change in enumerate(self.changes, 1):
            if change.is_empty:
                continue
            key = f"{self.key}-c{place}"
            if change.when.is_empty:
                raise Wrong("error_change_date", f"{key}-f-d")
            if change.value.is_empty:
                raise Wrong("error_change_value", self.control(key))
            since = day_of(change.when, f"{key}-f")
            if since <= (parts[-1][0] if parts else FIRST_DAY):
                raise Wrong("error_change_order", f"{key}-f-d")
            parts.append((since, self.read(change.value, key, saying)))
        return Timeline.of(first, parts)

    def control(self, key: str) -> str:
        """The first control of a value, for whoever has to go there."""
        return f"{key}-d" if self.sort == "date" else key

    def read(self, piece: Piece, key: str, saying: Saying) -> Value:
        at = self.control(key)
        if piece.is_cant:
            if piece.text or piece.day or piece.month or piece.year:
                raise Wrong("error_both", at)
            return UNCERTAIN
        if piece.is_empty:
            raise Wrong("error_empty", at)
        if self.sort == "date":
            return day_of(piece, key)
        if self.sort in ("bool", "choice"):
            if piece.text not in self.choices:
                raise Wrong("error_empty", at)
            return piece.text == "yes" if self.sort == "bool" else piece.text
        if self.sort == "text":
            try:
                texts.quoted(piece.text)
            except BadText:
                raise Wrong("error_text", at) from None
            return piece.text
        number = saying.read_number(piece.text)
        try:
            values.number(number if number is not None else values.GREATEST * 2)
        except BadText:
            if number is not None and abs(number) <= values.GREATEST:
                raise Wrong("error_change_3", at, bounds=bounds(self.about, saying, is_wrong=True)) from None
            raise Wrong("error_number", at, example=saying.number(Decimal("1250.5"), 2)) from None
        assert number is not None
        return number

    def fill(self, held: Timeline | tuple[str, ...] | Missing, saying: Saying) -> None:
        """Puts what is held into the controls."""
        if isinstance(held, tuple):
            self.names, self.is_none = list(held), not held
        elif isinstance(held, Timeline):
            (_, first), *later = held.parts
            self.value = self.piece(first, saying)
            self.changes = [Change(day_piece(since), self.piece(value, saying)) for since, value in later]

    def piece(self, value: Value, saying: Saying) -> Piece:
        if value is UNKNOWN:
            return Piece()
        if value is UNCERTAIN:
            return Piece(is_cant=True)
        if isinstance(value, bool):
            return Piece("yes" if value else "no")
        if isinstance(value, date):
            return day_piece(value)
        if isinstance(value, Decimal):
            return Piece(saying.number(value, 2 if self.about_kind == "currency" and value % 1 else None))
        return Piece(str(value))

    @property
    def about_kind(self) -> str:
        return str(self.about.kind) if isinstance(self.about, Attribute) else "list"


def day_piece(day: date) -> Piece:
    return Piece(day=str(day.day), month=str(day.month), year=str(day.year))


def day_of(piece: Piece, key: str) -> date:
    parts = [piece.day, piece.month, piece.year]
    if not all(re.fullmatch(r"\d{1,4}", part, re.ASCII) for part in parts) or len(piece.year) != 4:
        raise Wrong("error_date", f"{key}-d")
    try:
        day = date(int(piece.year), int(piece.month), int(piece.day))
    except ValueError:
        raise Wrong("error_date", f"{key}-d") from None
    if not FIRST_DAY <= day <= LAST_DAY:
        raise Wrong("error_days", f"{key}-y", first=FIRST_DAY.year, last=LAST_DAY.year)
    return day


def bounds(about: Attribute | Listed, saying: Saying, is_wrong: bool = False) -> str:
    """What the declaration says of a number, in sentences; of an amount its decimals only if something is wrong."""
    if not isinstance(about, Attribute) or about.kind not in ("number", "currency"):
        return ""
    said = {key: saying.number(Decimal(text)) for key, text in (("least", about.least), ("most", about.most)) if text is not None}
    key = "number_between" if len(said) == 2 else f"number_{next(iter(said))}" if said else ""
    parts = [saying(key, **said)] if key else []
    if about.decimals == 0:
        parts.append(saying("decimals_0"))
    elif about.decimals is not None and (is_wrong or about.kind == "number" and about.decimals < 4):
        parts.append(saying("decimals_1" if about.decimals == 1 else "decimals_many", count=about.decimals))
    return " ".join(parts)


def field_of(key: str, point: Point, words: Words, saying: Saying, instances: list[str]) -> Field | None:
    """The field of a point that can be asked; nothing, where it can't. `instances` are those that a reference may choose from."""
    about: Attribute | Listed | None = words.base.attributes.get(point.phrase) or words.base.lists.get(point.phrase)
    if about is None or about.rule is not None or not about.question or ((about.entity if isinstance(about, Attribute) else about.of) is None) != (point.of is None):
        return None
    if isinstance(about, Listed):
        sort = "names" if about.sort == "contains" else about.sort
        return Field(key, point, about, sort, {name: name for name in instances})
    if about.kind == "bool":
        return Field(key, point, about, "bool", {"yes": saying("yes"), "no": saying("no")})
    if about.kind == "text":
        choices = words.choices(saying.language, about.phrase)
        return Field(key, point, about, "choice" if choices else "text", choices)
    return Field(key, point, about, "number" if about.kind == "currency" else about.kind)


def typed(form: Mapping[str, str], key: str, sort: str) -> Piece:
    """What was typed into the controls of one value."""

    def take(name: str) -> str:
        return form.get(name, "")[:MOST_TYPED].strip()

    if sort in ("bool", "choice"):
        text = take(key)
        return Piece(is_cant=True) if text == "~" else Piece(text)
    if sort == "date":
        return Piece("", take(f"{key}-d"), take(f"{key}-m"), take(f"{key}-y"), bool(take(f"{key}-n")))
    return Piece(take(key), is_cant=bool(take(f"{key}-n")))


def take(found: Field, form: Mapping[str, str], chosen: list[str]) -> None:
    """Puts what was sent into a field."""
    key = found.key
    if found.is_list:
        found.is_none = bool(form.get(f"{key}-none"))
        if found.sort == "names":
            count = 0
            while f"{key}-{count}" in form and count < MOST_NAMES:
                found.names.append(form[f"{key}-{count}"][:MOST_TYPED].strip())
                count += 1
            found.is_too_many = f"{key}-{count}" in form
        else:
            found.is_too_many = len(chosen) > MOST_NAMES
            found.names = [name for name in chosen[:MOST_NAMES] if name != "~"]
            found.is_none = found.is_none or "~" in chosen
        return
    found.value = typed(form, key, found.sort)
    for place in range(1, MOST_CHANGES + 1):
        if f"{key}-c{place}-f-d" not in form:
            break
        found.changes.append(Change(typed(form, f"{key}-c{place}-f", "date"), typed(form, f"{key}-c{place}", found.sort)))
    found.is_too_many = f"{key}-c{MOST_CHANGES + 1}-f-d" in form
