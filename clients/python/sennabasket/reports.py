"""A printed report as data: its lines, and which of them each one leads on to."""
from __future__ import annotations

import re
from dataclasses import dataclass
from datetime import date

from . import texts
from .errors import Fault
from .rulebase import Point, Rulebase
from .values import Value, read

DAY = r"\d{4}-\d\d-\d\d"
POINT = rf"(?:[^\"]|{texts.QUOTED})*?"
VALUE = rf"(?:{texts.QUOTED}|[^\s,\"]+)"


@dataclass(frozen=True)
class Stated:
    """A line on a point: its value from one day to another, and why: `rule`, `answer` or `unanswered`."""

    number: int
    point: Point
    first: date
    last: date
    value: Value
    origin: str
    file: str = ""
    line: int = 0


@dataclass(frozen=True)
class Gone:
    """A list that was gone through; `names` is None where it is unknown."""

    number: int
    point: Point
    names: tuple[str, ...] | None


@dataclass(frozen=True)
class Report:
    text: str
    point: Point
    at: date
    stated: tuple[Stated, ...]
    lists: tuple[Gone, ...]
    members: tuple[tuple[Point, str], ...]

    @property
    def asked(self) -> Stated:
        """The line on the point that was asked for."""
        return next(s for s in self.stated if s.point == self.point and s.first <= self.at <= s.last)

    @property
    def unanswered(self) -> list[Point]:
        """What nobody has said, each once: points and lists."""
        found = [s.point for s in self.stated if s.origin == "unanswered"] + [g.point for g in self.lists if g.names is None]
        return list(dict.fromkeys(found))

    @classmethod
    def read(cls, text: str) -> Report:
        lines = text.split("\n")
        head = re.fullmatch(rf"report ({POINT}) at ({DAY})", lines[0])
        if not head or lines[-2:] != ["end", ""]:
            raise Fault(f"this is no report: {text[:200]}")
        stated: list[Stated] = []
        lists: list[Gone] = []
        members: list[tuple[Point, str]] = []
        for line in lines[1:-2]:
            number, _, rest = line.partition(" ")
            said = re.fullmatch(rf"({POINT}), ({DAY}) to ({DAY}): ({VALUE}), (?:(answer|unanswered)|(rule) (.*):(\d+))", rest)
            held = re.fullmatch(rf"list ({POINT}): (unknown|none|{texts.QUOTED}(?:, {texts.QUOTED})*)", rest)
            lies = re.fullmatch(rf"member ({POINT}): ({texts.QUOTED})", rest)
            if said:
                days = date.fromisoformat(said[2]), date.fromisoformat(said[3])
                stated.append(
                    Stated(int(number), Point.read(said[1]), *days, read(said[4]), said[5] or said[6], said[7] or "", int(said[8] or 0))
                )
            elif held:
                lists.append(Gone(int(number), Point.read(held[1]), None if held[2] == "unknown" else tuple(texts.names(held[2]))))
            elif lies:
                members.append((Point.read(lies[1]), texts.unquoted(lies[2])))
            else:
                raise Fault(f"this is no line of a report: {line[:200]}")
        return cls(text, Point.read(head[1]), date.fromisoformat(head[2]), tuple(stated), tuple(lists), tuple(members))

    def below(self, stated: Stated, base: Rulebase) -> list[Stated | Gone]:
        """The listed lines on what a conclusion's rule mentions, in the rule's order.

        The report says by itself no more than which lines there are. Those of an instance are taken for its own conclusions and for
        conclusions of what it lies in.
        """
        about = base.attributes.get(stated.point.phrase)
        if stated.origin != "rule" or about is None or about.rule is None:
            return []
        wanted = self.reached(about.rule.attributes, about.rule.lists, base)
        found: list[Stated | Gone] = []
        others: list[Stated | Gone] = [*self.stated, *self.lists]
        for phrase in wanted:
            for other in others:
                if other.number > stated.number and other.point.phrase == phrase and self.is_near(other.point, stated.point, base):
                    found.append(other)
        return found

    @staticmethod
    def reached(attributes: tuple[str, ...], lists: tuple[str, ...], base: Rulebase) -> list[str]:
        """What is mentioned, with what the conditions of concluded lists mention."""
        found = list(attributes)
        for name in lists:
            of = base.lists[name]
            found.append(name)
            if of.rule and of.sort == "concluded":
                found += Report.reached(of.rule.attributes, of.rule.lists, base)
        return list(dict.fromkeys(found))

    @staticmethod
    def is_near(point: Point, concluded: Point, base: Rulebase) -> bool:
        """Whether a line may be looked at from a conclusion: of the case itself, of the same instance, or of another entity."""
        if point.of is None or concluded.of is None or point.of == concluded.of:
            return True
        one, two = base.attributes.get(point.phrase), base.attributes.get(concluded.phrase)
        return one is None or two is None or one.entity != two.entity
