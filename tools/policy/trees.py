"""Lines of rules as trees: literals, attributes, groups, operations, functions over lists and over time."""
from __future__ import annotations

import dataclasses
import re
from decimal import Decimal

from .declared import Declared
from .programs import Fault
from .texts import DATE, unquoted

TOKEN = re.compile(rf'\s*({DATE}|\d+(?:\.\d{{1,4}})?|[^\W\d][\w\'’-]*|"(?:[^"]|"")*"|<=|>=|<>|[()\[\],:;/+\-*=<>])')
COMPARISONS = ("=", "<>", "<", "<=", ">", ">=")
OVER = ("ForAll", "Exists", "For", "InstanceCount", "InstanceCountIf", "InstanceSum", "InstanceSumIf", "InstanceMaximum", "InstanceMinimum")
WINDOWS = (
    "ValueAt", "IntervalAlways", "IntervalSometimes", "IntervalDailySum", "IntervalMaximum", "IntervalMinimum",
    "IntervalConsecutiveDays", "TemporalBefore", "TemporalOnOrAfter", "TemporalYearsSince",
)  # fmt: skip
ROLLING = ("TemporalAlwaysDays", "TemporalSometimesDays")
PLAIN = (
    "Round", "Minimum", "Maximum", "AddDays", "AddMonths", "AddYears", "DaysBetween", "YearsBetween", "YearOf", "MonthOf",
    "DayOf", "Concatenate", "Certain", "CurrentlyKnown",
)  # fmt: skip
FUNCTIONS = OVER + WINDOWS + ROLLING + PLAIN
RESERVED = set("verb entity global goal screen include table members all both any either for not true false uncertain and or if otherwise".split())


@dataclasses.dataclass(eq=False)
class Tree:
    """A part of a rule. Sorts: value, attribute, all, any, not, operation, over, window, rolling, table, row."""

    sort: str
    name: str = ""  # the phrase, the operation, the function or the list
    parts: list[Tree] = dataclasses.field(default_factory=list)
    value: object = None
    file: str = ""
    line: int = 0
    text: str = ""
    is_written: bool = False  # an `all` or `any` that stands in the rule file
    relation: str = ""

    def walk(self) -> list[Tree]:
        """This part and all below it."""
        found = [self]
        for part in self.parts:
            found += part.walk()
        return found


@dataclasses.dataclass
class Members:
    """A list that is concluded: the list it is taken from, and the condition."""

    base: str
    condition: Tree


class Reader:
    """Reads the tokens of one line."""

    def __init__(self, declared: Declared, members: dict[str, Members], file: str, line: int, text: str) -> None:
        self.declared, self.members, self.file, self.line = declared, members, file, line
        self.tokens: list[str] = []
        self.spans: list[tuple[int, int]] = []
        at = 0
        while text[at:].strip():
            found = TOKEN.match(text, at)
            if not found:
                raise self.fault(text)
            self.tokens.append(found[1])
            self.spans.append(found.span(1))
            at = found.end()
        self.text, self.at = text, 0

    def fault(self, what: str) -> Fault:
        return Fault(f"{self.file}:{self.line}: can't read {what.strip()}")

    def peek(self) -> str:
        return self.tokens[self.at] if self.at < len(self.tokens) else ""

    def take(self, wanted: str = "") -> str:
        token = self.peek()
        if not token or (wanted and token != wanted):
            raise self.fault(self.text)
        self.at += 1
        return token

    def tree(self, sort: str, name: str = "", parts: list[Tree] | None = None, **more: object) -> Tree:
        return Tree(sort, name, parts or [], file=self.file, line=self.line, **more)  # type: ignore[arg-type]

    def whole(self) -> Tree:
        found = self.side()
        if self.peek():
            raise self.fault(self.text)
        return found

    def side(self) -> Tree:
        """LINE: an operand, or two with a comparison between them."""
        start, found = self.at, self.sum()
        if self.peek() in COMPARISONS:
            name = self.take()
            found = self.tree("operation", name, [found, self.sum()])
        found.text = self.text[self.spans[start][0] : self.spans[self.at - 1][1]]
        return found

    def sum(self) -> Tree:
        found = self.product()
        while self.peek() in ("+", "-"):
            name = self.take()
            found = self.tree("operation", name, [found, self.product()])
        return found

    def product(self) -> Tree:
        found = self.factor()
        while self.peek() in ("*", "/"):
            name = self.take()
            found = self.tree("operation", name, [found, self.factor()])
        return found

    def factor(self) -> Tree:
        token = self.take()
        if re.fullmatch(DATE, token):
            return self.tree("value", value=("date", token))
        if token[0].isdigit():
            return self.tree("value", value=Decimal(token))
        if token[0] == '"':
            return self.tree("value", value=("text", unquoted(token)))
        if token in ("true", "false"):
            return self.tree("value", value=token == "true")
        if token == "uncertain":
            return self.tree("value", value="uncertain")
        if token == "-":
            inner = self.factor()
            if inner.sort == "value" and isinstance(inner.value, Decimal):
                inner.value = -inner.value
                return inner
            return self.tree("operation", "negative", [inner])
        if token == "not":
            return self.tree("not", parts=[self.factor()])
        if token == "(":
            return self.brackets()
        if token in FUNCTIONS and self.peek() == "(":
            return self.call(token)
        self.at -= 1
        return self.attribute()

    def brackets(self) -> Tree:
        parts = [self.side()]
        joiner = self.peek()
        while self.peek() in ("and", "or") and self.peek() == joiner:
            self.take()
            parts.append(self.side())
        self.take(")")
        if len(parts) == 1:
            return parts[0]
        return self.tree("all" if joiner == "and" else "any", parts=parts, is_written=True)

    def attribute(self) -> Tree:
        words = self.longest(self.forms())
        if not words:
            raise self.fault(self.text)
        phrase, is_denied = self.forms()[words]
        found = self.tree("attribute", phrase)
        return self.tree("not", parts=[found]) if is_denied else found

    def forms(self) -> dict[str, tuple[str, bool]]:
        if not hasattr(self.declared, "forms"):
            found = {phrase: (phrase, False) for phrase in self.declared.attributes}
            found.update({a.denied: (a.phrase, True) for a in self.declared.attributes.values() if a.denied})
            self.declared.forms = found  # type: ignore[attr-defined]
        return self.declared.forms  # type: ignore[attr-defined,no-any-return]

    def longest(self, phrases: dict[str, object] | dict[str, tuple[str, bool]]) -> str:
        """The longest phrase that stands here; it is taken."""
        words, best, end = "", "", self.at
        for place in range(self.at, len(self.tokens)):
            words = f"{words} {self.tokens[place]}".strip()
            if words in phrases:
                best, end = words, place + 1
        self.at = end
        return best

    def relation(self) -> str:
        names: dict[str, object] = {**self.declared.relations, **self.members}
        found = self.longest(names)
        if not found:
            raise self.fault(self.text)
        return found

    def call(self, name: str) -> Tree:
        self.take("(")
        relation = ""
        if name in OVER:
            relation = self.relation()
        parts: list[Tree] = []
        while self.peek() != ")":
            if parts or relation:
                self.take(",")
            parts.append(self.side())
        self.take(")")
        if name in OVER:
            return over(self, name, relation, parts)
        if name in ROLLING:
            return self.tree("rolling", name, parts)
        return self.tree("window" if name in WINDOWS else "operation", name, parts)


def over(reader: Reader, name: str, relation: str, parts: list[Tree]) -> Tree:
    """A function over a list; over a concluded list its condition is put in."""
    if relation not in reader.members:
        return reader.tree("over", name, parts, relation=relation)
    members = reader.members[relation]
    test = members.condition
    both = lambda inner: reader.tree("all", parts=[test, inner])
    name, parts = {
        "ForAll": lambda: ("ForAll", [reader.tree("any", parts=[reader.tree("not", parts=[test]), *parts])]),
        "Exists": lambda: ("Exists", [both(*parts)]),
        "InstanceCount": lambda: ("InstanceCountIf", [test]),
        "InstanceCountIf": lambda: ("InstanceCountIf", [both(*parts)]),
        "InstanceSum": lambda: ("InstanceSumIf", [*parts, test]),
        "InstanceSumIf": lambda: ("InstanceSumIf", [parts[0], both(*parts[1:])]),
    }[name]()
    return reader.tree("over", name, parts, relation=members.base)
