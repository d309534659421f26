"""`rules review`: rulebases with findings and without, letter by letter; the most findings; what it says of the examples, and the
same as JSON.

Rows are told letter by letter. Comparisons, what goals look at, and notes are worked out here too, from what `rules describe` and
`rules print` say, and compared with all that is printed, in its order.

The program is the environment's RULES, or the built one of this repository.
"""
from __future__ import annotations

import json
import operator
import os
import re
import subprocess
import tempfile
import unittest
from collections.abc import Callable, Iterable
from decimal import Decimal
from pathlib import Path
from typing import Any

from tools.tests.base import EXAMPLES, TOP

try:
    import jsonschema
except ImportError:
    jsonschema = None  # type: ignore[assignment]

RULES = os.environ.get("RULES", str(TOP / "crates" / "rules" / "out" / "rules"))

HEAD = """verb is / is not / is /
global
  bool the claimant [is] an adult
  bool the claimant [is] a veteran
  number the income
  number the fee
goal the fee
the fee =
"""
# Rows behind HEAD, and what is found of them: the row, the earlier one, and what that has.
ALWAYS, ANOTHER, SAME = "is always true", "has the same condition and another value", "has the same condition"
ROWS: dict[str, tuple[str, list[tuple[int, int, str]]]] = {
    "all rows are reached": (
        "  1 if\n    the income < 10\n  2 if\n    the income < 20\n  3 if\n    the claimant is an adult\n  4 otherwise\n",
        [],
    ),
    "the same condition": (
        "  1 if\n    the income < 10\n  2 if\n    the claimant is an adult\n  3 if\n    the income < 10\n  4 otherwise\n",
        [(3, 1, ANOTHER)],
    ),
    "the same condition and the same value": (
        "  1 if\n    the income < 10\n  2 if\n    the claimant is an adult\n  1.0 if\n    the income < 10\n  4 otherwise\n",
        [(3, 1, SAME)],
    ),
    "the same value isn't the same condition": (
        "  1 if\n    the income < 10\n  1 if\n    the income < 11\n  1 otherwise\n",
        [],
    ),
    "a row that is always true": (
        "  1 if\n    the income < 10\n  2 if\n    true\n  3 if\n    the income < 20\n  4 otherwise\n",
        [(3, 2, ALWAYS)],
    ),
    "the first of several rows is named": (
        "  1 if\n    the income < 10\n  2 if\n    the income < 10\n  3 if\n    the income < 10\n  4 otherwise\n",
        [(2, 1, ANOTHER), (3, 1, ANOTHER)],
    ),
    "twice always true": (
        "  1 if\n    true\n  2 if\n    true\n  4 otherwise\n",
        [(2, 1, ALWAYS)],
    ),
    "never true isn't always true": (
        "  1 if\n    false\n  2 if\n    the income < 20\n  4 otherwise\n",
        [],
    ),
    "the same group, and one in another order": (
        "  1 if\n    the claimant is an adult and\n    the claimant is a veteran\n"
        "  2 if\n    the claimant is a veteran and\n    the claimant is an adult\n"
        "  3 if\n    the claimant is an adult and\n    the claimant is a veteran\n  4 otherwise\n",
        [(3, 1, ANOTHER)],
    ),
    "blanks, brackets and zeros make no difference": (
        "  1 if\n    the income < 10\n  2 if\n    ( the income<10.00 )\n  4 otherwise\n",
        [(2, 1, ANOTHER)],
    ),
    "all or any of the same": (
        "  1 if\n    the claimant is an adult and\n    the claimant is a veteran\n"
        "  2 if\n    the claimant is an adult or\n    the claimant is a veteran\n  4 otherwise\n",
        [],
    ),
}

# Attributes behind a verb, goals and rules; and what is found of them: the line, and the words.
ATTRIBUTES: dict[str, tuple[str, list[tuple[int, str]]]] = {
    "a goal looks at all": (
        "global\n  number the income\n  number the share\n  number the fee\ngoal the fee\nthe fee = the share + 1\nthe share = the income / 2\n",
        [],
    ),
    "an attribute that no rule mentions": (
        "global\n  number the income\n  number the age\n  number the fee\ngoal the fee\nthe fee = the income + 1\n",
        [(0, "no goal looks at 'the age'")],
    ),
    "what only an unused rule mentions": (
        "global\n  number the income\n  number the age\n  number the share\n  number the fee\ngoal the fee\n"
        "the fee = the income + 1\nthe share = the age + the income\n",
        [(0, "no goal looks at 'the age'"), (9, "no goal looks at 'the share'")],
    ),
    "a goal that another goal looks at": (
        "global\n  number the income\n  number the share\n  number the fee\ngoal the fee\ngoal the share\nthe fee = the share + 1\nthe share = the income + 1\n",
        [],
    ),
    "without goals nothing is said": (
        "global\n  number the income\n  number the fee\nthe fee = the income + 1\n",
        [],
    ),
    "a goal that is asked": (
        "global\n  number the income\n  number the fee\ngoal the income\n",
        [(0, "no goal looks at 'the fee'")],
    ),
    "a goal of literals": (
        "global\n  number the fee\ngoal the fee\nthe fee = 1 + 2\n",
        [(5, "no answer changes 'the fee'")],
    ),
    "a goal of literals over two rules": (
        "global\n  number the share\n  number the fee\ngoal the fee\nthe fee = the share * 2\nthe share = 7\n",
        [(6, "no answer changes 'the fee'")],
    ),
    "a goal of which one rule looks at an answer": (
        "global\n  number the share\n  number the rate\n  number the fee\ngoal the fee\nthe fee = the share * the rate\nthe share = 7\n",
        [],
    ),
    "a goal that counts a list": (
        "global\n  number the fee\nentity the person\n  in global: the people\n  number the person's age\ngoal the fee\nthe fee = InstanceCount(the people)\n",
        [(0, "no goal looks at 'the person's age'")],
    ),
}
# Attributes that are answered: the least and the greatest number, and the decimals; None are those of all numbers.
ANSWERED: dict[str, tuple[str | None, str | None, int]] = {
    "the age": ("0", "120", 0),
    "the share": ("0.5", "2", 1),
    "the count": ("7", "7", 0),
    "the income": ("0", None, 2),
    "the debt": (None, "1000", 4),
    "the child's age": ("0", "18", 0),
}
# Concluded ones have no bounds: a currency has two decimals, and a number may be any.
CONCLUDED: dict[str, int | None] = {"the tax": 2, "the ratio": None, "the fee": None}
NUMBERS = """global
  number the age: from 0, to 120, decimals 0
  number the share: from 0.5, to 2, decimals 1
  number the count: from 7, to 7, decimals 0
  currency the income: from 0
  number the debt: to 1000
  currency the tax
  number the ratio: from 0, to 1
  number the fee
entity the child
  in global: the children
  number the child's age: from 0, to 18, decimals 0
goal the fee
the tax = the income * 0.1
the ratio = the income / 3
the fee =
"""
NUMBERS_LINE = NUMBERS.count("\n")
SIGNS: dict[str, Callable[[Decimal, Decimal], bool]] = {
    "=": operator.eq,
    "<>": operator.ne,
    "<": operator.lt,
    "<=": operator.le,
    ">": operator.gt,
    ">=": operator.ge,
}
GREATEST = Decimal(10) ** 13
UNIT = Decimal("0.0001")
Range = tuple[Decimal, Decimal]
# Of attributes: what lies between their bounds, and how many decimals they can have.
Sides = dict[str, tuple[Range | None, int | None]]


def range_of(least: object, most: object) -> Range:
    return (-GREATEST if least is None else Decimal(str(least)), GREATEST if most is None else Decimal(str(most)))


SIDES: Sides = {phrase: (range_of(least, most), decimals) for phrase, (least, most, decimals) in ANSWERED.items()}
SIDES |= {phrase: (None, decimals) for phrase, decimals in CONCLUDED.items()}


def between(phrase: str) -> str:
    return f"note: '{phrase}' is rounded to two decimals, and another currency is concluded from it"


def uncertain(phrase: str) -> str:
    return f"note: in the rule for '{phrase}' the value is uncertain where no row holds"


def differ_in_case(one: str, other: str) -> bool:
    return one.encode().lower() == other.encode().lower()


def alike(one: str, other: str) -> str:
    how = "only in capital letters" if differ_in_case(one, other) else "by one letter"
    return f"note: '{one}' and '{other}' differ {how}"


# The front of a rulebase of currencies.
MONEY = "global\n  currency the income\n  currency the share\n  currency the fee\n  number the part\ngoal the fee\n"
# Rulebases, and what is noted of them.
NOTES: dict[str, tuple[str, list[str]]] = {
    "one letter more": ("global\n  number the fee\n  number the fees\ngoal the fee\nthe fee = the fees\n", [f":0: {alike('the fee', 'the fees')}"]),
    "another letter": ("global\n  number the fee\n  number the fez\ngoal the fee\nthe fee = the fez\n", [f":0: {alike('the fee', 'the fez')}"]),
    "two letters": ("global\n  number the fee\n  number the foes\ngoal the fee\nthe fee = the foes\n", []),
    "two letters that changed places": ("global\n  number the fee\n  number the efe\ngoal the fee\nthe fee = the efe\n", []),
    "a capital letter": ("global\n  number the fee\n  number the Fee\ngoal the fee\nthe fee = the Fee\n", [f":0: {alike('the fee', 'the Fee')}"]),
    "capital letters": ("global\n  number the FEE\n  number the fee\ngoal the fee\nthe fee = the FEE\n", [f":0: {alike('the FEE', 'the fee')}"]),
    "capital letters, and another letter": ("global\n  number the fee\n  number the FEZ\ngoal the fee\nthe fee = the FEZ\n", []),
    "another capital letter": (
        "global\n  number the \u00e9\n  number the \u00c9\ngoal the \u00e9\nthe \u00e9 = the \u00c9\n",
        [":0: " + alike("the \u00e9", "the \u00c9")],
    ),
    "other capital letters": (
        "global\n  number the \u00e9\u00e9\n  number the \u00c9\u00c9\ngoal the \u00e9\u00e9\nthe \u00e9\u00e9 = the \u00c9\u00c9\n",
        [],
    ),
    "capital letters and numbers": ("global\n  number the fee 1\n  number the Fee 1\ngoal the fee 1\nthe fee 1 = the Fee 1\n", [f":0: {alike('the fee 1', 'the Fee 1')}"]),
    "numbers": ("global\n  number the fee 1\n  number the fee 2\ngoal the fee 1\nthe fee 1 = the fee 2\n", []),
    "three pairs": (
        "global\n  number the fee\n  number the fees\n  number the feet\ngoal the fee\nthe fee = the fees + the feet\n",
        [f":0: {alike(*pair)}" for pair in (("the fee", "the fees"), ("the fee", "the feet"), ("the fees", "the feet"))],
    ),
    "lists in capital letters": (
        "global\n  number the fee\nentity the child\n  in global: the children\n  number the age\nentity the adult\n  in global: The Children\n"
        "goal the fee\nthe fee = InstanceCount(the children) + InstanceCount(The Children)\n",
        [f":0: {alike('the children', 'The Children')}"],
    ),
    "lists": (
        "global\n  number the fee\nentity the child\n  in global: the children\n  number the age\nentity the adult\n  in global: the childrens\n"
        "goal the fee\nthe fee = InstanceCount(the children) + InstanceCount(the childrens)\n",
        [f":0: {alike('the children', 'the childrens')}"],
    ),
    "a quotient, and a sum with it": (MONEY + "the share = the income / 3\nthe fee = the share + 1\n", [f":7: {between('the share')}"]),
    "a product in a row": (
        MONEY + "the share =\n  1 if\n    0.3 * the income < 2\n  2 otherwise\nthe fee = the share + 1\n",
        [f":7: {between('the share')}"],
    ),
    "a sum": (MONEY + "the share = the income + 3\nthe fee = the share * 2\n", []),
    "a goal": (MONEY + "goal the share\nthe share = the income / 3\nthe fee = the share + 1\n", []),
    "a number": (MONEY + "the part = the income / 3\nthe fee = the part + the share\n", []),
    "only a number mentions it": (MONEY + "the share = the income / 3\nthe part = the share\nthe fee = the part + 1\n", []),
    "a last value that is uncertain": (
        MONEY + "the fee =\n  1 if\n    the income < 2\n  uncertain otherwise\n",
        [f":7: {uncertain('the fee')}"],
    ),
    "a row that is uncertain": (MONEY + "the fee =\n  uncertain if\n    the income < 2\n  2 otherwise\n", []),
    "phrases, currencies, last values": (
        "global\n  currency the incomes\n  currency the income\n  currency the fee\ngoal the fee\n"
        "the fee =\n  the income if\n    the income < 2\n  uncertain otherwise\nthe income = the incomes / 7\n",
        [
            f":0: {alike('the incomes', 'the income')}",
            f":10: {between('the income')}",
            f":6: {uncertain('the fee')}",
        ],
    ),
}  # fmt: skip


def text_of(file: str, line: int, phrase: str, row: int, earlier: int, reason: str) -> str:
    return f"{file}:{line}: warning: in the rule for '{phrase}' row {row} is never reached: row {earlier} {reason}"


def left(one: bytes, other: bytes) -> tuple[bytes, bytes]:
    same = len(os.path.commonprefix([one, other]))
    return one[same:], other[same:]


def differ_by_one(one: str, other: str) -> bool:
    front = left(one.encode(), other.encode())
    both = left(front[0][::-1], front[1][::-1])
    return not re.search("[0-9]", one + other) and max(map(len, both)) <= 1


def are_close(one: str, other: str) -> bool:
    return differ_in_case(one, other) or differ_by_one(one, other)


def blocks(printed: str) -> dict[str, list[str]]:
    """The lines of each rule of a printed rulebase, by what it concludes, in the order of the rules; and other lines."""
    found: dict[str, list[str]] = {}
    lines: list[str] = []
    for line in printed.splitlines():
        if line[:1] != " ":
            lines = []
            found[line.partition(" =")[0].removesuffix(" if")] = lines
        lines.append(re.sub('"(?:[^"]|"")*"', '""', line))
    return found


def ruled_in(described: dict[str, Any], printed: str) -> list[tuple[dict[str, Any], list[str]]]:
    """The attributes that have a rule, in the order of the rules, each with the lines of its rule."""
    attributes = {each["phrase"]: each for each in described["attributes"] if each["rule"]}
    return [(attributes[phrase], lines) for phrase, lines in blocks(printed).items() if phrase in attributes]


def place_of(described: dict[str, Any], attribute: dict[str, Any]) -> str:
    rule = attribute["rule"]
    return f"{rule['file']}:{rule['line']}" if rule else f"{described['rulebase']}:0"


# ---- comparisons


def plain(number: Decimal) -> str:
    text = f"{number:f}"
    return text.rstrip("0").rstrip(".") if "." in text else text


def values_near(mine: Range, others: Range) -> list[Decimal]:
    """Values within bounds, at them and next to others: if a comparison with the others can be true, it is of one of these."""
    near = [*mine, *(edge + step for edge in others for step in (-UNIT, Decimal(0), UNIT))]
    return [value for value in near if mine[0] <= value <= mine[1]]


def bounds_of(side: str, sides: Sides) -> Range | None:
    return sides[side][0] if side in sides else range_of(side, side)


def named(side: str, sides: Sides) -> str:
    return f"'{side}'" if side in sides else plain(Decimal(side))


def bound_text(side: str, mine: Range, others: Range) -> str:
    if mine[0] == mine[1]:
        return f"'{side}' is {plain(mine[0])}"
    if all(value >= other for value in mine for other in others):
        return f"'{side}' is at least {plain(mine[0])}"
    return f"'{side}' is at most {plain(mine[1])}"


def by_bounds(left: str, sign: str, right: str, sides: Sides) -> str | None:
    mine, others = bounds_of(left, sides), bounds_of(right, sides)
    if mine is None or others is None:
        return None
    results = {SIGNS[sign](a, b) for a in values_near(mine, others) for b in values_near(others, mine)}
    if len(results) == 2:
        return None
    told = [bound_text(left, mine, others)] if left in sides else []
    told += [bound_text(right, others, mine)] if right in sides else []
    word = "false" if results == {True} else "true"
    return f"is never {word}" + "".join([": ", ", and "][place] + text for place, text in enumerate(told))


def by_decimals(left: str, right: str, sides: Sides) -> str | None:
    for side, other in ((left, right), (right, left)):
        decimals = sides[side][1] if side in sides else None
        if decimals is None or other in sides:
            continue
        if Decimal(other) != round(Decimal(other), decimals):
            few = {0: "is a whole number", 1: "has at most 1 decimal"}.get(decimals, f"has at most {decimals} decimals")
            return f"is with a number that can't be: '{side}' {few}"
    return None


def compared_texts(place: str, phrase: str, comparisons: Iterable[tuple[str, str, str]], sides: Sides) -> list[str]:
    """What is said of comparisons in the rule for a phrase."""
    found = []
    for left, sign, right in comparisons:
        said = by_bounds(left, sign, right, sides) or by_decimals(left, right, sides)
        if said:
            front = f"{place}: warning: in the rule for '{phrase}' the comparison"
            found.append(f"{front} {named(left, sides)} {sign} {named(right, sides)} {said}")
    return found


def comparisons_in(lines: list[str], sides: Sides) -> list[tuple[str, str, str]]:
    """The comparisons of a printed rule whose sides are attributes and numbers. A row's condition comes before its value."""
    side = "|".join([re.escape(phrase) for phrase in sorted(sides, key=len, reverse=True)] + [r"-?\d+(?:\.\d+)?"])
    comparison = re.compile(rf"(?:^|[(]|, )({side}) (<>|<=|>=|=|<|>) ({side})(?=$|[),])")
    found: list[tuple[str, str, str]] = []
    value: list[tuple[str, str, str]] = []
    for number, line in enumerate(lines):
        text = re.sub(" (and|or|if|otherwise)$", "", line.strip()) if number else line.partition(" = ")[2]
        here: list[tuple[str, str, str]] = comparison.findall(text)
        if number and line.endswith((" if", " otherwise")):
            found += value
            value = here
        else:
            found += here
    return found + value


def sides_of(described: dict[str, Any]) -> Sides:
    sides: Sides = {}
    for each in described["attributes"]:
        is_number = each["kind"] in ("number", "currency")
        bounds = range_of(each["least"], each["most"]) if is_number and not each["rule"] else None
        concluded = 2 if each["kind"] == "currency" else None
        sides[each["phrase"]] = (bounds, concluded if each["rule"] else each["decimals"])
    return sides


def compared_in(described: dict[str, Any], printed: str) -> list[str]:
    """What is said of all comparisons, rule by rule."""
    sides = sides_of(described)
    found = []
    for each, lines in ruled_in(described, printed):
        found += compared_texts(place_of(described, each), each["phrase"], comparisons_in(lines, sides), sides)
    return found


# ---- what goals look at


def seen_by(described: dict[str, Any], goal: str) -> set[str]:
    """What a goal looks at, with itself: whatever the rules of what it looks at mention."""
    rules = {attribute["phrase"]: attribute["rule"] for attribute in described["attributes"]}
    seen = {goal}
    left = [goal]
    while left:
        rule = rules[left.pop()]
        further = set(rule["mentions"]["attributes"]) - seen if rule else set()
        seen |= further
        left += further
    return seen


def looked_at(described: dict[str, Any]) -> list[str]:
    """What is said of attributes that no goal looks at, and of goals that no answer changes."""
    attributes = {attribute["phrase"]: attribute for attribute in described["attributes"]}
    seen = {goal: seen_by(described, goal) for goal in described["goals"]}
    rules = {goal: [attributes[phrase]["rule"] for phrase in seen[goal]] for goal in seen}
    unused = [phrase for phrase in attributes if seen and not any(phrase in each for each in seen.values())]
    settled = [goal for goal in described["goals"] if all(rule and not rule["mentions"]["lists"] for rule in rules[goal])]
    found = [f"{place_of(described, attributes[phrase])}: warning: no goal looks at '{phrase}'" for phrase in unused]
    return found + [f"{place_of(described, attributes[goal])}: warning: no answer changes '{goal}'" for goal in settled]


# ---- notes


def notes(described: dict[str, Any], printed: str) -> list[str]:
    """What is noted: phrases, then currencies, then last values."""
    found = []
    for things in (described["attributes"], described["lists"]):
        phrases = [each["phrase"] for each in things] if len(things) <= 1000 else []
        pairs = [(phrases[k], phrases[n]) for n in range(len(phrases)) for k in range(n) if are_close(phrases[k], phrases[n])]
        found += [f"{described['rulebase']}:0: {alike(*pair)}" for pair in pairs]
    ruled = ruled_in(described, printed)
    used = {phrase for each, _ in ruled if each["kind"] == "currency" for phrase in each["rule"]["mentions"]["attributes"]}
    for each, lines in ruled:
        is_between = each["kind"] == "currency" and each["phrase"] in used and each["phrase"] not in described["goals"]
        if is_between and any(re.search(" [*/] ", line) for line in lines):
            found.append(f"{place_of(described, each)}: {between(each['phrase'])}")
    for each, lines in ruled:
        if lines[-1] == "  uncertain otherwise":
            found.append(f"{place_of(described, each)}: {uncertain(each['phrase'])}")
    return found


def text_with(lines: list[str]) -> str:
    """The lines that are printed: a hundred at most."""
    return "".join(f"{line}\n" for line in lines[:100])


def ran(*words: str, folder: object) -> tuple[str, int]:
    done = subprocess.run([RULES, *words], cwd=str(folder), capture_output=True, timeout=300)
    return done.stdout.decode(), done.returncode


@unittest.skipUnless(os.access(RULES, os.X_OK), "RULES names no program")
class Review(unittest.TestCase):
    maxDiff = None

    def setUp(self) -> None:
        room = tempfile.TemporaryDirectory(prefix="review-")
        self.addCleanup(room.cleanup)
        self.folder = Path(room.name)

    def put(self, text: str, name: str = "f.txt") -> None:
        (self.folder / name).write_text(text)

    def review(self, name: str = "f.txt") -> tuple[str, int]:
        return ran("review", name, folder=self.folder)

    def told(self, name: str = "f.txt", folder: Path | None = None) -> tuple[dict[str, Any], str]:
        """What `describe` and `print` say."""
        described, printed = (ran(mode, name, folder=folder or self.folder) for mode in ("describe", "print"))
        self.assertEqual((described[1], printed[1]), (0, 0))
        document: dict[str, Any] = json.loads(described[0])
        return document, printed[0]

    def wanted(self, rows: list[str], name: str = "f.txt", folder: Path | None = None) -> tuple[str, int]:
        """Rows, and behind them all that is worked out."""
        described, printed = self.told(name, folder)
        return text_with(rows + compared_in(described, printed) + looked_at(described) + notes(described, printed)), 0

    def as_document(self, name: str, folder: Path) -> dict[str, Any]:
        text, status = ran("review", "--json", name, folder=folder)
        self.assertEqual((status, text[-2:]), (0, "}\n"))
        document: dict[str, Any] = json.loads(text)
        self.assertEqual(text, json.dumps(document, sort_keys=True, separators=(",", ":"), ensure_ascii=False) + "\n")
        return document

    def test_rows(self) -> None:
        for what, (rows, found) in ROWS.items():
            with self.subTest(what):
                self.put(HEAD + rows)
                self.assertEqual(self.review(), self.wanted([text_of("f.txt", 8, "the fee", *each) for each in found]))

    def test_rows_and_what_else_is_found(self) -> None:
        """All of a rulebase, letter by letter."""
        self.put(HEAD + ROWS["twice always true"][0])
        row = text_of("f.txt", 8, "the fee", 2, 1, ALWAYS)
        unused = [f"f.txt:0: warning: no goal looks at '{phrase}'" for phrase in ("the claimant is an adult", "the claimant is a veteran", "the income")]
        self.assertEqual(self.review(), (text_with([row, *unused, "f.txt:8: warning: no answer changes 'the fee'"]), 0))

    def test_rules_without_rows(self) -> None:
        self.put(HEAD.removesuffix("the fee =\n") + "the fee = the income + 1\n")
        self.assertEqual(self.review(), self.wanted([]))

    def test_attributes(self) -> None:
        for what, (text, found) in ATTRIBUTES.items():
            with self.subTest(what):
                self.put("verb is / is not / is /\n" + text)
                wanted = [f"f.txt:{line}: warning: {words}" for line, words in found]
                self.assertEqual(self.review(), (text_with(wanted), 0))
                self.assertEqual(looked_at(self.told()[0]), wanted)

    def test_notes(self) -> None:
        for what, (text, found) in NOTES.items():
            with self.subTest(what):
                self.put(text)
                described, printed = self.told()
                wanted = [f"f.txt{each}" for each in found]
                self.assertEqual(self.review(), (text_with(looked_at(described) + wanted), 0))
                self.assertEqual((compared_in(described, printed), notes(described, printed)), ([], wanted))

    def test_a_thousand_phrases_at_most(self) -> None:
        """Those of more attributes aren't compared."""
        for more, found in ((996, True), (997, False)):
            lines = "".join(f"  number the {chr(97 + n // 676)}{chr(97 + n // 26 % 26)}{chr(97 + n % 26)} {chr(97 + n % 26) * 3}\n" for n in range(more))
            self.put("global\n  number the fee\n  number the fees\n  number the sum\n  number the rest\n" + lines + "the fee = the fees\n")
            self.assertEqual(f"f.txt:0: {alike('the fee', 'the fees')}" in self.review()[0].splitlines(), found)

    def test_records_of_a_table(self) -> None:
        self.put('table "fees.csv"\n' + HEAD.removesuffix("the fee =\n"))
        self.put("the income,= the fee\n< 10,1\n< 20,2\n< 10,3\notherwise,4\n", "fees.csv")
        self.assertEqual(self.review(), self.wanted([text_of("fees.csv", 1, "the fee", 3, 1, ANOTHER)]))

    def test_rules_of_further_files_come_in_their_order(self) -> None:
        self.put('include "more.txt"\n' + HEAD + "  1 if\n    true\n  2 if\n    the income < 1\n  3 otherwise\n")
        self.put("global\n  number the cost\nthe cost =\n  1 if\n    true\n  2 if\n    true\n  3 otherwise\n", "more.txt")
        self.assertEqual(self.review(), self.wanted([text_of("f.txt", 9, "the fee", 2, 1, ALWAYS), text_of("more.txt", 3, "the cost", 2, 1, ALWAYS)]))

    def test_a_hundred_at_most(self) -> None:
        for count in (97, 98, 99, 100, 101, 300):
            self.put(HEAD + "  1 if\n    the income < 10\n" * (count + 1) + "  2 otherwise\n")
            rows = [text_of("f.txt", 8, "the fee", row + 2, 1, SAME) for row in range(count)]
            self.assertEqual(self.review(), self.wanted(rows), count)
            self.assertEqual(len(self.as_document("f.txt", self.folder)["findings"]), min(count + 2, 100))

    def put_numbers(self, condition: str) -> None:
        self.put(NUMBERS + f"  1 if\n    {condition}\n  2 otherwise\n")

    def compares(self, condition: str, compared: list[str]) -> None:
        """This is said of the comparisons of a condition behind NUMBERS, and nothing else but of what goals look at."""
        self.put_numbers(condition)
        described, printed = self.told()
        self.assertEqual(compared_in(described, printed), compared)
        self.assertEqual(self.review(), (text_with(compared + looked_at(described)), 0))

    def compares_all(self, comparisons: list[tuple[str, str, str]]) -> None:
        found = compared_texts(f"f.txt:{NUMBERS_LINE}", "the fee", comparisons, SIDES)
        self.compares(" or\n    ".join(" ".join(each) for each in comparisons), found)

    def test_the_sides_of_comparisons(self) -> None:
        self.put_numbers("true")
        self.assertEqual(sides_of(self.told()[0]), SIDES)

    def test_comparisons_with_numbers(self) -> None:
        """Below the bounds, at them and beyond, with few decimals and with many, by each sign and from either side."""
        for side, literals in (
            ("the age", "-120 -1 0 0.0001 0.5 1 119 119.5 120 120.0001 121"),
            ("the share", "-1 0 0.4 0.5 0.55 0.6 1 1.9 1.95 2 2.0001 3"),
            ("the count", "-7 6 6.5 7 7.5 8"),
            ("the income", "-0.01 0 0.01 0.005 10.25 10.005 9999999999999"),
            ("the debt", "-1000 0 999.9999 1000 1000.0001 1001"),
            ("the tax", "-1 0 10.25 10.005 -10.005"),
            ("the ratio", "-1 0 10.005"),
            ("5", "-5 4 5 6"),
        ):
            for literal in literals.split():
                with self.subTest(f"{side}, {literal}"):
                    self.compares_all([each for sign in SIGNS for each in ((side, sign, literal), (literal, sign, side))])

    def test_comparisons_of_attributes(self) -> None:
        attributes = [phrase for phrase in SIDES if phrase not in ("the fee", "the child's age")]
        for left in attributes:
            for right in attributes:
                with self.subTest(f"{left}, {right}"):
                    self.compares_all([(left, sign, right) for sign in SIGNS])

    def test_words_of_comparisons(self) -> None:
        front = f"f.txt:{NUMBERS_LINE}: warning: in the rule for 'the fee' the comparison "
        for condition, said in (
            ("the age > 130", "'the age' > 130 is never true: 'the age' is at most 120"),
            ("the age >= 0", "'the age' >= 0 is never false: 'the age' is at least 0"),
            ("the age > -1", "'the age' > -1 is never false: 'the age' is at least 0"),
            ("130 >= the age", "130 >= 'the age' is never false: 'the age' is at most 120"),
            ("the count = 7", "'the count' = 7 is never false: 'the count' is 7"),
            ("the income = 10.005", "'the income' = 10.005 is with a number that can't be: 'the income' has at most 2 decimals"),
            ("the tax < 0.005", "'the tax' < 0.005 is with a number that can't be: 'the tax' has at most 2 decimals"),
            ("the share < 1.25", "'the share' < 1.25 is with a number that can't be: 'the share' has at most 1 decimal"),
            ("the age = 17.5", "'the age' = 17.5 is with a number that can't be: 'the age' is a whole number"),
            ("the share > the count", "'the share' > 'the count' is never true: 'the share' is at most 2, and 'the count' is 7"),
            ("3 > 4", "3 > 4 is never true"),
        ):
            with self.subTest(condition):
                self.compares(condition, [front + said])

    def test_comparisons_anywhere_in_a_rule_and_what_is_no_comparison(self) -> None:
        front = f"f.txt:{NUMBERS_LINE}: warning: in the rule for 'the fee' the comparison "
        found = [f"{front}'the age' > 130 is never true: 'the age' is at most 120", f"{front}'the age' < 0 is never true: 'the age' is at least 0"]
        child = f"{front}'the child's age' > 18 is never true: 'the child's age' is at most 18"
        rows: tuple[tuple[str, list[str]], ...] = (
            ("the income < 5 and\n    the age > 130", found[:1]),
            ("the age > 130 and\n    the age < 0", found),
            ("the age < 0 or\n    the age > 130", found[::-1]),
            ("it is not true that\n      the age > 130", found[:1]),
            ("not (the age > 130 or the age < 0)", found),
            ("any\n      the income < 5 or\n      the age > 130\n    and\n    the income > 1", found[:1]),
            ("InstanceCount(the children) > 1 and\n    the age > 130", found[:1]),
            ("for at least one of the children\n      the child's age > 18", [child]),
            ("the age + 1 > 130", []),
            ("the age > 100 + 30", []),
            ("the age > -(130)", []),
            ("the age > 119 and\n    the age < 1", []),
        )
        for condition, lines in rows:
            with self.subTest(condition):
                self.compares(condition, lines)

    def test_comparisons_come_behind_the_rows(self) -> None:
        row = "  1 if\n    the age > 130\n"
        self.put(NUMBERS + row + row + "  2 otherwise\n")
        once = f"f.txt:{NUMBERS_LINE}: warning: in the rule for 'the fee' the comparison 'the age' > 130 is never true: 'the age' is at most 120"
        lines = [text_of("f.txt", NUMBERS_LINE, "the fee", 2, 1, SAME), once, once]
        self.assertEqual(self.review(), (text_with(lines + looked_at(self.told()[0])), 0))

    def test_a_rulebase_that_is_refused(self) -> None:
        self.put(HEAD + "  the weather if\n    true\n  3 otherwise\n")
        self.assertEqual(self.review(), ran("describe", "f.txt", folder=self.folder))
        self.assertEqual(ran("review", "--json", "f.txt", folder=self.folder), self.review())
        self.assertEqual(self.review("none.txt"), ("refused: rulebase 9 none.txt:0\n", 1))

    def test_words(self) -> None:
        others = [("review",), ("review", "f.txt", "f.txt"), ("review", "-f.txt"), ("review", "--json"), ("review", "--json", "-f.txt")]
        others += [("review", "f.txt", "--json"), ("describe", "--json", "f.txt"), ("review", "--json", "f.txt", "f.txt")]
        for words in others:
            self.assertEqual(ran(*words, folder=self.folder), ("usage: rules MODE NAME | rules review --json NAME\n", 2))

    def test_the_examples(self) -> None:
        """No row is never reached, and no comparison is never true or never false: such a one is mended in the example, or a comment
        there says why it is so. What goals look at, and the notes, are those that are worked out."""
        for path in sorted(EXAMPLES.glob("*.txt")):
            if ran("describe", path.name, folder=EXAMPLES)[1] == 0:
                with self.subTest(path.name):
                    self.assertEqual(compared_in(*self.told(path.name, EXAMPLES)), [])
                    self.assertEqual(ran("review", path.name, folder=EXAMPLES), self.wanted([], path.name, EXAMPLES))

    def test_the_document_says_what_the_lines_say(self) -> None:
        self.put(HEAD + ROWS["the same condition"][0], "g.txt")
        schema = json.loads((TOP / "docs" / "review.schema.json").read_text())
        places = [(self.folder, "g.txt")] + [(EXAMPLES, path.name) for path in sorted(EXAMPLES.glob("*.txt"))]
        for folder, name in places:
            text, status = ran("review", name, folder=folder)
            if status == 0:
                with self.subTest(name):
                    document = self.as_document(name, folder)
                    if jsonschema:
                        jsonschema.validate(document, schema)
                    said = [f"{each['file']}:{each['line']}: {each['level']}: {each['words']}" for each in document["findings"]]
                    self.assertEqual((said, document["rulebase"]), (text.splitlines(), name))


if __name__ == "__main__":
    unittest.main()
