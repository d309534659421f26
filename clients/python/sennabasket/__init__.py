"""A client for `opa` and `desk`: cases over a rulebase, with values of Python.

    base = Rulebase.describe("examples/food.txt")
    with Cases(base) as cases:
        case = cases.open()
        case.list("the members", ["Ada"])
        case.answer("the member's date of birth", date(1959, 3, 5), of="Ada")
        print(case.next().text, case.goals())

What is decided is decided by the programs; this package writes their commands and reads what they print. `Case` runs on `desk cases`,
but for `screen`, `report`, `look` and `saved`, which `desk cases` doesn't take: for these `opa run` is run over the case's lines.
"""
from .cases import Case, Cases, Goal, Look, Screen
from .errors import BadText, Fault, ProgramDied, ProgramSlow, Refused, RulebaseRefused
from .reports import Gone, Report, Stated
from .rulebase import Attribute, Listed, Point, Question, Rulebase
from .values import FIRST_DAY, LAST_DAY, UNCERTAIN, UNKNOWN, Missing, Timeline, Value

__all__ = [
    "Attribute", "BadText", "Case", "Cases", "FIRST_DAY", "Fault", "Goal", "Gone", "LAST_DAY", "Listed", "Look", "Missing", "Point",
    "ProgramDied", "ProgramSlow", "Question", "Refused", "Report", "Rulebase", "RulebaseRefused", "Screen", "Stated", "Timeline",
    "UNCERTAIN", "UNKNOWN", "Value",
]  # fmt: skip
