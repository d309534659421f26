"""Rulebases whose goals have functions over time two and three deep, in each place of a rule, and inputs that ask for all they need.

docs/worst_inputs.py writes them with the other worst inputs. By themselves, into the folder in which it runs:

    python3 docs/worst_windows.py && sh worst_windows.sh OPA DESK

Each line of the script prints how long one run took. Each is to end within a second.
"""
from collections.abc import Callable, Iterator

SPAN = "1600-01-01, 2399-12-31"
# Each function with the kind of its operand and of its value: a truth value or a number.
FUNCTIONS = {
    "IntervalAlways": ("bool", "bool", f"IntervalAlways({SPAN}, {{}})"),
    "IntervalSometimes": ("bool", "bool", f"IntervalSometimes({SPAN}, {{}})"),
    "IntervalDailySum": ("number", "number", f"IntervalDailySum({SPAN}, {{}})"),
    "IntervalMaximum": ("number", "number", f"IntervalMaximum({SPAN}, {{}})"),
    "IntervalMinimum": ("number", "number", f"IntervalMinimum({SPAN}, {{}})"),
    "IntervalConsecutiveDays": ("bool", "number", f"IntervalConsecutiveDays({SPAN}, {{}})"),
    "ValueAt": ("number", "number", "ValueAt(2024-02-29, {})"),
    "TemporalAlwaysDays": ("bool", "bool", "TemporalAlwaysDays(36600, {})"),
    "TemporalSometimesDays": ("bool", "bool", "TemporalSometimesDays(36600, {})"),
}


def as_kind(text: str, kind: str, wanted: str) -> str:
    """The same, made a number or a truth value."""
    if kind == wanted:
        return text
    return f"({text} > 1)" if wanted == "bool" else f"IntervalConsecutiveDays({SPAN}, {text})"


def nested(names: list[str], leaf: str) -> str:
    """The functions in one another, the first outermost, over a number: as a number."""
    text, kind = leaf, "number"
    for name in reversed(names):
        taken, given, shape = FUNCTIONS[name]
        text, kind = shape.format(as_kind(text, kind, taken)), given
    return as_kind(text, kind, "number")


# Each place of a rule in which a number e may stand, before or behind another number m.
PLACES = {
    "first of a sum": "{goal} = {e} + {m}",
    "second of a sum": "{goal} = {m} + {e}",
    "first of a product": "{goal} = {e} * {m}",
    "second of a quotient": "{goal} = {m} / {e}",
    "within a window": f"{{goal}} = IntervalDailySum({SPAN}, {{e}} + {{m}})",
    "below a date": "{goal} = ValueAt(2024-02-29, {e} - {m})",
    "rounded": "{goal} = Round({e} - {m}, 2)",
    "of two the less": "{goal} = Minimum({e}, {m})",
    "in a row": "{goal} =\n  1 if\n    {e} > {m}\n  {m} if\n    {m} = {e}\n  {e} otherwise",
    "over a list": "{goal} = InstanceSum(the people, {e} + the person's {m})",
    "counted": "{goal} = InstanceCountIf(the people, {e} > the person's {m})",
}


def rules(chains: list[list[str]]) -> tuple[str, list[str]]:
    """A rulebase with a goal for each chain and place, and the attributes that it asks for, in order."""
    heads, own, goals, asked = [], [], [], []
    for number, names in enumerate(chains):
        for place, (said, shape) in enumerate(PLACES.items()):
            goal, n, m = f"the goal g{number}_{place}", f"n{number}_{place}", f"m{number}_{place}"
            heads += [f"  number {goal}", f"  number {n}"]
            (own if "the person's" in shape else heads).append(f"  number {'the person' + chr(39) + 's ' if 'the person' in shape else ''}{m}")
            goals += [f"goal {goal}", shape.format(goal=goal, e=nested(names, n), m=m)]
            asked += [n] + ([f'the person\'s {m} of "Ada"', f'the person\'s {m} of "Bo"'] if "the person's" in shape else [m])
    entity = ["entity the person", "  in global: the people", *own]
    return "\n".join(["global", *heads, *entity, *goals]) + "\n", asked


def written(name: str, chains: list[list[str]], write: Callable[[str, str], None]) -> Iterator[tuple[str, str, str]]:
    """Writes a rulebase with its inputs; gives each run's name, its words and its input."""
    text, asked = rules(chains)
    write(f"{name}.txt", text)
    people = 'list the people = "Ada", "Bo"\n'
    goal = "the goal g0_0"
    lines = [line for head in asked for line in ("next", f"answer {head} = 2; from 2001-01-01 3; from 2020-05-17 2")]
    write(f"{name}_next.txt", people + "\n".join([*lines, "next", "goals"]) + "\n")
    yield f"{name}: each question", f"run {name}.txt", f"{name}_next.txt"
    write(f"{name}_screen.txt", people + "\n".join(["screen"] * 20) + "\n")
    yield f"{name}: twenty screens", f"run {name}.txt", f"{name}_screen.txt"
    write(f"{name}_replies.txt", '"Ada", "Bo"\n' + "2; from 2001-01-01 3; from 2020-05-17 2\n" * len(asked))
    yield f"{name}: an interview", f"interview {name}.txt", f"{name}_replies.txt"
    answers = [f"answer {head} = 2; from 2001-01-01 3; from 2020-05-17 2" for head in asked]
    goals = [f"the goal g{number}_{place}" for number in range(len(chains)) for place in range(len(PLACES))]
    write(f"{name}_reports.txt", people + "\n".join([*answers, *(f"report {goal} at 2024-02-29" for goal in goals)]) + "\n")
    yield f"{name}: a report of each goal", f"run {name}.txt", f"{name}_reports.txt"
    few = [head for head in asked if " of " not in head][:40]
    write(f"{name}_batch.csv", "\n".join([",".join(few), *(",".join(["2"] * len(few)) for _ in range(3))]) + "\n")
    yield f"{name}: a batch", f"desk batch {name}.txt", f"{name}_batch.csv"
    write(f"{name}_cases.txt", "".join(f'"{case}" {line}\n' for case in "ab" for line in [people.strip(), "next", *answers[:40], "next", f"show {goal}"]))
    yield f"{name}: a caseload", f"desk cases {name}.txt", f"{name}_cases.txt"


def chains_of(depth: int) -> list[list[str]]:
    """Each function in each other one, and, three deep, in itself again."""
    names = list(FUNCTIONS)
    return [([one, other] if depth == 2 else [one, other, one]) for one in names for other in names]


def all_written(write: Callable[[str, str], None]) -> Iterator[tuple[str, str, str]]:
    for depth in (2, 3):
        chains = chains_of(depth)
        for first in range(0, len(chains), 9):
            yield from written(f"windows_{depth}_{chains[first][0]}", chains[first : first + 9], write)


def main() -> None:
    def write(name: str, text: str) -> None:
        with open(name, "w", encoding="utf-8") as file:
            file.write(text)

    with open("worst_windows.sh", "w", encoding="utf-8") as script:
        for name, words, given in all_written(write):
            program = f'"$2" {words[5:]}' if words.startswith("desk ") else f'"$1" {words}'
            script.write(f"echo {name}; /usr/bin/time -f '%e s, %M KB, status %x' {program} < {given} > /dev/null\n")


if __name__ == "__main__":
    main()
