"""What `tools/compare` found, as text and as comma-separated values."""
from __future__ import annotations

from collections import Counter

from .cases import table
from .comparing import Change, Pair, Tally, Version, sort_of
from .reasons import Why
from .texts import FIRST_DAY, Pairs, differing, number, value_at

Whys = dict[str, list[Why]]
MOST = 12


def line_of(pairs: Pairs) -> str:
    return "; ".join(value if day == FIRST_DAY else f"from {day} {value}" for day, value in pairs)


def accepted(found: list[Pair]) -> list[tuple[str, int]]:
    """How many cases which version accepts."""
    counts: Counter[str] = Counter()
    for pair in found:
        counts["both" if pair.is_compared else "new only" if pair.old.fault and not pair.new.fault else "old only" if not pair.old.fault else "neither"] += 1
    return [(key, counts[key]) for key in ("both", "old only", "new only", "neither")]


def unknown_heads(old: Version, new: Version, by: list[str]) -> list[tuple[str, str, int]]:
    """The heads that a version doesn't know: the head, who knows it, and in how many cases it has a value."""
    columns = {word.partition(":")[0].strip() for word in by}
    found = []
    for head in dict.fromkeys([*old.unknown, *new.unknown]):
        knows = "neither version" if head in old.unknown and head in new.unknown else "the new version only" if head in old.unknown else "the old version only"
        if knows != "neither version" or head not in columns:
            found.append((head, knows, max(old.unknown[head], new.unknown[head])))
    return found


def goals_of_one(old: Version, new: Version) -> list[tuple[str, str]]:
    return [(goal, "the old version only") for goal in old.declared.goals if goal not in new.declared.goals] + [
        (goal, "the new version only") for goal in new.declared.goals if goal not in old.declared.goals
    ]


def tally_line(tally: Tally, is_amount: bool) -> str:
    said = f"{tally.changed} of {tally.cases} cases change"
    if tally.more or tally.less:
        said += f"; {tally.more} {'get more' if is_amount else 'become true'}, {tally.less} {'get less' if is_amount else 'become false'}"
    return said + (f"; gained {tally.gained}, lost {tally.lost}, net {tally.gained - tally.lost}" if is_amount else "")


def text(old: Version, new: Version, found: list[Pair], changes: list[Change], whys: Whys, causes: dict[str, Counter[str]], by: list[str]) -> str:
    lines = [f"{old.rulebase} and {new.rulebase}: {len(found)} cases"]
    lines.append("accepted by " + ", ".join(f"{who}: {count}" for who, count in accepted(found)))
    for pair in [pair for pair in found if not pair.is_compared][:MOST]:
        lines.append(f"  {pair.case.name}: old {pair.old.fault or 'accepted'}; new {pair.new.fault or 'accepted'}")
    lines += [f"known to {knows}: {head} (said in {count} cases)" for head, knows, count in unknown_heads(old, new, by)]
    lines += [f"a goal of {which}: {goal}" for goal, which in goals_of_one(old, new)]
    for change in changes:
        lines += ["", *goal_text(change, found, whys.get(change.goal, []), causes.get(change.goal, Counter()))]
    return "\n".join(lines) + "\n"


def goal_text(change: Change, found: list[Pair], whys: list[Why], causes: Counter[str]) -> list[str]:
    lines = [change.goal, f"  {change.changed} of {change.total.cases} cases change on some day"]
    if not change.changed:
        return lines
    lines.append(f"  on {change.day}: {tally_line(change.total, change.is_amount)}")
    lines.append("  the change begins on")
    for day, tally in list(change.days.items())[:MOST]:
        lines.append(f"    {day}: for {change.begins[day]} cases; on that day {tally_line(tally, change.is_amount)}")
    lines += [f"    and on {len(change.days) - MOST} further days"] if len(change.days) > MOST else []
    lines.append(f"  from what to what on {change.day}")
    lines += [f"    {before} to {after}: {count}" for (before, after), count in change.moves.most_common(MOST)]
    rest = len(change.moves) - MOST
    lines += [f"    and {rest} further pairs of values"] if rest > 0 else []
    if causes:
        lines.append("  where the change begins (cases)")
        lines += [f"    {phrase}: {count}" for phrase, count in causes.most_common()]
    for column, tallies in change.groups.items():
        lines.append(f"  by {said(column)}, on {change.day}")
        lines += [f"    {value}: {tally_line(tally, change.is_amount)}" for value, tally in sorted(tallies.items(), key=lambda item: order(item[0]))]
    for why in whys:
        lines += why_text(why, change.goal, found)
    return lines


def said(column: str) -> str:
    """A --by as a heading: `COLUMN:STEP` is a column in groups."""
    name, _, step = column.partition(":")
    return f"{name.strip()}, in steps of {step.strip()}" if step else name


def order(value: str) -> tuple[bool, object, str]:
    amount = number(value.split(" ", 1)[0])
    return (amount is None, amount or 0, value)


def why_text(why: Why, goal: str, found: list[Pair]) -> list[str]:
    lines = [f"  {found[why.place].case.name} ({why.sort}), reports at {why.day}"]
    lines += [f"    old: {line}" for line in why.old.lines] + [f"    new: {line}" for line in why.new.lines]
    lines.append("    the first line that differs below the goal's:")
    lines += [f"      old: {why.first[0]}", f"      new: {why.first[1]}"]
    return lines + [f"    the change begins at: {', '.join(why.begins) or goal}"]


def comma_separated(found: list[Pair], changes: list[Change], columns: dict[str, list[str]]) -> str:
    """One record for each case and goal."""
    rows = [["case", "goal", "old", "new", "first day of difference", "day", "old on the day", "new on the day", "difference", "sort", "fault of old", "fault of new", *columns]]
    for place, pair in enumerate(found):
        groups = [values[place] for values in columns.values()]
        if not pair.is_compared:
            rows.append([pair.case.name, *[""] * 9, pair.old.fault, pair.new.fault, *groups])
            continue
        for change in changes:
            before, after = pair.old.lines[change.goal], pair.new.lines[change.goal]
            old, new = value_at(before, change.day), value_at(after, change.day)
            amounts = number(old), number(new)
            difference = str(amounts[1] - amounts[0]) if amounts[0] is not None and amounts[1] is not None else ""
            days = differing(before, after)
            rows.append([pair.case.name, change.goal, line_of(before), line_of(after), days[0] if days else "", change.day, old, new, difference, sort_of(old, new) if days else "same", "", "", *groups])
    return table(rows)
