"""What `tools/compare` found, as one HTML page."""
from __future__ import annotations

import html
from collections import Counter

from .comparing import Change, Pair, Tally, Version, sort_of
from .compare_text import Whys, accepted, goals_of_one, line_of, order, said, unknown_heads
from .pages import Markup, bar, page as whole_page, table, whole
from .reasons import Why
from .texts import differing, value_at, without_place


def page(old: Version, new: Version, found: list[Pair], changes: list[Change], whys: Whys, causes: dict[str, Counter[str]], by: list[str]) -> str:
    counts = ", ".join(f"{who}: {count}" for who, count in accepted(found))
    body = [f"<p>{len(found)} cases over {html.escape(old.rulebase.name)} (old) and {html.escape(new.rulebase.name)} (new). Accepted by {counts}.</p>"]
    refused = [pair for pair in found if not pair.is_compared]
    if refused:
        rows = [(pair.case.name, pair.old.fault or "accepted", pair.new.fault or "accepted") for pair in refused]
        body.append("<h3>Cases that one version or both refuse</h3>\n" + table(["case", "old", "new"], rows))
    heads = [(head, knows, count) for head, knows, count in unknown_heads(old, new, by)]
    if heads:
        body.append("<h3>What only one version knows</h3>\n" + table(["head", "known to", "cases that say it"], heads))
    if goals := goals_of_one(old, new):
        body.append("<h3>Goals of one version</h3>\n" + table(["goal", "known to"], goals))
    for change in changes:
        body += goal(change, found, whys.get(change.goal, []), causes.get(change.goal, Counter()))
    return whole_page(f"Change of law: {old.rulebase.stem} and {new.rulebase.stem}", body)


def goal(change: Change, found: list[Pair], whys: list[Why], causes: Counter[str]) -> list[str]:
    body = [f"<h2>{html.escape(change.goal)}</h2>", f"<p>{change.changed} of {change.total.cases} cases change on some day.</p>"]
    if not change.changed:
        return body
    total = change.total
    names = ("get more", "get less") if change.is_amount else ("become true", "become false")
    parts = [("more", names[0], total.more), ("less", names[1], total.less)]
    parts += [("other", "change otherwise", total.changed - total.more - total.less), ("same", "stay the same", total.cases - total.changed)]
    body.append(f"<h3>On {change.day}</h3>\n" + whole(parts))
    if change.is_amount:
        body.append(f"<p>Gained {total.gained}, lost {total.lost}, net <b>{total.gained - total.lost}</b>.</p>")
    for column, tallies in change.groups.items():
        body.append(f"<h3>By {html.escape(said(column))}, on {change.day}</h3>\n" + group_table(said(column), tallies, change.is_amount))
    body.append("<h3>Days on which the change begins</h3>\n" + day_table(change))
    most = max(change.moves.values(), default=1)
    moves = [(before, after, count, bar(count, most, "other")) for (before, after), count in change.moves.most_common(30)]
    if moves:
        body.append(f"<h3>From what to what, on {change.day}</h3>\n" + table(["old", "new", "cases", ""], moves))
        if len(change.moves) > 30:
            body.append(f'<p class="note">And {len(change.moves) - 30} further pairs of values.</p>')
    if causes:
        most = max(causes.values())
        rows = [(phrase, count, bar(count, most, "other")) for phrase, count in causes.most_common()]
        body.append("<h3>Where the change begins</h3>\n" + table(["value", "changed cases", ""], rows))
        body.append('<p class="note">Counted are values that differ although nothing that their rules mention does.</p>')
    body.append("<h3>One case of each sort</h3>" if whys else "")
    body += [reports(why, found[why.place], change.goal) for why in whys]
    return [*body, cases(change, found)]


def group_table(column: str, tallies: dict[str, Tally], is_amount: bool) -> str:
    most = max((max(tally.more, tally.less) for tally in tallies.values()), default=1)
    rows: list[tuple[object, ...]] = []
    for value, tally in sorted(tallies.items(), key=lambda item: order(item[0])):
        bars = Markup(bar(tally.more, most, "more", 110) + "<br>" + bar(tally.less, most, "less", 110))
        sums = (tally.gained, tally.lost, tally.gained - tally.lost) if is_amount else ()
        rows.append((value, tally.cases, tally.changed, tally.more, tally.less, bars, *sums))
    names = ["get more", "get less"] if is_amount else ["become true", "become false"]
    return table([column, "cases", "change", *names, "", *(["gained", "lost", "net"] if is_amount else [])], rows)


def day_table(change: Change) -> str:
    most = max(change.begins.values(), default=1)
    rows: list[tuple[object, ...]] = []
    for day, tally in change.days.items():
        sums = (tally.gained, tally.lost, tally.gained - tally.lost) if change.is_amount else ()
        rows.append((day, change.begins[day], bar(change.begins[day], most, "other"), tally.changed, *sums))
    sums_heads = ["gained that day", "lost that day", "net"] if change.is_amount else []
    return '<div class="scroll">' + table(["day", "cases for which it begins", "", "cases that differ that day", *sums_heads], rows) + "</div>"


def reports(why: Why, pair: Pair, goal: str) -> str:
    lines = [report.lines for report in (why.old, why.new)]
    other = [{without_place(line) for line in side} for side in reversed(lines)]
    sides = []
    for side, others in zip(lines, other):
        marked = []
        for place, line in enumerate(side):
            sort = "" if without_place(line) in others or place == 0 else "differs"
            begins = sort and any(line.split(" ", 1)[-1].startswith((f"{phrase},", f'{phrase} of "')) for phrase in why.begins)
            marked.append(f'<span class="{"begins" if begins else sort}">{html.escape(line)}</span>')
        sides.append(f"<div><pre>{''.join(marked)}</pre></div>")
    begins = html.escape(", ".join(why.begins) or goal)
    head = f"{pair.case.name}, {why.sort}: {line_of(pair.old.lines[goal])} → {line_of(pair.new.lines[goal])}"
    first = f"<p>The first line that differs below the goal's: <code>{html.escape(why.first[0])}</code> / <code>{html.escape(why.first[1])}</code>. The change begins at: {begins}.</p>"
    answers = "".join(f"<span>{html.escape(command)}</span>" for command in pair.case.commands)
    summary = html.escape(head)
    return f'<details open><summary>{summary}</summary>\n{first}\n<details><summary>what the case says</summary><pre>{answers}</pre></details>\n<div class="sides">{"".join(sides)}</div></details>'


def cases(change: Change, found: list[Pair]) -> str:
    rows = []
    for places in change.sorts.values():
        for place in places:
            before, after = found[place].old.lines[change.goal], found[place].new.lines[change.goal]
            old, new = value_at(before, change.day), value_at(after, change.day)
            rows.append((place, (found[place].case.name, differing(before, after)[0], old, new, sort_of(old, new), line_of(before), line_of(after))))
    rows.sort()
    heads = ["case", "first day", f"old on {change.day}", f"new on {change.day}", "sort", "old, all days", "new, all days"]
    return f'<details><summary>All {len(rows)} cases that change</summary><div class="scroll">' + table(heads, [row for _, row in rows]) + "</div></details>"
