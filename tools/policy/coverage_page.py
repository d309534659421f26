"""What `tools/coverage` found, as text and as a page with the rule files in colours."""
from __future__ import annotations

import html
import pathlib
from collections.abc import Iterable

from .covered import Coverage, Item
from .pages import Markup, bar, page as whole_page, table

STYLE = """<style>
.rules { font: 12.5px/1.5 "DejaVu Sans Mono", monospace; border: 1px solid #ccc; } .rules div { padding: 0 0.5em; white-space: pre-wrap; }
.rules .all { background: #d7efe3; } .rules .some { background: #fbeec2; } .rules .none { background: #f6cdbb; } .rules i { color: #888; font-style: normal; }
</style>"""
KINDS = ("rule", "row", "record", "operand")


def percent(items: Iterable[Item]) -> float:
    held = list(items)
    return 100 * sum(item.is_reached for item in held) / len(held) if held else 100.0


def files(made: Coverage) -> list[tuple[str, list[Item]]]:
    found: dict[str, list[Item]] = {}
    for item in made.items.values():
        found.setdefault(item.file, []).append(item)
    return [(name, sorted(items, key=lambda item: item.line)) for name, items in sorted(found.items())]


def parts(items: list[Item]) -> list[tuple[str, int, int]]:
    """For each kind how many are reached, and how many there are."""
    found = []
    for kind in KINDS:
        own = [item for item in items if item.kind == kind]
        if own:
            found.append((kind, sum(item.is_reached for item in own), len(own)))
    return found


def line(name: str, items: list[Item]) -> str:
    return f"{percent(items):5.1f} %  {name}: " + ", ".join(f"{reached} of {count} {kind}s" for kind, reached, count in parts(items))


def text(made: Coverage, sides: bool) -> str:
    everything = list(made.items.values())
    lines = [line(name, items) for name, items in files(made)] + [line("together", everything)]
    missed = dict.fromkeys(f"  {item.file}:{item.line}: {item.kind} {item.text}" for _, items in files(made) for item in items if not item.is_reached)
    if missed:
        lines += ["", "never reached:", *missed]
    if sides:
        one = [(item, *item.outcomes) for _, items in files(made) for item in items if item.kind == "operand" and len(item.outcomes) == 1]
        lines += ["", "one side only:"] + [f"  {item.file}:{item.line}: only ever {side}: {item.text}" for item, side in one]
    lines += warnings(made)
    return "\n".join(lines) + "\n"


def warnings(made: Coverage) -> list[str]:
    lines = []
    if made.untold:
        lines += ["", f"{len(made.untold)} lines of reports couldn't be worked out again, and mark nothing:"] + [f"  {said}" for said in made.untold[:20]]
    return lines


def page(made: Coverage, folder: pathlib.Path) -> str:
    rows: list[tuple[object, ...]] = []
    for name, items in [*files(made), ("together", list(made.items.values()))]:
        counts = {kind: f"{reached} of {count}" for kind, reached, count in parts(items)}
        link = name if name == "together" else Markup(f'<a href="#{html.escape(name)}">{html.escape(name)}</a>')
        rows.append((link, f"{percent(items):.1f} %", bar(round(percent(items)), 100, "more", 150), *(counts.get(kind, "") for kind in KINDS)))
    body = [STYLE, f"<p>What the tests of {html.escape(folder.resolve().name)} reach: {made.reports} reports were read.</p>"]
    body.append(table(["file", "reached", "", "rules", "rows", "records", "operands"], rows))
    body.append('<p class="key"><span style="background:#d7efe3"></span>reached<span style="background:#fbeec2"></span>reached in part<span style="background:#f6cdbb"></span>never reached</p>')
    for name, items in files(made):
        body += coloured(name, made.texts[name], items)
    body += [f'<p class="note">{html.escape(said.strip())}</p>' for said in warnings(made) if said]
    return whole_page("Coverage of rules", body)


def coloured(name: str, lines: list[str], items: list[Item]) -> list[str]:
    by_line: dict[int, list[Item]] = {}
    for item in items:
        by_line.setdefault(item.line, []).append(item)
    found = [f'<h2 id="{html.escape(name)}">{html.escape(name)}</h2>', '<div class="rules">']
    for number, said in enumerate(lines, 1):
        own = by_line.get(number, [])
        reached = sum(item.is_reached for item in own)
        sort = "" if not own else "all" if reached == len(own) else "some" if reached else "none"
        told = "; ".join(f"{item.kind} {item.text}: {', '.join(sorted(item.outcomes))[:80] or 'never reached'}" for item in own)
        found.append(f'<div class="{sort}" title="{html.escape(told)}"><i>{number:4} </i>{html.escape(said) or " "}</div>')
    return [*found, "</div>"]
