"""Parts of HTML pages: tables that sort, bars, and the page around them."""
from __future__ import annotations

import html
from collections.abc import Iterable, Sequence
from decimal import Decimal

STYLE = """body { font: 15px/1.5 "DejaVu Sans", Arial, sans-serif; margin: 2em auto; max-width: 75em; padding: 0 1em; color: #222; }
h1 { font-size: 150%; } h2 { font-size: 125%; margin-top: 2em; border-top: 2px solid #ddd; padding-top: 0.7em; } h3 { font-size: 105%; margin-top: 1.6em; }
table { border-collapse: collapse; margin: 0.5em 0; } th, td { padding: 0.25em 0.8em; border-bottom: 1px solid #ddd; text-align: left; vertical-align: top; }
td.n, th.n { text-align: right; font-variant-numeric: tabular-nums; } th { background: #f3f3f3; cursor: pointer; white-space: nowrap; }
th[aria-sort=ascending]::after { content: " \\2191"; } th[aria-sort=descending]::after { content: " \\2193"; }
.bar { display: inline-block; height: 0.9em; vertical-align: middle; } .more { background: #2b8a6e; } .less { background: #b3541e; } .same { background: #cfcfcf; } .other { background: #8aa4c8; }
.whole { display: flex; height: 1.6em; max-width: 45em; border: 1px solid #999; } .whole div { height: 100%; }
.key span { display: inline-block; width: 0.9em; height: 0.9em; margin: 0 0.3em 0 1em; vertical-align: -0.1em; }
.note { color: #555; } details { margin: 0.4em 0; } summary { cursor: pointer; }
.sides { display: grid; grid-template-columns: 1fr 1fr; gap: 1em; } .sides > div { overflow-x: auto; }
pre { font: 12.5px/1.45 "DejaVu Sans Mono", monospace; margin: 0; white-space: pre-wrap; } pre span { display: block; padding: 0 0.3em; }
pre .differs { background: #fbeec2; } pre .begins { background: #f4c9a8; } .scroll { max-height: 30em; overflow: auto; }
@media print { details > *:not(summary) { display: block; } .scroll { max-height: none; } }"""

SORT = """for (const head of document.querySelectorAll("table.sorts th")) head.addEventListener("click", () => {
  const table = head.closest("table"), place = [...head.parentNode.children].indexOf(head), body = table.tBodies[0];
  const down = head.getAttribute("aria-sort") === "ascending";
  for (const other of head.parentNode.children) other.removeAttribute("aria-sort");
  head.setAttribute("aria-sort", down ? "descending" : "ascending");
  const key = row => row.children[place].dataset.key ?? row.children[place].textContent;
  const compare = (a, b) => { const x = key(a), y = key(b), m = Number(x), n = Number(y);
    return x !== "" && y !== "" && !isNaN(m) && !isNaN(n) ? m - n : x.localeCompare(y, "en", {numeric: true}); };
  body.append(...[...body.rows].sort((a, b) => down ? compare(b, a) : compare(a, b)));
});"""


class Markup(str):
    """A text that is HTML already."""


def cell(value: object) -> str:
    if isinstance(value, Markup):
        return f"<td>{value}</td>"
    if isinstance(value, (int, Decimal)):
        return f'<td class="n">{value}</td>'
    return f"<td>{html.escape(str(value))}</td>"


def table(heads: Sequence[str], rows: Iterable[Sequence[object]]) -> str:
    """A table whose heads sort it; numbers stand to the right."""
    held = list(rows)
    numeric = [bool(held) and all(isinstance(row[n], (int, Decimal)) for row in held) for n in range(len(heads))]
    top = "".join(f'<th{" class=n" if numeric[n] else ""} tabindex="0">{html.escape(head)}</th>' for n, head in enumerate(heads))
    body = "\n".join(f"<tr>{''.join(map(cell, row))}</tr>" for row in held)
    return f'<table class="sorts">\n<thead><tr>{top}</tr></thead>\n<tbody>\n{body}\n</tbody>\n</table>'


def bar(value: Decimal | int, most: Decimal | int, sort: str, width: int = 220) -> Markup:
    """A bar whose length is the value's part of the most."""
    long = round(width * float(value) / float(most)) if most else 0
    return Markup(f'<span class="bar {sort}" style="width:{long}px" title="{value}"></span>')


def whole(parts: Sequence[tuple[str, str, int]]) -> str:
    """One bar of all cases, cut into parts: a class, a name and a count each."""
    total = sum(count for _, _, count in parts) or 1
    cuts = "".join(f'<div class="{sort}" style="width:{100 * count / total:.2f}%" title="{html.escape(name)}: {count}"></div>' for sort, name, count in parts if count)
    key = "".join(f'<span class="{sort}"></span>{html.escape(name)}: {count}' for sort, name, count in parts)
    return f'<div class="whole">{cuts}</div>\n<p class="key">{key}</p>'


def page(title: str, body: Iterable[str]) -> str:
    said = html.escape(title)
    lines = ["<!doctype html>", '<html lang="en">', "<head>", '<meta charset="utf-8">', f"<title>{said}</title>", f"<style>\n{STYLE}\n</style>", "</head>", "<body>"]
    return "\n".join([*lines, f"<h1>{said}</h1>", *body, f"<script>\n{SORT}\n</script>", "</body>", "</html>"]) + "\n"
