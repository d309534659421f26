"""A report as a tree, from the asked point down to the answers: one HTML file.

Each line has the number that it has in the report. Below a conclusion are the words of its rule, with the comment above it. The tree
is open as far as three levels, and wherever something is unanswered or unknown; on paper all of it is open.
"""
from __future__ import annotations

import html
import pathlib
from collections.abc import Iterator

from .reading import Fault, Node, report_of
from .rules import Rules, rules_over

OPEN_LEVELS = 3
STYLE = """body { font: 15px/1.5 "DejaVu Sans", Arial, sans-serif; margin: 2em; color: #222; max-width: 62em; }
h1 { font-size: 130%; margin-bottom: 0; } p { color: #555; margin-top: 0.3em; }
details, div.line { margin-left: 1.6em; } summary { margin-left: -1.2em; cursor: pointer; }
.number { color: #777; font-size: 80%; } .who { background: #e8eef6; border-radius: 3px; padding: 0 0.35em; }
.days, .origin { color: #777; font-size: 85%; }
.answer b { color: #1a6b52; } .unanswered b { color: #b3541e; } .list b { color: #3a5a98; }
pre { font: 12px/1.4 "DejaVu Sans Mono", monospace; background: #f6f6f3; border-left: 3px solid #ccc; margin: 0.2em 0 0.4em;
  padding: 0.3em 0.7em; overflow: auto; max-height: 22em; white-space: pre-wrap; }
@media print {
  body { margin: 0; font-size: 11px; } pre { max-height: none; font-size: 9px; } .buttons { display: none; }
  summary, pre { break-inside: avoid; }
  details::details-content { content-visibility: visible; block-size: auto; display: block; }
}"""
SCRIPT = """const all = open => document.querySelectorAll("details").forEach(part => part.open = open);
addEventListener("beforeprint", () => all(true));"""
INTRODUCTION = (
    "Each line is a line of the report, with its number there; below it are the words of its rule, and what it depends on. "
    "This page was made by tools/picture, of which nothing is proved: <code>opa verify</code> checks the report itself."
)


class Page:
    """The lines of a report, their rules, and which were shown already."""

    def __init__(self, day: str, nodes: list[Node], rules: Rules | None):
        self.day, self.nodes, self.rules = day, nodes, rules
        self.shown: set[int] = set()

    def below(self, node: Node) -> list[Node]:
        """The lines of what a line's rule mentions: of its own instance, if there are such."""
        found = []
        for phrase in self.rules.mentions(node) if self.rules else []:
            named = [other for other in self.nodes if other.phrase == phrase and other is not node]
            own = [other for other in named if other.name == node.name]
            found += own if own and node.name else named
        return found

    def lacks(self, node: Node, seen: frozenset[int] = frozenset()) -> bool:
        """Whether something that is missing is below a line, or is the line itself."""
        if not node.file:
            return node.origin == "unanswered" or node.value == "unknown"
        if node.number in seen or node.value != "unknown":
            return False
        return any(self.lacks(other, seen | {node.number}) for other in self.below(node))

    def said(self, node: Node) -> str:
        who = f' <span class="who">{html.escape(node.name)}</span>' if node.name else ""
        days = ""
        if node.days and node.days != (self.day, self.day):
            days = f"on {node.days[0]}" if node.days[0] == node.days[1] else f"from {node.days[0]} to {node.days[1]}"
        origin = f"rule {node.file}:{node.line}" if node.file else node.origin
        return (
            f'<span class="number">{node.number}</span> {html.escape(node.phrase)}{who}: <b>{html.escape(node.value)}</b> '
            f'<span class="days">{days}</span> <span class="origin">{html.escape(origin)}</span>'
        )

    def tree(self, node: Node, depth: int) -> Iterator[str]:
        indent = "  " * depth
        if not node.file:
            yield f'{indent}<div class="line {node.origin}">{self.said(node)}</div>'
        elif node.number in self.shown:
            yield f'{indent}<div class="line">{self.said(node)} <a href="#line{node.number}">see line {node.number} above</a></div>'
        else:
            self.shown.add(node.number)
            opened = " open" if depth <= OPEN_LEVELS or self.lacks(node) else ""
            yield f'{indent}<details id="line{node.number}"{opened}><summary>{self.said(node)}</summary>'
            if words := self.rules.words(node) if self.rules else []:
                yield "<pre>" + html.escape("\n".join(words)) + "</pre>"
            for other in self.below(node):
                yield from self.tree(other, depth + 1)
            yield f"{indent}</details>"


def rules_of(folder: pathlib.Path, nodes: list[Node], where: str) -> Rules | None:
    if not nodes[0].file:
        return None
    main = next((node.file for node in nodes if node.file and not node.file.endswith(".csv")), None)
    names = ([main] if main else []) + sorted(path.name for path in folder.glob("*.txt"))
    rules = next(filter(None, (rules_over(folder, name, nodes) for name in names)), None)
    if rules is None:
        named = ", ".join(sorted({node.file for node in nodes if node.file}))
        raise Fault(f"{folder} has no rulebase with {named} and the phrases of the report of {where}")
    return rules


def report_picture(text: str, where: str, folder: pathlib.Path) -> str:
    point, day, nodes = report_of(text, where)
    page = Page(day, nodes, rules_of(folder, nodes, where))
    title = html.escape(f"{point} on {day}: {nodes[0].value}")
    buttons = '<button onclick="all(true)">open all</button> <button onclick="all(false)">close all</button>'
    lines = [
        "<!doctype html>",
        '<html lang="en">',
        "<head>",
        '<meta charset="utf-8">',
        f"<title>{title}</title>",
        f"<style>\n{STYLE}\n</style>",
        f"<script>\n{SCRIPT}\n</script>",
        "</head>",
        "<body>",
        f"<h1>{title}</h1>",
        f"<p>{INTRODUCTION}</p>",
        f'<p class="buttons">{buttons}</p>',
        *page.tree(nodes[0], 1),
        "</body>",
        "</html>",
    ]
    return "\n".join(lines) + "\n"
