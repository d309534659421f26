"""The first place of a block that can't be read, whatever the rest of the block says: what `rules faults` looks for."""
from __future__ import annotations

import re

# The kind of a token, its text, and where it begins.
Token = tuple[str, str, int]
# The number, the level and the text of a line.
Line = tuple[int, int, str]
# Where a place is in its line, and what is said of it.
Place = tuple[int, str]

TOKEN = re.compile(
    r"(?P<date>[0-9]{4}-[0-9]{2}-[0-9]{2})|(?P<number>[0-9]+(?:\.[0-9]{1,4})?)|(?P<word>[^\W\d][\w'\u2019-]*)"
    r'|(?P<text>"(?:[^"\x00-\x1f\x7f]|"")*")|(?P<symbol><=|>=|<>|[()\[\],:;/+*=<>-])|(?P<blank>[ \t]+)'
)
ENDINGS = ("and", "or", "if", "otherwise")
DECLARING = ("verb", "entity", "global", "goal", "screen", "include", "table")
SLIPS = {
    "head": "this begins neither a declaration nor a rule: the first line of a rule has `=`, or ends with `if`",
    "closing": "this bracket closes none",
    "opening": "this bracket isn't closed",
    "text": "this text isn't closed",
    "control": "this text has a tab in it, or another control character",
    "sign": "this sign has no meaning here",
    "missing": "something is missing behind this sign",
    "unjoined": "there is no `and` or `or` at the end of this line, and another line follows",
    "dangling": "no line with the same indentation follows this `and` or `or`",
}
COMPARING = ("=", "<>", "<", "<=", ">", ">=")
# Signs that no line of a declaration has, and none of a rule; behind which a value is, and with which none begins.
OF_VALUES = ("(", ")", "+", "*", ";", *COMPARING)
OF_DECLARATIONS = ("[", "]", ":", ";")
ASKS = ("(", ",", "+", "-", "*", "/", *COMPARING)
BEGINS_NONE = (")", ",", "+", "*", "/", *COMPARING)


def cut(text: str) -> tuple[list[Token], int | None]:
    """The tokens of a text, and the first place at which none begins, if there is one."""
    found: list[Token] = []
    at = 0
    while at < len(text):
        part = TOKEN.match(text, at)
        if not part:
            return found, at
        if part.lastgroup and part.lastgroup != "blank":
            found.append((part.lastgroup, part[0], at))
        at = part.end()
    return found, None


def at_stuck(rest: str) -> str:
    """What is said where no token begins."""
    if not rest.startswith('"'):
        return SLIPS["sign"]
    return SLIPS["control" if '"' in rest[1:] else "text"]


def bracket(words: list[Token], opening: str, closing: str) -> Place | None:
    """The first bracket without a partner."""
    still_open: list[int] = []
    for _, text, at in words:
        if text == opening:
            still_open.append(at)
        elif text == closing and still_open:
            still_open.pop()
        elif text == closing:
            return at, SLIPS["closing"]
    return (still_open[0], SLIPS["opening"]) if still_open else None


def lacks(rest: list[Token]) -> bool:
    """Whether no value begins a rest of a line."""
    return not rest or rest[0][1] in BEGINS_NONE or (len(rest) == 1 and rest[0][1] in ENDINGS)


def sign(words: list[Token], declares: bool, is_first: bool) -> Place | None:
    """The first sign that can't be where it is."""
    for place, (_, text, at) in enumerate(words):
        rest = words[place + 1 :]
        if text in (OF_VALUES if declares else OF_DECLARATIONS):
            return at, SLIPS["sign"]
        opens_cases = is_first and text == "=" and not rest
        if not declares and text in ASKS and lacks(rest) and not opens_cases:
            return at, SLIPS["missing"]
    return None


def end(words: list[Token], is_group: bool, more: bool) -> Place | None:
    """What is wrong at the end of a line below the first one of a rule, if the next one has the same level or hasn't."""
    _, last, at = words[-1]
    if last in ("and", "or"):
        return None if more else (at, SLIPS["dangling"])
    if last not in ENDINGS and is_group and more:
        return at + len(last), SLIPS["unjoined"]
    return None


def unread(lines: list[Line]) -> tuple[int, int, str] | None:
    """The number of the first line with such a place, how many characters stand before it, and what is said of it."""
    declares = ends_with_if = False
    for place, (number, level, text) in enumerate(lines):
        words, stuck = cut(text)
        found: Place | None = None
        if stuck is not None:
            return number, stuck, at_stuck(text[stuck:])
        if place == 0:
            declares, ends_with_if = words[0][1] in DECLARING, words[-1][1] == "if"
            if not declares and not ends_with_if and all(text != "=" for _, text, _ in words):
                found = words[0][2], SLIPS["head"]
        found = found or (bracket(words, "[", "]") if declares else bracket(words, "(", ")"))
        found = found or sign(words, declares, place == 0)
        if place and not declares:
            more = place + 1 < len(lines) and lines[place + 1][1] == level
            found = found or end(words, ends_with_if or level > 1, more)
        if found:
            return number, *found
    return None
