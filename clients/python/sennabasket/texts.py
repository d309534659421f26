"""Texts of commands: the one place where what people type becomes part of a line.

A command is one line, and whatever is put into it goes through `quoted`, `phrase` or a value's `written`, and at last through
`command`. None of them lets a line feed or another control character through, so nothing that is typed becomes a line of its own.
"""
from __future__ import annotations

import re

from .errors import BadText

MOST_LINE, MOST_TEXT, MOST_NAME, MOST_CASE_NAME = 65_536, 1_000, 100, 100
CONTROL = re.compile(r"[\x00-\x1f\x7f]")
WORD = r"[^\W\d](?:[\w'’\u0300-\u036f-])*"
PHRASE = re.compile(rf"{WORD}(?: (?:{WORD}|\d+(?:\.\d{{1,4}})?))*")
QUOTED = r'"(?:[^"]|"")*"'


def size(text: str) -> int:
    """How many bytes a text has."""
    try:
        return len(text.encode("utf-8"))
    except UnicodeEncodeError:
        raise BadText("the text has a character that can't be written") from None


def quoted(text: str, most: int = MOST_TEXT) -> str:
    """A text between quotes, its own quotes doubled."""
    if CONTROL.search(text):
        raise BadText("a text has no line breaks, tabs or other control characters")
    if size(text) > most:
        raise BadText(f"a text has at most {most} bytes")
    return '"' + text.replace('"', '""') + '"'


def unquoted(text: str) -> str:
    if not re.fullmatch(QUOTED, text):
        raise BadText(f"this is no quoted text: {text[:100]}")
    return text[1:-1].replace('""', '"')


def name(text: str) -> str:
    """The name of an instance, between quotes."""
    if not text.strip():
        raise BadText("a name isn't empty")
    return quoted(text, MOST_NAME)


def phrase(text: str) -> str:
    """A phrase as it stands, if it is one."""
    if not PHRASE.fullmatch(text):
        raise BadText(f"this is no phrase: {text[:100]!r}")
    return text


def point(what: str, of: str | None = None) -> str:
    """`PHRASE`, or `PHRASE of "NAME"`."""
    return phrase(what) if of is None else f"{phrase(what)} of {name(of)}"


def command(line: str) -> str:
    """A whole command, looked at once more before it is sent."""
    if CONTROL.search(line) or not line.strip():
        raise BadText("a command is one line, without control characters")
    if size(line) > MOST_LINE - 2 * MOST_CASE_NAME - 8:
        raise BadText("the command is too long")
    return line


def names(text: str) -> list[str]:
    """The names of `none`, or of `"Ada", "Bo"`."""
    if text == "none":
        return []
    if not re.fullmatch(rf"{QUOTED}(?:, {QUOTED})*", text):
        raise BadText(f"these are no names: {text[:100]}")
    return [unquoted(part) for part in re.findall(QUOTED, text)]
