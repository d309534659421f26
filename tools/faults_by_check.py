"""What `rules faults` is to print, as `opa check` finds the errors one after another.

The block of each error is made blank, so that all lines keep their numbers, and `opa check` is asked again. It stops
behind an error that isn't in a block of a rule file, or that is in a declaration. Of an error 3 the line is read for
the first phrase that isn't declared (`unknown`), and the nearest declared one is looked for (`nearest`). Of an error 2
the block is read for the first place that can't be read (tools/unread_places.py).
"""
from __future__ import annotations

import re
import shutil
import subprocess
import tempfile
from collections.abc import Iterator
from pathlib import Path
from typing import NamedTuple

from unread_places import ENDINGS, SLIPS, Token, cut, unread

REFUSED = re.compile(r"refused: rulebase (\d) (.*):(\d+)\n((?:  .*\n)*)")
WORDS = {
    1: "this file isn't UTF-8",
    2: "this can't be read: look for an indentation that jumps, a missing `and` or `or`, or a bracket",
    3: "a phrase isn't declared, or names something else than is expected here",
    4: "this speaks of something that the rule's own case doesn't reach: use a list",
    5: "two sorts of values don't go together, or a number isn't allowed here",
    6: "this is declared, concluded or named a second time",
    7: "these conclusions need one another, so none of them can come first:",
    8: "this is over a limit",
    9: "there is no such file",
}
PRINTED = re.compile(r"^(.*):(\d+):(\d+): error: (.*)$", re.M)
DECLARES = re.compile(r"global$|(entity|verb|members|include|table) ")
FILE_LINE = re.compile(r"(include|table) ")
CONTROL = re.compile(r"[\x00-\x1f\x7f]")
MOST_FILE_LINES, MOST_LINE, MOST_LEVEL = 100, 65536, 64
# How many errors are listed, and how many if a file is long.
MOST, MOST_OF_LONG, LONG = 100, 3, 1048576
ENDED = "{} errors are listed: there may be more\n"

UNKNOWN = "no attribute or list is called '"
RESERVED = (
    *("verb", "entity", "global", "goal", "screen", "include", "table", "members", "all", "both", "any", "either"),
    *("for", "not", "true", "false", "uncertain", *ENDINGS),
)
HEADS = ["for all of", "for at least one of"]
BOOL = re.compile(r"bool (.*?)\s*\[(.*)\]\s*(.*)$")
PLAIN = re.compile(r"(?:number|currency|text|date) ([^:]*)")
LIST = re.compile(r"(?:reference|every) ([^:]*):|in [^:]*: (.*)")
MEMBERS = re.compile(r"members (.*) from ")


class Error(NamedTuple):
    kind: int
    file: str
    line: int
    circle: str = ""
    source: str | None = None
    phrases: tuple[str, ...] | None = None
    # Of a place that can't be read how many characters stand before it in its line, and what is said of it.
    place: tuple[int, str] | None = None

    def text(self) -> str:
        """As `rules faults` prints it."""
        shown, column, words = "", 1, WORDS[self.kind]
        if self.source is not None:
            line, before = self.source.lstrip(" \t"), 0
            if self.place:
                before, words = self.place
            elif self.kind == 3 and self.phrases is not None and (found := unknown(self.phrases, line)):
                before, words = found[0], called(found[1], self.phrases)
            shown = f"  {CONTROL.sub('?', line)}\n  {before * ' '}^\n"
            column = 2 * (level(self.source) or 0) + 1 + before
        return f"{self.file}:{self.line}:{column}: error: {words}\n{self.circle}{shown}"


def called(found: str, phrases: tuple[str, ...]) -> str:
    """That nothing is called so, and which phrase may be meant."""
    near = nearest(found, phrases)
    return f"{UNKNOWN}{found}'" + (f"; did you mean '{near}'?" if near else "")


def longest(phrases: list[str], words: list[Token]) -> int:
    """How many of the first tokens the longest of the phrases has."""
    texts = [" ".join(text for _, text, _ in words[:count]) for count in range(len(words) + 1)]
    return max((count for count, text in enumerate(texts) if text in phrases), default=0)


def is_inner(words: list[Token]) -> bool:
    return bool(words) and words[0][0] in ("word", "number") and words[0][1] not in ENDINGS


def unknown(phrases: tuple[str, ...], line: str) -> tuple[int, str] | None:
    """The first phrase of a line that isn't one of these, and how many characters stand before it."""
    (words, stuck), listed = cut(line), list(phrases)
    if stuck is not None:
        return None
    at = longest(HEADS, words)
    while at < len(words):
        rest = words[at:]
        is_call = len(rest) > 1 and rest[1][1] == "("
        if rest[0][0] == "word" and rest[0][1] not in RESERVED and not is_call:
            count = longest(listed, rest)
            if not count or is_inner(rest[count:]):
                inner = next((n for n in range(len(rest)) if not is_inner(rest[n:])), len(rest))
                return rest[0][2], " ".join(text for _, text, _ in rest[:inner])
            at += count
        else:
            at += 1
    return None


def difference(left: bytes, right: bytes) -> int:
    """How much of the longer one is left without the beginning and the end that both have."""
    shorter = min(len(left), len(right))
    front = next((n for n in range(shorter) if left[n] != right[n]), shorter)
    back = next((n for n in range(shorter - front) if left[-1 - n] != right[-1 - n]), shorter - front)
    return max(len(left), len(right)) - front - back


def nearest(found: str, phrases: tuple[str, ...]) -> str | None:
    """The first of the phrases that differ least, in two bytes or a fifth of what was found at most."""
    text = found.encode()
    near = [(difference(text, phrase.encode()), place) for place, phrase in enumerate(phrases)]
    least, place = min(near, default=(len(text), 0))
    return phrases[place] if phrases and least <= max(2, len(text) // 5) else None


def of_attribute(verbs: list[list[str]], line: str) -> Iterator[str]:
    """The phrase that a line declares for an attribute, and what denies it."""
    if parts := BOOL.match(line):
        verb = next((verb for verb in verbs if verb[0] == parts[2]), [parts[2], ""])
        for form in verb[:2]:
            yield " ".join(part for part in (parts[1], form, parts[3]) if part)
    elif plain := PLAIN.match(line):
        yield plain[1].strip()


def declared(lines: list[str]) -> tuple[list[str], list[str], list[str]]:
    """The phrases of attributes with what denies them, of lists, and of membership blocks."""
    verbs = [[part.strip() for part in line[5:].split("/")] for line in lines if line.startswith("verb ")]
    attributes: list[str] = []
    lists: list[str] = []
    head = ""
    for line in lines:
        spaced = " ".join(line.split())
        if level(line) == 0:
            head = line
        elif level(line) and re.match(r"global|entity ", head):
            attributes += of_attribute(verbs, spaced)
            if named := LIST.match(spaced):
                lists.append(named[1] or named[2])
    heads = (MEMBERS.match(" ".join(line.split())) for line in lines if level(line) == 0)
    return attributes, lists, [named[1] for named in heads if named]


def known_phrases(opa: str, folder: Path, files: list[str], name: str) -> tuple[str, ...]:
    """The phrases that rules can use, as far as nothing is wrong with what is declared."""
    with tempfile.TemporaryDirectory() as room:
        shutil.copytree(folder, room, dirs_exist_ok=True)
        lines: list[str] = []
        for file in files:
            here = lines_of(Path(room, file))
            heads = {number: block_of(here, number) for number in range(1, len(here) + 1)}
            kept = [line if (head := heads[n]) and DECLARES.match(here[head[0] - 1]) else "" for n, line in enumerate(here, 1)]
            Path(room, file).write_text("\n".join(kept))
            lines += kept
        attributes, lists, members = declared(lines)
        wrong = checked(opa, Path(room), name)
        # Tables are read behind all that is declared.
        if not wrong or wrong.file not in files:
            return (*attributes, *lists, *members)
        here = lines_of(Path(room, wrong.file))
        head = block_of(here, wrong.line)
        return (*attributes, *lists) if head and here[head[0] - 1].startswith("members ") else ()


def level(line: str) -> int | None:
    """Its indentation, or none if it is blank or a comment."""
    text = line.lstrip(" \t")
    if not text or text.startswith("#"):
        return None
    blanks = line[: len(line) - len(text)]
    return blanks.count("\t") + blanks.count(" ") // 2


def lines_of(path: Path) -> list[str]:
    lines = path.read_bytes().decode(errors="replace").removeprefix("\ufeff").split("\n")
    return [line.removesuffix("\r") for line in lines]


def block_of(lines: list[str], number: int) -> tuple[int, int] | None:
    """The first and the last line of the block that has the line of this number, if it has one."""
    if not 0 < number <= len(lines) or level(lines[number - 1]) is None:
        return None
    heads = [place for place, line in enumerate(lines, 1) if level(line) == 0]
    first = max((head for head in heads if head <= number), default=None)
    return first and (first, min((head for head in heads if head > number), default=len(lines) + 1) - 1)


def head_of(lines: list[str], number: int) -> str:
    """The first line of the block that has the line of this number, or nothing if none has."""
    block = block_of(lines, number)
    return lines[block[0] - 1] if block else ""


def is_of_layout(lines: list[str], kind: int, number: int) -> bool:
    """Whether the line is too long, too deep, indented by an odd blank or too far, or names the 101st file."""
    line = lines[number - 1]
    deep, blanks = level(line) or 0, line[: len(line) - len(line.lstrip(" \t"))]
    if kind == 8:
        files = sum(bool(FILE_LINE.match(text)) for text in lines[:number])
        names_too_many = bool(FILE_LINE.match(line)) and files > MOST_FILE_LINES
        return len(line.encode()) > MOST_LINE or deep > MOST_LEVEL or names_too_many
    above = next((found for text in reversed(lines[: number - 1]) if (found := level(text)) is not None), -1)
    odd = any(len(run) % 2 for run in blanks.split("\t"))
    return kind == 2 and (odd or deep > above + 1)


def checked(opa: str, folder: Path, name: str) -> Error | None:
    """The error that `opa check` prints, if it refuses the rulebase."""
    done = subprocess.run([opa, "check", name], cwd=folder, capture_output=True, timeout=120)
    found = REFUSED.fullmatch(done.stdout.decode())
    if done.returncode != (1 if found else 0):
        raise ValueError(f"opa check {name}: status {done.returncode}, {done.stdout!r}")
    return Error(int(found[1]), found[2], int(found[3]), found[4]) if found else None


Placed = tuple[Error, "tuple[int, int] | None"]


def placed(folder: Path, error: Error, tables: set[str], phrases: tuple[str, ...]) -> Placed:
    """The error with its line and the phrases that are read there, and its block, if it is in one."""
    path = folder / error.file
    if not error.line or error.file in tables or not path.is_file():
        return error, None
    lines = lines_of(path)
    block = block_of(lines, error.line)
    if not block or is_of_layout(lines, error.kind, error.line):
        return error, None
    head = lines[block[0] - 1]
    if error.kind == 2 and (found := unread(kept(lines, block))):
        number, before, said = found
        return error._replace(line=number, source=lines[number - 1], place=(before, said)), block
    reads = not DECLARES.match(head) or (head.startswith("members ") and error.line != block[0])
    return error._replace(source=lines[error.line - 1], phrases=phrases if reads else None), block


def kept(lines: list[str], block: tuple[int, int]) -> list[tuple[int, int, str]]:
    """The lines of a block that are neither blank nor comments: the number, the level and the text of each."""
    numbered = ((number, lines[number - 1]) for number in range(block[0], block[1] + 1))
    return [(number, deep, line.lstrip(" \t")) for number, line in numbered if (deep := level(line)) is not None]


def left_out(path: Path, block: tuple[int, int]) -> bool:
    """Makes a block blank, unless it declares what others speak of."""
    lines = lines_of(path)
    if DECLARES.match(lines[block[0] - 1]):
        return False
    lines[block[0] - 1 : block[1]] = [""] * (block[1] - block[0] + 1)
    path.write_text("\n".join(lines))
    return True


def by_check(opa: str, folder: Path, name: str) -> str:
    """What is printed of a rulebase; the files of the folder are changed."""
    main = lines_of(folder / name) if (folder / name).is_file() else []
    named = [parts for line in main if (parts := re.match(r'(include|table) "(.*)"', line))]
    tables = {parts[2] for parts in named if parts[1] == "table"}
    files = [folder / each for each in (name, *(parts[2] for parts in named))]
    rules = [name, *(parts[2] for parts in named if parts[1] == "include")]
    phrases = known_phrases(opa, folder, [each for each in rules if (folder / each).is_file()], name)
    most = MOST_OF_LONG if any(path.is_file() and path.stat().st_size > LONG for path in files) else MOST
    found = ""
    for _ in range(most):
        if not (first := checked(opa, folder, name)):
            return found
        error, block = placed(folder, first, tables, phrases)
        found += error.text()
        if not block or not left_out(folder / error.file, block):
            return found
    return found + ENDED.format(most)


def printed(text: str) -> list[tuple[int, str, int]]:
    """The kind, the file and the line of each error that `rules faults` printed."""
    kinds = {words: kind for kind, words in WORDS.items()} | dict.fromkeys(SLIPS.values(), 2)
    found = PRINTED.findall(text)
    return [(3 if said.startswith(UNKNOWN) else kinds[said], file, int(line)) for file, line, _, said in found]
