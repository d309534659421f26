"""What can go wrong: each fault is an exception of its own, and all of them are of one family."""
from __future__ import annotations

import re

MEANINGS = {
    ("command", 1): "the line has not the form of a command",
    ("command", 2): "nothing that is declared has this phrase",
    ("command", 3): "what stands behind the equals sign is no value, no day, or not in order",
    ("change", 1): "it can't be answered: it is concluded by a rule, or the instance isn't listed, or a name is empty or stands twice",
    ("change", 2): "the value is of another kind",
    ("change", 3): "the number is out of its bounds or has too many decimals, or two names stand where one may be",
    ("change", 4): "a limit is reached: a name is too long, or there are too many dates, answers or instances",
    ("point", 0): "the instance isn't listed",
    ("suppose", 0): "four suppositions stand on one another already",
    ("undo", 0): "nothing is supposed",
    ("cases", 0): "too many cases are open",
    ("line", 0): "the line is too long, or has no case's name",
}


# What `refused: rulebase N` means.
REFUSALS = {
    1: "this file isn't UTF-8",
    2: "this block is not well formed: its layout, a connector, a date or a number",
    3: "a phrase, a verb or an entity here isn't declared, or the rule is about something that isn't an attribute",
    4: "this goal isn't global, or the rule uses something of an entity that it isn't about",
    5: "a kind, a number of decimals or a number of days that isn't allowed here",
    6: "a second rule for one attribute, or something declared or named twice",
    7: "this rule goes round in a circle with those whose phrases are listed",
    8: "a limit is reached",
    9: "a file that is named here, or the main file, isn't there",
}


class Fault(Exception):
    """Anything that this package raises by itself."""


class BadText(Fault, ValueError):
    """A name, a text, a phrase or a value that can't be put into a command. Nothing was sent."""


class Refused(Fault):
    """The program refused a command, which changed nothing: `printed` as it stands, its `sort`, `number` (0 for none) and `words`."""

    def __init__(self, printed: str, line: str) -> None:
        self.printed, self.line = printed, line
        parts = printed.removeprefix("refused: ").split()
        self.sort = parts[0] if parts else ""
        self.number = int(parts[1]) if len(parts) > 1 and parts[1].isdigit() else 0
        self.words = MEANINGS.get((self.sort, self.number), "the command was refused")
        super().__init__(f"{printed}: {self.words}: {line[:200]}")


class RulebaseRefused(Fault):
    """The rulebase isn't accepted: `printed` as it stands (`refused: rulebase N FILE:LINE`), its `number`, `file`, `line` and `words`."""

    def __init__(self, printed: str) -> None:
        self.printed = printed
        found = re.match(r"refused: rulebase (\d+) (.*):(\d+)$", printed, re.M)
        self.number, self.file, self.line = (int(found[1]), found[2], int(found[3])) if found else (0, "", 0)
        self.words = REFUSALS.get(self.number, "the rulebase isn't accepted")
        super().__init__(f"{printed}: {self.words}")


class ProgramDied(Fault):
    """The program ended, or couldn't be run. The case's lines are as they were before the command."""


class ProgramSlow(ProgramDied):
    """The program took longer than it may, and was ended."""
