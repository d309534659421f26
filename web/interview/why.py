"""A report as a tree of sentences in the rules' own words."""
from __future__ import annotations

from dataclasses import dataclass, field

from sennabasket import Gone, Report, Stated

from .saying import Saying
from .words import Words, upper

MOST_DEPTH = 60


@dataclass
class Sentence:
    """A line of the report: its sentence, why it holds, the rule's text, and what it rests on."""

    number: int
    said: str
    origin: str
    days: str = ""
    rule: list[str] = field(default_factory=list)
    source: str = ""
    below: list[Sentence] = field(default_factory=list)
    is_again: bool = False
    at: int = 0


class Why:
    def __init__(self, report: Report, words: Words, saying: Saying, goal: int) -> None:
        self.report, self.words, self.saying, self.goal = report, words, saying, goal
        self.shown: set[int] = set()

    def tree(self) -> Sentence:
        return self.sentence(self.report.asked, 0)

    def sentence(self, line: Stated | Gone, depth: int) -> Sentence:
        made = self.stated(line) if isinstance(line, Stated) else self.listed(line)
        if not isinstance(line, Stated) or line.origin != "rule":
            return made
        if line.number in self.shown:
            made.is_again = True
            return made
        made.rule, made.source = self.rule(line)
        if depth >= MOST_DEPTH:
            made.origin = self.saying("why_deep")
            return made
        self.shown.add(line.number)
        made.below = [self.sentence(other, depth + 1) for other in self.report.below(line, self.words.base)]
        return made

    def stated(self, line: Stated) -> Sentence:
        about = self.words.base.attributes[line.point.phrase]

        def named(text: str) -> str:
            return upper(self.words.named(text, about.entity, line.point.of))

        if line.value is True:
            said = named(about.phrase)
        elif line.value is False:
            said = named(about.denied or about.phrase)
        else:
            unit = self.words.unit(self.saying.language, about.phrase)
            said = f"{named(about.phrase)}: {self.saying.value(line.value, about.kind, unit)}"
        days = "" if line.first == line.last else self.saying("why_days", first=self.saying.day(line.first), last=self.saying.day(line.last))
        if line.first == line.last != self.report.at:
            days = self.saying.day(line.first)
        return Sentence(line.number, said, self.saying(f"why_{line.origin}"), days)

    def listed(self, line: Gone) -> Sentence:
        about = self.words.base.lists[line.point.phrase]
        named = upper(self.words.named(about.phrase, about.of, line.point.of))
        names = self.saying("unknown") if line.names is None else ", ".join(line.names) or self.saying("none")
        return Sentence(line.number, f"{named}: {names}", self.saying("why_list_open" if line.names is None else "why_list"))

    def rule(self, line: Stated) -> tuple[list[str], str]:
        """The rule's own text, and where it stands; of a table its heads and records are too many to be shown."""
        rule = self.words.base.attributes[line.point.phrase].rule
        assert rule is not None
        if self.words.base.is_table(rule.file):
            return [], self.saying("why_table", file=rule.file)
        return self.words.base.text_of(rule.file, rule.line, rule.last_line), self.saying("why_text", file=rule.file, line=rule.line)
