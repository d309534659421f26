"""A rulebase as its description says it: what can be answered and listed, its questions, screens and goals."""
from __future__ import annotations

import json
import os
import pathlib
import re
import subprocess
import sys
from collections.abc import Mapping
from dataclasses import dataclass, field
from typing import Any

from . import program, texts
from .errors import Fault, RulebaseRefused

FORMAT = {"name": "sennabasket description", "version": 1}
SECONDS = 120.0


@dataclass(frozen=True)
class Rule:
    """Where a rule stands, and what it mentions. Where no last line is told, it goes to the end of its block."""

    file: str
    line: int
    last_line: int | None
    attributes: tuple[str, ...]
    lists: tuple[str, ...]


@dataclass(frozen=True)
class Attribute:
    phrase: str
    kind: str
    entity: str | None
    question: str
    least: str | None
    most: str | None
    decimals: int | None
    denied: str | None
    screen: str | None
    rule: Rule | None


@dataclass(frozen=True)
class Listed:
    """A list: `sort` is contains, one, many, every or concluded."""

    phrase: str
    sort: str
    of: str | None
    to: str | None
    question: str | None
    screen: str | None
    rule: Rule | None


@dataclass(frozen=True)
class Point:
    """What is answered or shown: an attribute or a list, of the case itself or of an instance."""

    phrase: str
    of: str | None = None

    def __str__(self) -> str:
        return texts.point(self.phrase, self.of)

    @classmethod
    def read(cls, text: str) -> Point:
        found = re.fullmatch(rf"(.*?) of ({texts.QUOTED})", text)
        return cls(found[1], texts.unquoted(found[2])) if found else cls(text)


@dataclass(frozen=True)
class Question:
    text: str
    point: Point
    about: Attribute | Listed


def rule(said: Mapping[str, Any] | None) -> Rule | None:
    if said is None:
        return None
    return Rule(said["file"], said["line"], said.get("last_line"), tuple(said["mentions"]["attributes"]), tuple(said["mentions"]["lists"]))


@dataclass
class Rulebase:
    """What a description says. `folder` is where its files are, and `name` its main file."""

    folder: pathlib.Path
    name: str
    attributes: dict[str, Attribute]
    lists: dict[str, Listed]
    parents: dict[str, str | None]
    screens: dict[str, list[str]]
    goals: list[str]
    files: list[str]
    document: Mapping[str, Any] = field(repr=False)

    @classmethod
    def from_description(cls, document: Mapping[str, Any], folder: pathlib.Path | str) -> Rulebase:
        if document.get("format") != FORMAT:
            raise Fault(f"this is no description of a known form: {document.get('format')!r:.100}")
        plain = ("phrase", "kind", "entity", "question", "least", "most", "decimals", "denied", "screen")
        return cls(
            folder=pathlib.Path(folder),
            name=document["rulebase"],
            attributes={a["phrase"]: Attribute(**{key: a[key] for key in plain}, rule=rule(a["rule"])) for a in document["attributes"]},
            lists={
                r["phrase"]: Listed(r["phrase"], r["sort"], r["of"], r["to"], r["question"], r["screen"], rule(r["rule"])) for r in document["lists"]
            },
            parents={e["phrase"]: e["in"] for e in document["entities"]},
            screens={s["title"]: list(s["shows"]) for s in document["screens"]},
            goals=list(document["goals"]),
            files=[f["name"] for f in document["files"]],
            document=document,
        )

    @classmethod
    def describe(
        cls,
        rulebase: pathlib.Path | str,
        describe: pathlib.Path | str | None = None,
        opa: str | None = None,
        rules: str | None = None,
        *,
        seconds: float = SECONDS,
        memory: int = program.MEMORY,
    ) -> Rulebase:
        """Runs the program that describes rulebases, and takes what it prints.

        It is the proved program `rules`, if it is given, named by the environment as RULES, or there in the repository; else
        tools/describe. Another program that is given as `describe` is run in place of the repository's. It is bounded in time and
        address space, and so is what it runs.
        """
        path, given = pathlib.Path(rulebase), rules or os.environ.get("RULES")
        proved = program.found("rules", given) if given else "" if describe else program.of_repository("rules")[0]
        if proved:
            words = [proved, "describe", path.name]
        else:
            words = [sys.executable, str(describe or program.TOP / "tools" / "describe"), str(path)]
            words += ["--opa", program.found("opa", opa)] if opa or not describe else []
        try:
            done = subprocess.run(
                program.bounded(words, memory, seconds), cwd=path.parent if proved else None, stdin=subprocess.DEVNULL, capture_output=True,
                encoding="utf-8", errors="replace", timeout=seconds,
            )  # fmt: skip
            document = None if done.returncode else json.loads(done.stdout)
        except (OSError, ValueError, subprocess.SubprocessError) as error:
            raise Fault(f"the rulebase can't be described: {error}") from error
        if done.returncode == 1 and done.stdout.startswith("refused: rulebase"):
            raise RulebaseRefused(done.stdout.strip())
        if document is None:
            why = (done.stderr or done.stdout).strip()[:500] or f"the program ended with status {done.returncode}"
            raise Fault(f"the rulebase can't be described: {why}")
        return cls.from_description(document, pathlib.Path(rulebase).resolve().parent)

    def question(self, text: str) -> Question:
        """What a printed question asks for."""
        if not hasattr(self, "_asked"):
            asked: dict[str, Attribute | Listed] = {r.question[:-1]: r for r in self.lists.values() if r.question}
            asked |= {a.question[:-1]: a for a in self.attributes.values()}
            self._asked = asked
        point = Point.read(text.removesuffix("?"))
        about = self._asked.get(point.phrase)
        if about is None:
            raise Fault(f"nothing has this question: {text[:200]}")
        return Question(text, Point(about.phrase, point.of), about)

    def is_table(self, file: str) -> bool:
        """Whether a file of the rulebase is a table; the main file says so, whichever program has described it."""
        if not hasattr(self, "_tables"):
            said = (self.folder / self.name).read_text(encoding="utf-8-sig")
            self._tables = {texts.unquoted(name) for name in re.findall(rf"^table[ \t]+({texts.QUOTED})", said, re.M)}
        return file in self._tables

    def container(self, entity: str) -> Listed:
        """The list in which the instances of an entity live."""
        return next(r for r in self.lists.values() if r.sort == "contains" and r.to == entity)

    def text_of(self, file: str, line: int, last: int | None = None) -> list[str]:
        """The lines of a rule file from one to another one, and where none is named to the end of the block."""
        if file not in self.files:
            raise Fault(f"this is no file of the rulebase: {file[:100]}")
        lines = (self.folder / file).read_text(encoding="utf-8-sig").split("\n")
        if last is None:
            last = next((place for place in range(line, len(lines)) if re.match(r"[^\s#]", lines[place])), len(lines))
            while last > line and re.match(r"\s*(#|$)", lines[last - 1]):
                last -= 1
        return [text.rstrip() for text in lines[line - 1 : last]]
