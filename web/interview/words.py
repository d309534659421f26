"""Words for people: NAME.words.toml beside a rulebase, and what stands in where it says nothing.

    language = "en"                       the language of the rules, and of who hasn't chosen another one

    [en]
    title = "Food assistance"             above each page
    about = "..."                         on the first page

    [en.screens]
    "Costs" = "What your home costs"      titles of screens

    [en.words."the member's date of birth"]
    question = "When was {member} born?"  {member}, or {name}: the instance that is asked about
    help = "..."                          beside the question
    unit = "dollars a month"              behind a number
    choices = {rented = "I rent it"}      of a text: what may be chosen, and how it is called
    label = "Date of birth"               the name of it in lists and results
    constant = true                       the answer doesn't change over time: no dates of changes are offered
"""
from __future__ import annotations

import pathlib
import re
import tomllib
from collections.abc import Mapping
from typing import Any

from sennabasket import Attribute, Listed, Rulebase

KEYS = {"question": str, "help": str, "unit": str, "choices": dict, "label": str, "constant": bool}
PARTS = ("title", "about", "screens", "words")


class BadWords(Exception):
    """The file isn't as it should be."""


def beside(rulebase: pathlib.Path) -> pathlib.Path | None:
    """The words of a rulebase, which lie beside it."""
    place = rulebase.with_name(f"{rulebase.stem}.words.toml")
    return place if place.is_file() else None


def upper(text: str) -> str:
    return text[:1].upper() + text[1:]


class Words:
    def __init__(self, base: Rulebase, said: Mapping[str, Any]) -> None:
        self.base, self.said = base, said
        self.language: str = said.get("language", "en")
        self.languages = [key for key in said if key != "language"] or [self.language]
        if self.language not in self.languages:
            raise BadWords(f"there is no [{self.language}], the language that the file names")
        for language in self.languages:
            part = said.get(language, {})
            if not isinstance(part, dict) or not re.fullmatch(r"[a-z]{2}", language):
                raise BadWords(f"{language} is neither `language` nor a table of a language of two letters")
            for key in part:
                if key not in PARTS:
                    raise BadWords(f"[{language}] has no {key}: it has {', '.join(PARTS)}")
            for phrase, entry in part.get("words", {}).items():
                for key, text in entry.items():
                    if key not in KEYS or not isinstance(text, KEYS[key]):
                        raise BadWords(f'[{language}.words."{phrase}"]: {key} isn\'t one of {", ".join(KEYS)}, or isn\'t of its sort')

    @classmethod
    def read(cls, base: Rulebase, path: pathlib.Path | None) -> Words:
        try:
            return cls(base, tomllib.loads(path.read_text(encoding="utf-8")) if path else {})
        except (tomllib.TOMLDecodeError, UnicodeError, OSError, AttributeError) as error:
            raise BadWords(str(error)) from None

    def part(self, language: str, name: str) -> Any:
        """What a language says, or else what the first one says."""
        return self.said.get(language, {}).get(name) or self.said.get(self.language, {}).get(name)

    def entry(self, language: str, phrase: str, key: str) -> Any:
        for chosen in (language, self.language):
            found = self.said.get(chosen, {}).get("words", {}).get(phrase, {}).get(key)
            if found:
                return found
        return None

    def title(self, language: str) -> str:
        return str(self.part(language, "title") or upper(self.base.goals[0] if self.base.goals else self.base.name))

    def about(self, language: str) -> str:
        return str(self.part(language, "about") or "")

    def screen(self, language: str, title: str) -> str:
        for chosen in (language, self.language):
            if title in self.said.get(chosen, {}).get("screens", {}):
                return str(self.said[chosen]["screens"][title])
        return title

    def entity(self, about: Attribute | Listed) -> str | None:
        found: str | None = about.entity if isinstance(about, Attribute) else about.of
        return found

    def named(self, text: str, entity: str | None, of: str | None) -> str:
        """A text with the instance's name in the place of its entity's phrase."""
        if of is None or entity is None:
            return text
        parts = re.split(rf"(?<![\w'’-]){re.escape(entity)}(?![\w-])", text)
        return of.join(parts) if len(parts) > 1 else f"{text} ({of})"

    def filled(self, text: str, entity: str | None, of: str | None) -> str:
        """A text of the file with the instance's name in the place of {member} or {name}."""
        if of is None:
            return text
        plain = (entity or "").removeprefix("the ")
        return of.join(re.split(rf"\{{(?:{re.escape(plain)}|name)\}}", text))

    def question(self, language: str, about: Attribute | Listed, of: str | None) -> str:
        said = self.entry(language, about.phrase, "question")
        if said:
            return self.filled(said, self.entity(about), of)
        text = self.named((about.question or about.phrase).removesuffix("?"), self.entity(about), of)
        return upper(text) + "?"

    def help(self, language: str, about: Attribute | Listed, of: str | None) -> str:
        return self.filled(self.entry(language, about.phrase, "help") or "", self.entity(about), of)

    def label(self, language: str, about: Attribute | Listed, of: str | None = None) -> str:
        said = self.entry(language, about.phrase, "label")
        return self.filled(said, self.entity(about), of) if said else upper(self.named(about.phrase, self.entity(about), of))

    def unit(self, language: str, phrase: str) -> str:
        return str(self.entry(language, phrase, "unit") or "")

    def is_constant(self, phrase: str) -> bool:
        return bool(self.entry(self.language, phrase, "constant"))

    def choices(self, language: str, phrase: str) -> dict[str, str]:
        return {str(value): str(label) for value, label in (self.entry(language, phrase, "choices") or {}).items()}

    def asked(self) -> list[Attribute | Listed]:
        """What people may be asked."""
        return [r for r in self.base.lists.values() if r.question] + [a for a in self.base.attributes.values() if a.rule is None]

    def faults(self) -> list[str]:
        """Which entries are missing, and which name nothing."""
        found = []
        for language in [key for key in self.languages if key in self.said]:
            part = self.said[language]
            entries, screens = part.get("words", {}), part.get("screens", {})
            for about in self.asked():
                if not entries.get(about.phrase, {}).get("question"):
                    found.append(f'[{language}] has no question for "{about.phrase}"')
            for goal in self.base.goals:
                if not entries.get(goal, {}).get("label"):
                    found.append(f'[{language}] has no label for the goal "{goal}"')
            for title in self.base.screens:
                if language != self.language and title not in screens:
                    found.append(f'[{language}] has no title for the screen "{title}"')
            for title in screens:
                if title not in self.base.screens and title != "Questions":
                    found.append(f'[{language}.screens] "{title}" names no screen')
            for phrase, entry in entries.items():
                found += self.entry_faults(language, phrase, entry)
        return found

    def entry_faults(self, language: str, phrase: str, entry: Mapping[str, Any]) -> list[str]:
        about: Attribute | Listed | None = self.base.attributes.get(phrase) or self.base.lists.get(phrase)
        where = f'[{language}.words."{phrase}"]'
        if about is None:
            return [f"{where} names nothing that is declared"]
        found = []
        plain = (self.entity(about) or "").removeprefix("the ")
        for key, text in entry.items():
            for name in re.findall(r"\{([^}]*)\}", text if isinstance(text, str) else ""):
                if not plain or name not in ("name", plain):
                    found.append(f"{where}: {key} has {{{name}}}, which names nothing")
        if "choices" in entry and not (isinstance(about, Attribute) and about.kind == "text"):
            found.append(f"{where}: choices are for texts alone")
        if "constant" in entry and language != self.language:
            found.append(f"{where}: constant stands in [{self.language}] alone")
        if "unit" in entry and not (isinstance(about, Attribute) and about.kind in ("number", "currency")):
            found.append(f"{where}: a unit is for numbers alone")
        return found
