"""What the rule files of a folder declare, and the words of the rule of a line."""
from __future__ import annotations

import csv
import io
import pathlib
import re

from .reading import Fault, Node, read


class Rules:
    """Phrases, their negative forms, and the blocks of `members` lists, of a main file and those that it names."""

    def __init__(self, folder: pathlib.Path, main: str):
        self.folder = folder
        self.texts: dict[str, list[str]] = {}
        self.phrases: dict[str, str] = {}
        self.members: dict[str, str] = {}
        verbs: dict[str, str] = {}
        files = [main]
        for name in files:
            text = read(folder / name)
            self.texts[name] = text.splitlines()
            if name.endswith(".csv"):
                continue
            files += [named for named in re.findall(r'^(?:include|table) *"([^"]*)"', text, re.M) if named not in files]
            for said, denied in re.findall(r"^verb ([^/]*)/([^/]*)/", text, re.M):
                verbs[said.strip()] = denied.strip()
            self.declare(text, verbs)
        for name, lines in self.texts.items():
            for number, line in enumerate(lines):
                if found := re.match(r"members (.*) from (.*) if", line):
                    self.members[found[1]] = found[2] + "\n" + "\n".join(self.block(name, number + 1)[1:])
                    self.phrases[found[1]] = found[1]

    def declare(self, text: str, verbs: dict[str, str]) -> None:
        for subject, verb, rest in re.findall(r"^(?:\t|  )bool (.*?) *\[(.*?)\] *(.*?)\s*$", text, re.M):
            joined = " ".join(filter(None, (subject, verb, rest)))
            self.phrases[joined] = joined
            self.phrases[" ".join(filter(None, (subject, verbs.get(verb, ""), rest)))] = joined
        kinds = r"^(?:\t|  )(?:number|currency|text|date|reference|every) ([^:\n]*?)\s*(?::.*)?$"
        for phrase in re.findall(kinds, text, re.M) + re.findall(r"^(?:\t|  )in [^:\n]*: *(.*?)\s*$", text, re.M):
            self.phrases[phrase] = phrase

    def block(self, name: str, line: int) -> list[str]:
        """The rule that begins on a line, or the whole table."""
        lines = self.texts[name]
        if name.endswith(".csv"):
            return lines
        end = next((n for n in range(line, len(lines)) if lines[n].strip() and not lines[n][0].isspace()), len(lines))
        return lines[line - 1 : end]

    def words(self, node: Node) -> list[str]:
        """The rule of a line in its own words, with the comment that is directly above it."""
        if node.file not in self.texts:
            return []
        lines, start = self.texts[node.file], node.line - 1
        while start > 0 and lines[start - 1].startswith("#") and not node.file.endswith(".csv"):
            start -= 1
        return lines[start : node.line - 1] + self.block(node.file, node.line)

    def mentions(self, node: Node) -> list[str]:
        """The phrases that the rule of a line mentions, in written order."""
        if node.file not in self.texts:
            raise Fault(f"the report names {node.file}, which {self.folder} doesn't have among the rulebase's files")
        if node.file.endswith(".csv"):
            records = list(csv.reader(io.StringIO("\n".join(self.block(node.file, 1)))))
            heads = [head for head in records[0] if not head.startswith("=")]
            column = next((n for n, head in enumerate(records[0]) if head.lstrip("= ").strip() == node.phrase), 0)
            return self.phrases_in("\n".join(heads + [record[column] for record in records[1:] if column < len(record)]))
        block = self.block(node.file, node.line)
        first = re.sub(rf"^{re.escape(node.phrase)}( =| if)?", "", block[0])
        return self.phrases_in("\n".join([first, *block[1:]]))

    def phrases_in(self, text: str) -> list[str]:
        found, place = [], 0
        tokens = re.findall(r'"(?:[^"]|"")*"|[\w\'’.-]+|\S', text)
        longest = max((len(phrase.split(" ")) for phrase in self.phrases), default=0)
        while place < len(tokens):
            for count in range(min(longest, len(tokens) - place), 0, -1):
                words = " ".join(tokens[place : place + count])
                if words in self.phrases:
                    found.append(self.phrases[words])
                    if words in self.members:
                        found += self.phrases_in(self.members[words])
                    place += count
                    break
            else:
                place += 1
        return list(dict.fromkeys(found))


def rules_over(folder: pathlib.Path, name: str, nodes: list[Node]) -> Rules | None:
    """The rules of a main file, if it has all files that the report names and declares all phrases."""
    try:
        rules = Rules(folder, name)
    except Fault:
        return None
    phrases = set(rules.phrases.values())
    fits = all((not node.file or node.file in rules.texts) and node.phrase in phrases for node in nodes)
    return rules if fits else None
