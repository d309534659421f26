"""What a rulebase declares: attributes with their kinds and bounds, lists, goals, questions and files."""
from __future__ import annotations

import dataclasses
import pathlib
import re

from .programs import Fault, read

KINDS = ("bool", "number", "currency", "text", "date")


@dataclasses.dataclass
class Attribute:
    phrase: str
    kind: str
    entity: str
    question: str
    least: str = ""
    most: str = ""
    decimals: int = 4
    denied: str = ""


@dataclasses.dataclass
class Relation:
    """A list: its source entity, its target entity, and how it is declared: in, one, many or every."""

    phrase: str
    source: str
    target: str
    sort: str


@dataclasses.dataclass
class Block:
    file: str
    line: int
    lines: list[tuple[int, str]]  # the line's number, and its text without indentation removed


@dataclasses.dataclass
class Declared:
    main: pathlib.Path
    files: list[str]
    tables: list[str]
    attributes: dict[str, Attribute]
    relations: dict[str, Relation]
    goals: list[str]
    blocks: list[Block]  # rules and members blocks
    parents: dict[str, str]
    texts: dict[str, list[str]]

    def questions(self) -> dict[str, str]:
        """Each question without its instance and its mark, with the phrase that it asks for."""
        found = {f"which are {phrase}": phrase for phrase in self.relations}
        found.update({attribute.question: phrase for phrase, attribute in self.attributes.items()})
        return found


def level(line: str) -> int:
    blanks = re.match(r"[ \t]*", line)[0]  # type: ignore[index]
    return blanks.count("\t") + blanks.count(" ") // 2


def joined(*words: str) -> str:
    return " ".join(word.strip() for word in words if word.strip())


def blocks_of(name: str, lines: list[str]) -> list[Block]:
    found: list[Block] = []
    for number, line in enumerate(lines, 1):
        if not line.strip() or line.lstrip().startswith("#"):
            continue
        if level(line) == 0:
            found.append(Block(name, number, []))
        if found:
            found[-1].lines.append((number, line.rstrip()))
    return found


def declared(main: pathlib.Path) -> Declared:
    """Reads the files of a rulebase that `opa check` accepts."""
    if not main.is_file():
        raise Fault(f"there is no rulebase {main}")
    texts = {main.name: read(main).splitlines()}
    named = re.findall(r'^(include|table)\s+"([^"]*)"', "\n".join(texts[main.name]), re.M)
    files = [main.name] + [name for word, name in named if word == "include"]
    tables = [name for word, name in named if word == "table"]
    for name in files[1:] + tables:
        texts[name] = read(main.parent / name).splitlines()
    found = Declared(main, files, tables, {}, {}, [], [], {"": ""}, texts)
    verbs: dict[str, tuple[str, str, str]] = {}
    for name in files:
        for block in blocks_of(name, texts[name]):
            take(found, verbs, block)
    return found


def take(found: Declared, verbs: dict[str, tuple[str, str, str]], block: Block) -> None:
    head = block.lines[0][1].strip()
    word = head.split(" ", 1)[0]
    if word == "verb":
        said, denied, ask, rest = [part.strip() for part in head[5:].split("/")]
        verbs[said] = (denied, ask, rest)
    elif word == "goal":
        found.goals.append(head[5:].strip())
    elif word in ("global", "entity"):
        entity = "" if word == "global" else head[7:].strip()
        for _, line in block.lines[1:]:
            declare(found, verbs, entity, line.strip())
    elif word not in ("screen", "include", "table"):
        found.blocks.append(block)


def declare(found: Declared, verbs: dict[str, tuple[str, str, str]], entity: str, line: str) -> None:
    word, rest = line.split(" ", 1)
    rest = rest.strip()
    if word == "bool":
        parts = re.fullmatch(r"(.*?)\s*\[\s*(.*?)\s*\]\s*(.*)", rest)
        if not parts or parts[2] not in verbs:
            raise Fault(f"{found.main}: can't read the declaration {line}")
        denied, ask, tail = verbs[parts[2]]
        phrase = joined(parts[1], parts[2], parts[3])
        question = joined(ask, parts[1], tail, parts[3])
        found.attributes[phrase] = Attribute(phrase, word, entity, question, denied=joined(parts[1], denied, parts[3]))
    elif word in KINDS:
        phrase, _, bounds = (part.strip() for part in rest.partition(":"))
        made = Attribute(phrase, word, entity, f"what is {phrase}", decimals=2 if word == "currency" else 4)
        for key, value in re.findall(r"(from|to|decimals)\s+(-?[\d.]+)", bounds):
            if key == "decimals":
                made.decimals = int(value)
            elif key == "from":
                made.least = value
            else:
                made.most = value
        found.attributes[phrase] = made
    else:
        left, _, right = (part.strip() for part in rest.partition(":"))
        if word == "in":
            source = "" if left == "global" else left
            found.relations[right] = Relation(right, source, entity, "in")
            found.parents[entity] = source
        elif word == "every":
            found.relations[left] = Relation(left, "", right, "every")
        elif word == "reference":
            sort, target = right.split(" ", 1)
            found.relations[left] = Relation(left, entity, target.strip(), sort)
