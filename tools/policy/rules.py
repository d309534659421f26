"""The rules of a rulebase as trees, with the line of each row and of each operand."""
from __future__ import annotations

import csv
import dataclasses
import io

from .declared import Block, Declared, level
from .programs import Fault
from .trees import COMPARISONS, Members, Reader, Tree, over

Lines = list[tuple[int, str]]
HEADS = {"all": "all", "both": "all", "any": "any", "either": "any"}


@dataclasses.dataclass(eq=False)
class Rule:
    """A rule: what it concludes, where it begins, and its tree (a `table` has rows and one last value)."""

    phrase: str
    file: str
    line: int
    tree: Tree

    def mentions(self) -> set[str]:
        return {part.name for part in self.tree.walk() if part.sort == "attribute"}


class Rules:
    """All rules of a rulebase, by file, line and phrase."""

    def __init__(self, declared: Declared) -> None:
        self.declared = declared
        self.members: dict[str, Members] = {}
        self.rules: list[Rule] = []
        for block in declared.blocks:
            if block.lines[0][1].startswith("members "):
                self.concluded_list(block)
        for block in declared.blocks:
            if not block.lines[0][1].startswith("members "):
                self.rules.append(self.rule(block))
        for name in declared.tables:
            self.rules += self.table(name)
        self.of_phrase = {rule.phrase: rule for rule in self.rules}

    def read(self, file: str, line: int, text: str) -> Tree:
        return Reader(self.declared, self.members, file, line, text).whole()

    def concluded_list(self, block: Block) -> None:
        head = block.lines[0][1].strip()
        phrase, _, base = head[len("members ") : -len(" if")].partition(" from ")
        self.members[phrase.strip()] = Members(base.strip(), self.group(block.file, block.lines[1:], 1))

    def rule(self, block: Block) -> Rule:
        line, head = block.lines[0]
        head, rest = head.strip(), block.lines[1:]
        reader = Reader(self.declared, self.members, block.file, line, head)
        phrase = self.headed(reader, head)
        if reader.peek() == "if":
            return Rule(phrase, block.file, line, self.group(block.file, rest, 1))
        reader.take("=")
        if rest:
            return Rule(phrase, block.file, line, self.rows(block.file, line, rest))
        return Rule(phrase, block.file, line, self.read(block.file, line, head[reader.spans[reader.at][0] :]))

    def headed(self, reader: Reader, head: str) -> str:
        """The phrase that a rule's first line begins with: it ends at `if` or `=`."""
        for phrase in sorted(self.declared.attributes, key=len, reverse=True):
            if head.startswith(phrase) and head[len(phrase) :].lstrip()[:1] in ("=", "i"):
                while reader.at < len(reader.tokens) and reader.spans[reader.at][0] < len(phrase):
                    reader.at += 1
                if reader.peek() in ("if", "="):
                    return phrase
        raise Fault(f"{reader.file}:{reader.line}: no attribute is declared for {head}")

    def rows(self, file: str, line: int, lines: Lines) -> Tree:
        found, at = Tree("table", file=file, line=line), 0
        while at < len(lines):
            number, text = lines[at]
            text = text.strip()
            end = next((n for n in range(at + 1, len(lines)) if level(lines[n][1]) <= 1), len(lines))
            if text.endswith("otherwise"):
                found.parts.append(Tree("row", parts=[self.read(file, number, text[: -len("otherwise")])], file=file, line=number, text=text))
            else:
                value, cond = self.read(file, number, text[: -len("if")]), self.group(file, lines[at + 1 : end], 2)
                found.parts.append(Tree("row", parts=[cond, value], file=file, line=number, text=text))
            at = end
        return found

    def group(self, file: str, lines: Lines, depth: int) -> Tree:
        """The items of one level, joined by `and` or `or`."""
        items: list[Tree] = []
        joiner, at = "", 0
        while at < len(lines):
            number, text = lines[at]
            text = text.strip()
            end = next((n for n in range(at + 1, len(lines)) if level(lines[n][1]) <= depth), len(lines))
            if end > at + 1:
                item = self.headed_group(file, number, text, self.group(file, lines[at + 1 : end], depth + 1))
                item.text, item.line, item.file = text, number, file
                if end < len(lines):
                    joiner, end = lines[end][1].strip(), end + 1
            else:
                word = text.rsplit(" ", 1)[-1]
                if word in ("and", "or"):
                    joiner, text = word, text[: -len(word)].rstrip()
                item = self.read(file, number, text)
                item.text = text
            items.append(item)
            at = end
        if len(items) == 1:
            return items[0]
        return Tree("all" if joiner == "and" else "any", parts=items, file=file, line=lines[0][0], is_written=True)

    def headed_group(self, file: str, number: int, head: str, inner: Tree) -> Tree:
        if head in HEADS:
            return inner if inner.is_written else Tree("all", parts=[inner], file=file, line=number)
        if head == "it is not true that":
            return Tree("not", parts=[inner], file=file, line=number)
        for front, name in (("for all of ", "ForAll"), ("for at least one of ", "Exists")):
            if head.startswith(front):
                return over(Reader(self.declared, self.members, file, number, head), name, head[len(front) :].strip(), [inner])
        raise Fault(f"{file}:{number}: can't read {head}")

    def table(self, name: str) -> list[Rule]:
        records = list(csv.reader(io.StringIO("\n".join(self.declared.texts[name]))))
        heads = records[0]
        conditions = [self.read(name, 1, head) for head in heads if not head.startswith("=")]
        found = []
        for column in range(len(conditions), len(heads)):
            tree = Tree("table", file=name, line=1)
            for number, record in enumerate(records[1:], 2):
                value = self.read(name, number, record[column])
                row = Tree("row", parts=[value], file=name, line=number, text=",".join(record))
                if number <= len(records) - 1 and conditions:
                    cells = [self.cell(name, number, head, cell) for head, cell in zip(conditions, record) if cell.strip()]
                    row.parts.insert(0, Tree("all", parts=cells, file=name, line=number))
                tree.parts.append(row)
            found.append(Rule(heads[column].lstrip("= ").strip(), name, 1, tree if conditions else tree.parts[0].parts[0]))
        return found

    def cell(self, file: str, number: int, head: Tree, cell: str) -> Tree:
        cell = cell.strip()
        sign = next((sign for sign in sorted(COMPARISONS, key=len, reverse=True) if cell.startswith(sign)), "")
        literal = self.read(file, number, cell[len(sign) :])
        return Tree("operation", sign or "=", [head, literal], file=file, line=number)
