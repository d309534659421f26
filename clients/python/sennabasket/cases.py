"""Cases over a rulebase: many on one running `desk cases`, each with the lines that made it."""
from __future__ import annotations

import os
import re
import tempfile
import threading
from collections.abc import Iterable, Sequence
from dataclasses import dataclass
from datetime import date

from . import program, texts
from .errors import Fault, ProgramDied, ProgramSlow, Refused
from .reports import Report
from .rulebase import Point, Question, Rulebase
from .values import UNKNOWN, Missing, Timeline, Value, day, written

Names = tuple[str, ...]
Lines = list[str]  # inside of Case the word `list` is a command


@dataclass(frozen=True)
class Goal:
    """A goal as `goals` prints it; `state` is undecided, decided or settled."""

    phrase: str
    line: Timeline
    state: str


Goals = list[Goal]


@dataclass(frozen=True)
class Screen:
    title: str
    questions: tuple[Question, ...]


@dataclass(frozen=True)
class Look:
    """What one `opa run` over a case's lines prints: the screen, if there is a question, and the reports that were asked for."""

    screen: Screen | None
    reports: tuple[Report, ...]


class Cases:
    """Cases over one rulebase. They share one `desk cases`, which is started again where it died; then each case's lines are replayed.

    One exchange happens at a time, so threads may share it. Behind a fork it begins with a process of its own.
    """

    def __init__(
        self, base: Rulebase, *, desk: str | None = None, opa: str | None = None, seconds: float = program.SECONDS, memory: int = program.MEMORY
    ) -> None:
        self.base, self.seconds, self.memory = base, seconds, memory
        self.desk, self.opa = program.found("desk", desk), program.found("opa", opa)
        self.lock = threading.RLock()
        self.running: program.Desk | None = None
        self.generation = 0
        self.count = 0
        self.owner = os.getpid()

    def __enter__(self) -> Cases:
        return self

    def __exit__(self, *_: object) -> None:
        self.close()

    def close(self) -> None:
        """Ends the program. Cases can be used afterwards: it is started again."""
        with self.lock:
            if self.running and self.owner == os.getpid():
                self.running.stop()
            self.running = None

    def open(self, lines: Iterable[str] = ()) -> Case:
        """A new case, or one that is carried on from the lines of an earlier one."""
        with self.lock:
            self.count += 1
            return Case(self, f"{self.count}", [texts.command(line) for line in lines])

    def process(self) -> program.Desk:
        if self.running is None or self.owner != os.getpid() or not self.running.is_running or self.running.sent > program.MOST_GIVEN:
            self.close()
            self.running, self.owner = program.Desk([self.desk, "cases", self.base.name], self.base.folder, self.memory), os.getpid()
            self.generation += 1
        return self.running

    def exchange(self, case: Case, command: str) -> list[str]:
        """What a case's command prints. A program that dies is started again once, and the command given again."""
        with self.lock:
            for is_last in (False, True):
                try:
                    desk = self.process()
                    if case.generation != self.generation:
                        self.replay(desk, case)
                    return self.given(desk, case, [command])
                except ProgramSlow:
                    self.kill()
                    raise
                except ProgramDied:
                    self.kill()
                    if is_last:
                        raise
            raise AssertionError

    def kill(self) -> None:
        if self.running:
            self.running.process.kill()
        self.close()

    def given(self, desk: program.Desk, case: Case, commands: Sequence[str]) -> list[str]:
        front = texts.quoted(case.name, texts.MOST_CASE_NAME) + " "
        printed = desk.exchange([front + texts.command(command) for command in commands], self.seconds)
        if any(not line.startswith(front) for line in printed):
            raise Fault(f"the program printed something for another case: {printed[0][:100]}")
        return [line.removeprefix(front) for line in printed]

    def replay(self, desk: program.Desk, case: Case) -> None:
        lines = ["close"] + [line for level in case.levels for line in ("suppose", *level)][1:]
        for line in self.given(desk, case, lines):
            if line.startswith("refused"):
                raise Refused(line, f"a kept line of the case, over {self.base.name}")
        case.generation = self.generation

    def run(self, lines: Sequence[str], commands: Sequence[str]) -> str:
        """What `opa run` prints for these commands behind a case's lines."""
        all_lines = [texts.command(line) for line in (*lines, *commands)]
        return program.run([self.opa, "run", self.base.name], self.base.folder, all_lines, self.memory, self.seconds)


class Case:
    """One case. `lines` are the accepted commands that make it: keep them, and `Cases.open(lines)` carries it on."""

    def __init__(self, cases: Cases, name: str, lines: Lines) -> None:
        self.cases, self.name = cases, name
        self.levels = [lines]
        self.generation = -1

    @property
    def lines(self) -> Lines:
        return [line for level in self.levels for line in level]

    @property
    def points(self) -> tuple[Point, ...]:
        """What the lines speak of, each once, in the order in which they first do."""
        said = (re.match(rf"[a-z]+ ((?:[^\"]|{texts.QUOTED})*?)(?: = .*)?$", line) for line in self.lines)
        return tuple(dict.fromkeys(Point.read(found[1]) for found in said if found))

    # Changes

    def answer(self, phrase: str, value: Value | int | Timeline, of: str | None = None) -> None:
        """Holds an answer: one value for all days, or a timeline."""
        where = texts.point(phrase, of)
        said = str(value) if isinstance(value, Timeline) else written(value)
        self.change(f"answer {where} = {said}", drops=(f"answer {where} =", f"withdraw {where}"))

    def withdraw(self, phrase: str, of: str | None = None) -> None:
        """Takes an answer away."""
        where = texts.point(phrase, of)
        self.change(f"withdraw {where}", drops=(f"answer {where} =", f"withdraw {where}"))

    def list(self, phrase: str, names: Iterable[str], of: str | None = None) -> None:
        """Says who is listed; without a name it is known that nobody is."""
        quoted = ", ".join(texts.name(name) for name in names) or "none"
        self.change(f"list {texts.point(phrase, of)} = {quoted}")

    def forget(self, phrase: str, of: str | None = None) -> None:
        """Makes a list unknown."""
        self.change(f"forget {texts.point(phrase, of)}")

    def change(self, line: str, drops: tuple[str, ...] = ()) -> None:
        """Gives a command that prints nothing, and keeps its line. Earlier lines on the same point, which it replaces, are dropped."""
        with self.cases.lock:
            self.ask(line, 0)
            level = self.levels[-1]
            level[:] = [kept for kept in level if kept not in drops and not any(d.endswith("=") and kept.startswith(f"{d} ") for d in drops)]
            if not line.startswith("withdraw ") or len(self.levels) > 1:
                level.append(line)

    def suppose(self) -> None:
        """Keeps the case: what is said from now on is supposed, up to `undo`. At most four suppositions stand on one another."""
        with self.cases.lock:
            self.ask("suppose", 1)
            self.levels.append([])

    def undo(self) -> None:
        """Takes the last supposition back."""
        with self.cases.lock:
            self.ask("undo", 1)
            self.levels.pop()

    def close(self) -> None:
        """Ends the case in the program; its lines are kept here, and the next command opens it again."""
        with self.cases.lock:
            if self.generation == self.cases.generation and self.cases.running:
                self.ask("close", 1)
            self.generation = -1

    # Looks

    def ask(self, command: str, count: int) -> Lines:
        """The lines that a command prints; a refusal is raised."""
        printed = self.cases.exchange(self, command)
        if printed and printed[0].startswith("refused: "):
            raise Refused(printed[0], command)
        if len(printed) != count:
            raise Fault(f"{command[:100]} printed {len(printed)} lines")
        return printed

    def show(self, phrase: str, of: str | None = None) -> Timeline | Names | Missing:
        """The values of an attribute, or the names of a list (UNKNOWN where nobody has said it)."""
        where = texts.point(phrase, of)
        text = self.ask(f"show {where}", 1)[0].removeprefix(f"{where}: ")
        if phrase in self.cases.base.lists:
            return UNKNOWN if text == "unknown" else tuple(texts.names(text))
        return Timeline.read(text)

    def goals(self) -> Goals:
        phrases = self.cases.base.goals
        found = []
        for phrase, line in zip(phrases, self.ask("goals", len(phrases))):
            said = re.fullmatch(r"(.*) \((undecided|decided|settled)\)", line.removeprefix(f"{phrase}: "))
            if not said:
                raise Fault(f"this is no goal: {line[:100]}")
            found.append(Goal(phrase, Timeline.read(said[1]), said[2]))
        return found

    def next(self) -> Question | None:
        """The question that is asked next."""
        text = self.ask("next", 1)[0]
        return None if text == "no question" else self.cases.base.question(text)

    def stats(self) -> dict[str, int]:
        words = self.ask("stats", 1)[0].split()
        return {word: int(number) for word, number in zip(words[::2], words[1::2])}

    # What `desk cases` doesn't take: `opa run` over the case's lines

    def look(self, reports: Iterable[tuple[Point, date]] = ()) -> Look:
        """The screen and some reports by one `opa run` over the case's lines, what is supposed among them."""
        wanted = (*reports,)
        printed = self.cases.run(self.lines, ["screen", *(f"report {point} at {day(at)}" for point, at in wanted)])
        lines, found = printed.split("\n")[:-1], []
        end = 1
        while end < len(lines) and lines[end].startswith("  "):
            end += 1
        screen = None
        if lines and lines[0].startswith("["):
            questions = tuple(self.cases.base.question(line[2:]) for line in lines[1:end])
            screen = Screen(lines[0][1:-1], questions)
        elif lines[:1] != ["no question"]:
            raise Fault(f"the case's lines over {self.cases.base.name} print {printed[:100]!r}")
        for point, _ in wanted:
            if lines[end : end + 1] == ["refused: point"]:
                raise Refused("refused: point", f"report {point}")
            stop = lines.index("end", end) + 1
            found.append(Report.read("\n".join(lines[end:stop]) + "\n"))
            end = stop
        return Look(screen, tuple(found))

    def screen(self) -> Screen | None:
        """The screen of the next question, with what else is needed that lies on it."""
        return self.look().screen

    def report(self, phrase: str, at: date, of: str | None = None) -> Report:
        """Why a point has its value on a day."""
        return self.look([(Point(phrase, of), at)]).reports[0]

    def saved(self) -> bytes:
        """The text of `save`: a file that `load` holds in a run."""
        with tempfile.TemporaryDirectory(prefix="case") as folder:
            file = os.path.join(folder, "case.json")
            printed = self.cases.run(self.lines, [f"save {texts.quoted(file, texts.MOST_NAME)}"])
            if printed != "saved\n":
                raise Refused(printed.strip().split("\n")[-1], "save")
            with open(file, "rb") as kept:
                return kept.read()
