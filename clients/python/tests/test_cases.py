"""Cases over the programs: what the client says is what the programs print."""
import os
import pathlib
import signal
import stat
import tempfile
import threading
import unittest
from datetime import date
from decimal import Decimal

from helping import EXAMPLES, base, needs_programs
from sennabasket import UNCERTAIN, UNKNOWN, BadText, Cases, Point, ProgramDied, ProgramSlow, Refused, RulebaseRefused, Timeline
from sennabasket import program
from sennabasket.program import found

DAY = date(2024, 3, 14)


@needs_programs
class OneCase(unittest.TestCase):
    def setUp(self) -> None:
        self.cases = Cases(base("benefit.txt"))
        self.addCleanup(self.cases.close)
        self.case = self.cases.open()

    def test_the_caseload_of_the_guide(self) -> None:
        case = self.case
        case.list("the people", ["Ada", "Bo"])
        for name in ("Ada", "Bo"):
            case.answer("the person is a dependant", False, of=name)
        case.answer("the person's income", 600, of="Ada")
        question = case.next()
        assert question
        self.assertEqual(question.text, 'what is the person\'s income of "Bo"?')
        self.assertEqual(question.point, Point("the person's income", "Bo"))
        case.suppose()
        case.answer("the person's income", Decimal(300), of="Bo")
        self.assertEqual(case.show("the monthly benefit"), Timeline.of(Decimal("475.00")))
        case.undo()
        self.assertEqual(case.show("the monthly benefit"), Timeline.of(UNKNOWN))
        self.assertEqual(case.goals()[0].state, "undecided")
        case.answer("the person's income", Timeline.of(0, [(date(2024, 1, 1), 300)]), of="Bo")
        goal = case.goals()[0]
        self.assertEqual((str(goal.line), goal.state), ("550; from 2024-01-01 475", "settled"))
        self.assertIsNone(case.next())
        self.assertEqual(case.stats()["instances"], 2)
        self.assertEqual(case.show("the people"), ("Ada", "Bo"))

    def test_refusals(self) -> None:
        case = self.case
        for act, sort, number in [
            (lambda: case.answer("the monthly benefit", 5), "change", 1),
            (lambda: case.answer("the weather", 5), "command", 2),
            (lambda: case.answer("the person's income", 5, of="Zoe"), "change", 1),
            (lambda: case.list("the people", ["Ada", "Ada"]), "change", 1),
            (lambda: case.show("the person's income", of="Zoe"), "point", 0),
            (lambda: case.report("the person's income", DAY, of="Zoe"), "point", 0),
            (case.undo, "undo", 0),
        ]:
            with self.assertRaises(Refused) as refused:
                act()
            self.assertEqual((refused.exception.sort, refused.exception.number), (sort, number))
        self.assertEqual(case.lines, [])
        with self.assertRaises(BadText):
            case.list("the people", ['Ada"\n"1" goals'])

    def test_suppositions(self) -> None:
        for _ in range(4):
            self.case.suppose()
        with self.assertRaises(Refused):
            self.case.suppose()
        self.case.list("the people", [])
        self.assertEqual(self.case.lines, ["list the people = none"])
        self.cases.kill()
        self.assertEqual(self.case.show("the people"), ())
        for _ in range(4):
            self.case.undo()
        self.assertIs(self.case.show("the people"), UNKNOWN)
        self.assertEqual(self.case.lines, [])

    def test_kept_lines(self) -> None:
        """Of answers to one point the last one is kept, and what is carried on is the same case."""
        case = self.case
        case.list("the people", ["Ada", "Bo"])
        case.answer("the person's income", 5, of="Ada")
        case.answer("the person is a dependant", UNCERTAIN, of="Ada")
        case.answer("the person's income", 6, of="Ada")
        case.answer("the person's income", 7, of="Bo")
        case.withdraw("the person's income", of="Bo")
        self.assertEqual(
            case.lines,
            ['list the people = "Ada", "Bo"', 'answer the person is a dependant of "Ada" = uncertain', 'answer the person\'s income of "Ada" = 6'],
        )
        other = self.cases.open(case.lines)
        self.assertEqual((other.goals(), other.next(), other.saved()), (case.goals(), case.next(), case.saved()))
        case.forget("the people")
        self.assertIs(case.show("the people"), UNKNOWN)
        self.assertEqual(other.show("the people"), ("Ada", "Bo"))

    def test_close_and_on(self) -> None:
        self.case.list("the people", ["Ada"])
        self.case.close()
        self.case.close()
        self.assertEqual(self.case.show("the people"), ("Ada",))

    def test_hostile_names(self) -> None:
        """A name is a name, whatever is in it, and another case doesn't see it."""
        names = ['"', '" of "x', "#1", "~1", '"1" goals', "a; from 2024-01-01 b", "<script>", "日本 ü", "none", "x\u2028y", "'", "a = b", 'of "a" = 5']
        other = self.cases.open()
        self.case.list("the people", names)
        self.assertEqual(self.case.show("the people"), tuple(names))
        for name in names:
            self.case.answer("the person's income", 1, of=name)
            self.assertEqual(self.case.show("the person's income", of=name), Timeline.of(1))
        income = [Point("the person's income", name) for name in names]
        self.assertEqual(self.case.points, (Point("the people"), *income))
        report = self.case.report("the monthly benefit", DAY)
        self.assertLessEqual({p.of for p in report.unanswered}, set(names))
        self.assertIs(other.show("the people"), UNKNOWN)


@needs_programs
class Reports(unittest.TestCase):
    def test_the_report_of_the_guide(self) -> None:
        lines = [line for line in (EXAMPLES / "training_input.txt").read_text().split("\n") if line.startswith(("answer", "list"))]
        with Cases(base("training.txt")) as cases:
            for count in range(len(lines) + 1):
                report = cases.open(lines[:count]).report("the allowance of March", date(2024, 4, 1))
                self.assertEqual(report.point, Point("the allowance of March"))
                self.assertEqual(report.asked.origin, "rule")

    def test_a_screen(self) -> None:
        with Cases(base("permit.txt")) as cases:
            screen = cases.open().screen()
            assert screen
            self.assertEqual(screen.title, "Home")
            self.assertEqual([q.point.phrase for q in screen.questions], ["the resident lives in the street", "the resident has a garage"])
            self.assertIsNone(cases.open(["answer the resident lives in the street = false"]).screen())


@needs_programs
class ManyCases(unittest.TestCase):
    def test_the_program_dies(self) -> None:
        """Each case goes on where it was, on a new program."""
        with Cases(base("benefit.txt")) as cases:
            held = [cases.open() for _ in range(20)]
            for number, case in enumerate(held):
                case.list("the people", [f"P{number}"])
            for _ in range(3):
                assert cases.running
                os.kill(cases.running.process.pid, signal.SIGKILL)
                for number, case in enumerate(held):
                    self.assertEqual(case.show("the people"), (f"P{number}",))
            self.assertEqual(cases.generation, 4)

    def test_a_program_takes_so_much_input(self) -> None:
        """Before it has taken all that it may, it is started again."""
        before, program.MOST_GIVEN = program.MOST_GIVEN, 200
        try:
            with Cases(base("benefit.txt")) as cases:
                case = cases.open()
                for number in range(10):
                    case.list("the people", [f"P{number}"])
                    self.assertEqual(case.show("the people"), (f"P{number}",))
                self.assertGreater(cases.generation, 3)
        finally:
            program.MOST_GIVEN = before

    def test_threads(self) -> None:
        with Cases(base("benefit.txt")) as cases:
            wrong = []

            def work(number: int) -> None:
                case = cases.open()
                for turn in range(20):
                    case.list("the people", [f"P{number}", f"T{turn}"])
                    if case.show("the people") != (f"P{number}", f"T{turn}"):
                        wrong.append(number)

            threads = [threading.Thread(target=work, args=(number,)) for number in range(8)]
            for thread in threads:
                thread.start()
            for thread in threads:
                thread.join()
            self.assertEqual(wrong, [])

    def program(self, text: str) -> str:
        folder = tempfile.TemporaryDirectory()
        self.addCleanup(folder.cleanup)
        path = pathlib.Path(folder.name) / "desk"
        path.write_text(f"#!/bin/sh\n{text}\n")
        path.chmod(path.stat().st_mode | stat.S_IXUSR)
        return str(path)

    def test_a_program_that_is_slow(self) -> None:
        with Cases(base("benefit.txt"), desk=self.program("exec sleep 60"), seconds=0.3) as cases:
            case = cases.open(["list the people = none"])
            with self.assertRaises(ProgramSlow):
                case.goals()
            self.assertEqual(case.lines, ["list the people = none"])

    def test_programs_that_die(self) -> None:
        for text in ("exit 5", "read x; exit 7", "echo hello; exit 0", "kill -9 $$"):
            with self.subTest(text=text), Cases(base("benefit.txt"), desk=self.program(text)) as cases:
                with self.assertRaises(ProgramDied):
                    cases.open().list("the people", ["Ada"])
        with Cases(base("benefit.txt"), desk="/nowhere/desk") as cases, self.assertRaises(ProgramDied):
            cases.open().goals()

    def test_a_line_that_kills(self) -> None:
        """A line on which the program dies isn't kept; the others are."""
        desk = self.program(f'exec sed -u "/Bomb/q7" | {found("desk")} "$@"; exit 9')
        with Cases(base("benefit.txt"), desk=desk) as cases:
            case, other = cases.open(), cases.open()
            case.list("the people", ["Ada"])
            other.list("the people", ["Bo"])
            with self.assertRaises(ProgramDied):
                case.list("the people", ["Bomb"])
            self.assertEqual(case.show("the people"), ("Ada",))
            self.assertEqual(other.show("the people"), ("Bo",))

    def test_memory_is_bounded(self) -> None:
        # Too little for the program and the C library: it can't even begin.
        with Cases(base("benefit.txt"), memory=1 << 20) as cases, self.assertRaises(ProgramDied):
            cases.open().goals()

    def test_a_rulebase_that_has_changed(self) -> None:
        with tempfile.TemporaryDirectory() as folder:
            file = pathlib.Path(folder) / "claimant.txt"
            file.write_text((EXAMPLES / "claimant.txt").read_text())
            changed = base("claimant.txt")
            changed.folder, kept = pathlib.Path(folder), changed.folder
            try:
                with Cases(changed) as cases:
                    case = cases.open()
                    case.answer("the claimant is an adult", True)
                    file.write_text("goal the weather\n")
                    cases.kill()
                    with self.assertRaises(RulebaseRefused):
                        case.goals()
                    self.assertEqual(case.lines, ["answer the claimant is an adult = true"])
            finally:
                changed.folder = kept


if __name__ == "__main__":
    unittest.main()
