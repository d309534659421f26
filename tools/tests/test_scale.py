"""docs/SCALE.md: its commands as they are there, over workers of this machine, of which one dies; and what joins the parts."""
from __future__ import annotations

import csv
import io
import os
import pathlib
import re
import shutil
import subprocess
import sys
import tempfile
import unittest
from decimal import Decimal

from tools.tests.base import DESK, EXAMPLES, OPA, TOP, ToolTest
from tools.tests.machines import SSHD, Machines, dying, free_port, has_module, is_open
from working_out.food import Household  # (base puts tools/ on the path)
from working_out.food_runs import GOALS, OF_ALL, OF_MEMBER
from working_out.values import Day, spelled

PAGE = (TOP / "docs" / "SCALE.md").read_text()
BLOCKS: dict[str, str] = dict(re.findall(r"^<!-- run (\w+) -->\n\n((?:    [^\n]*\n)+)", PAGE, re.M))
DASK = has_module("/usr/bin/python3", "distributed") and shutil.which("dask-worker")
ITSELF = "kill -9 $$"


def given(row: dict[str, str], columns: tuple[tuple[str, str], ...]) -> dict[str, object]:
    """What a row says, by the names of tools/working_out."""
    said = lambda text: text == "true" if text in ("true", "false") else Decimal(text)
    return {name: said(row[phrase]) for name, phrase in columns if name != "born"}


class PageTest(ToolTest):
    """The folder of all has the tools, the examples, and a table that one process has decided."""

    made = pathlib.Path()

    @classmethod
    def setUpClass(cls) -> None:
        if PageTest.made.name:
            return
        PageTest.made = pathlib.Path(tempfile.mkdtemp(prefix="scale-test-"))
        unittest.addModuleCleanup(shutil.rmtree, PageTest.made)
        (cls.made / "tools").symlink_to(TOP / "tools")
        shutil.copytree(EXAMPLES, cls.made / "examples")
        done = cls.tried("tables")
        assert done.returncode == 0, done.stderr

    @classmethod
    def tried(cls, *names: str, desk: object = DESK, port: int = 8786, swap: dict[str, str] | None = None, **more: str) -> subprocess.CompletedProcess[str]:
        """Runs blocks of the page in one shell."""
        text = "".join(BLOCKS[name].replace("8786", str(port)) for name in ("first", *names))
        for old, new in (swap or {}).items():
            assert old in text
            text = text.replace(old, new)
        text = f"set -e\ntrap 'kill $(jobs -p) 2>/dev/null || true' EXIT\n{text}"
        env = {**os.environ, "OPA": OPA, "DESK": str(desk), "HOME": str(cls.made), **more}
        return subprocess.run(["bash", "-c", text], cwd=cls.made, env=env, capture_output=True, text=True, timeout=300)

    def out(self, name: str) -> bytes:
        return (self.made / "out" / name).read_bytes()

    def same(self, name: str, *blocks: str, **more: object) -> None:
        """The blocks make a file of the bytes of one process."""
        (self.made / "out" / name).unlink(missing_ok=True)
        done = self.tried(*blocks, **more)  # type: ignore[arg-type]
        self.assertEqual(done.returncode, 0, done.stderr)
        self.assertEqual(self.out(name), self.out("one.csv"))

    def dying(self, how: str, when: str = "true") -> pathlib.Path:
        """A desk that dies once; the mark is there as soon as it did."""
        self.mark = self.folder / "died"
        dying(self.folder / "desk", DESK, self.mark, f"  {how}" if "\n" not in how else how, when)
        return self.folder / "desk"


class TablesTest(PageTest):
    def test_each_block_is_tried(self) -> None:
        self.assertEqual(PAGE.count("<!-- run "), len(BLOCKS))
        self.assertEqual(set(BLOCKS), {"first", "tables", "pipe", "parts", "ssh", "machines", "again", "dask"})

    def test_the_households_differ(self) -> None:
        lines = self.out("table.csv").splitlines()
        self.assertEqual((len(lines), len(set(lines))), (1001, 1001))
        self.assertEqual(self.out("one.csv").count(b"\n"), 1001)

    def test_each_household_is_decided_as_the_law_says(self) -> None:
        people: dict[str, list[dict[str, object]]] = {}
        for row in csv.DictReader(io.StringIO(self.out("members.csv").decode())):
            people.setdefault(row["household"], []).append(given(row, OF_MEMBER) | {"born": Day.fromisoformat(row["the member's date of birth"])})
        wanted = [["row", *GOALS, "fault"]]
        for number, row in enumerate(csv.DictReader(io.StringIO(self.out("households.csv").decode())), 1):
            household = Household(Day.fromisoformat(row["the day of the application"]), people[row["household"]], **given(row, OF_ALL))
            wanted.append([str(number), *(spelled(value) for value in household.decided()), ""])
        self.assertEqual(len(wanted), 1001)
        self.assertEqual(list(csv.reader(io.StringIO(self.out("one.csv").decode()))), wanted)

    def test_a_cell_with_a_line_feed_is_refused(self) -> None:
        # Blank lines are no records, so the rows are numbered as the records are.
        self.put("names.txt", "global\n  text the name\n  number the age\n  text the greeting\ngoal the greeting\nthe greeting = the name\n")
        given = 'the name,the age\n"""a\nb""",1\n"""c""",2\n\n"""d""","3\n"\n"\n""e""",4\n'
        done = subprocess.run([DESK, "batch", "names.txt"], cwd=self.folder, input=given, capture_output=True, text=True)
        wanted = 'row,the greeting,fault\n1,,column 1 command 1\n2,"""c""",\n3,,column 2 command 1\n4,,column 1 command 1\n'
        self.assertEqual((done.returncode, done.stdout), (0, wanted))

    def test_rows_have_the_names_of_the_cases(self) -> None:
        decided = self.out("decided.csv").decode().splitlines()
        self.assertEqual((len(decided), decided[1].split(",")[0], decided[-1].split(",")[0]), (1001, "1", "1000"))


@unittest.skipUnless(shutil.which("parallel"), "GNU parallel isn't there: apt-get install parallel")
class ParallelTest(PageTest):
    def test_pipe(self) -> None:
        self.same("by_pipe.csv", "pipe")

    def test_parts(self) -> None:
        self.same("by_parts.csv", "parts")

    def test_a_process_that_dies_ends_the_pipe(self) -> None:
        done = self.tried("pipe", desk=self.dying(ITSELF))
        self.assertTrue(self.mark.exists())
        self.assertNotEqual(done.returncode, 0)
        self.assertNotEqual(self.out("by_pipe.csv"), self.out("one.csv"))

    def test_a_part_whose_process_dies_is_decided_again(self) -> None:
        self.same("by_parts.csv", "parts", desk=self.dying(ITSELF))
        self.assertTrue(self.mark.exists())


@unittest.skipUnless(shutil.which("parallel") and SSHD and shutil.which("ssh"), "parallel, sshd or ssh isn't there: apt-get install parallel openssh-server")
class SshTest(PageTest):
    def setUp(self) -> None:
        super().setUp()
        self.machines = Machines(self.folder, ["one.example", "two.example", "three.example"])
        self.addCleanup(self.machines.close)
        if self.machines.why:
            self.skipTest(f"no sshd can be started here: {self.machines.why}")

    def test_pipe(self) -> None:
        self.same("by_ssh.csv", "ssh", **self.machines.env)

    def test_a_machine_is_lost_and_replaced(self) -> None:
        port = self.machines.ports["one.example"]
        desk = self.dying(self.machines.end_of("one.example"), when=f'[ "${{SSH_CONNECTION##* }}" = {port} ]')
        self.assertEqual(self.tried("parts").returncode, 0)
        for part in (self.made / "out" / "parts").glob("*.rows"):
            part.unlink()
        self.tried("machines", desk=desk, **self.machines.env)
        self.assertTrue(self.mark.exists())
        self.assertFalse(is_open(port))
        self.same("by_machines.csv", "again", desk=desk, **self.machines.env)


@unittest.skipUnless(DASK, "Dask isn't there: apt-get install python3-distributed")
class DaskTest(PageTest):
    def test_two_workers(self) -> None:
        self.same("by_dask.csv", "dask", port=free_port())

    def test_a_worker_that_dies_is_replaced(self) -> None:
        self.same("by_dask.csv", "dask", desk=self.dying("kill -9 $PPID $$"), port=free_port())
        self.assertTrue(self.mark.exists())
        self.assertIn(b"Restarting worker", self.out("worker_1.log") + self.out("worker_2.log"))


    def test_a_table_that_is_refused_is_no_result(self) -> None:
        table = self.out("table.csv")
        (self.made / "out" / "refused.csv").write_bytes(table.replace(b"the monthly rent", b"the weather", 1))
        done = self.tried("dask", port=free_port(), swap={"../out/table.csv": "../out/refused.csv", "by_dask.csv": "by_refused.csv"})
        self.assertNotEqual(done.returncode, 0)
        self.assertRegex(done.stderr, r"by_dask: desk batch ended with status 1: refused: column \d+ command 2")
        self.assertEqual(self.out("by_refused.csv"), b"")


class ScriptsTest(unittest.TestCase):
    """Errors of the scripts in examples/scale, which need no program."""

    def setUp(self) -> None:
        self.folder = pathlib.Path(tempfile.mkdtemp(prefix="scripts-test-"))
        self.addCleanup(shutil.rmtree, self.folder)

    def run_script(self, name: str, *words: object, **more: str) -> tuple[int, str, str]:
        command = [sys.executable, EXAMPLES / "scale" / name, *map(str, words)]
        done = subprocess.run(command, cwd=self.folder, env={**os.environ, **more}, capture_output=True, text=True)
        return done.returncode, done.stdout, done.stderr

    def test_made_households(self) -> None:
        self.assertEqual(self.run_script("made_households", 0, "out"), (2, "", "made_households: 0 households: from 1 to 1000000\n"))
        self.assertEqual(self.run_script("made_households", 3, "out"), (0, "", ""))
        kept = (self.folder / "out" / "members.csv").read_text()
        self.assertEqual(self.run_script("made_households", 5, "out"), (2, "", "made_households: can't write out/households.csv: File exists\n"))
        self.assertEqual((self.folder / "out" / "members.csv").read_text(), kept)

    def test_by_dask_without_dask(self) -> None:
        (self.folder / "dask.py").write_text("raise ImportError('there is none')\n")
        said = "by_dask: there is none: install Dask (Debian: python3-distributed)\n"
        self.assertEqual(self.run_script("by_dask", "tcp://127.0.0.1:1", "a.txt", "a.csv", PYTHONPATH=str(self.folder)), (2, "", said))


class JoinedTest(unittest.TestCase):
    def setUp(self) -> None:
        self.folder = pathlib.Path(tempfile.mkdtemp(prefix="joined-test-"))
        self.addCleanup(shutil.rmtree, self.folder)

    def joined(self, records: int, printed: str) -> tuple[int, str, str]:
        (self.folder / "table.csv").write_text("a,b\n" + '1,"x, y"\n\n' * records)
        command = [sys.executable, EXAMPLES / "scale" / "joined", self.folder / "table.csv"]
        done = subprocess.run(command, input=printed, capture_output=True, text=True)
        return done.returncode, done.stdout, done.stderr

    def test_rows_are_numbered_through(self) -> None:
        printed = 'row,the fee,fault\n1,2.00,\n2,"a, ""b""",\nrow,the fee,fault\nrow,the fee,fault\n1,,column 2 command 1\n'
        self.assertEqual(self.joined(3, printed), (0, 'row,the fee,fault\n1,2.00,\n2,"a, ""b""",\n3,,column 2 command 1\n', ""))

    def test_what_is_no_result(self) -> None:
        for records, printed, said in (
            (2, "row,a,fault\n1,x,\n", "the parts have 1 rows, and the table has 2 records"),
            (1, "row,a,fault\n1,x,\nrow,a,fault\n1,y,\n", "the parts have 2 rows, and the table has 1 records"),
            (3, "row,a,fault\n1,x,\n3,y,\n4,z,\n", "behind row 1: this is no row of a part: 3,y,"),
            (2, "row,a,fault\n1,x,\nrow,b,fault\n1,y,\n", "behind row 1: this is no row of a part: row,b,fault"),
            (2, "row,a,fault\n1,x,\n2,", "behind row 1: this is no row of a part: 2,"),
            (2, "row,a,fault\n1,x,\nrefused: no heading\n", "behind row 1: this is no row of a part: refused: no heading"),
            (1, "1,x,\n", "behind row 0: this is no row of a part: 1,x,"),
            (1, "", "the parts have 0 rows, and the table has 1 records"),
        ):
            status, _, told = self.joined(records, printed)
            self.assertEqual((status, told), (2, f"joined: {said}\n"))

    def test_no_table(self) -> None:
        done = subprocess.run([sys.executable, EXAMPLES / "scale" / "joined", self.folder / "none.csv"], input="", capture_output=True, text=True)
        self.assertEqual((done.returncode, done.stdout), (2, ""))
        self.assertIn("No such file", done.stderr)


if __name__ == "__main__":
    unittest.main()
