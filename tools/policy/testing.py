"""The tests of a folder of rules: what each is given, what it must print, and what differs."""
from __future__ import annotations

import dataclasses
import difflib
import pathlib
import re
import shutil
import subprocess
import tempfile
import time
import xml.etree.ElementTree as xml
from collections.abc import Iterator

from .programs import TOP, Fault, Programs, path_of
from .texts import DATE, LINE, VALUE, number, pairs_of, value_at

# The end of a test's name, the end of the name of what it must print, and the mode that plays it.
KINDS = (
    ("_input.txt", "_output.txt", "run"),
    ("_replies.txt", "_output.txt", "interview"),
    ("_batch.csv", "_batch_output.csv", "batch"),
    ("_caseload.txt", "_caseload_output.txt", "cases"),
    ("_expect.txt", "", "run"),
)
CHANGES = ("answer", "withdraw", "list", "forget", "load", "save")
EXPECT = re.compile(rf"\s*expect\s+(.+?)(?:\s+at\s+({DATE}))?\s*=\s*(.+?)\s*")
STATS = re.compile(r"instances \d+ answers \d+ lists \d+ conclusions \d+ dirty \d+")
LINE_OF_VALUES = re.compile(rf"{VALUE}(; from {DATE} {VALUE})*")


@dataclasses.dataclass
class Test:
    name: str
    file: pathlib.Path
    expected: pathlib.Path | None  # None for expect lines
    mode: str
    seconds: float = 0.0
    faults: list[str] = dataclasses.field(default_factory=list)

    @property
    def program(self) -> str:
        return "desk" if self.mode in ("batch", "cases") else "opa"


def tests(folder: pathlib.Path, only: str | None) -> Iterator[Test]:
    for ending, expected, mode in KINDS:
        for file in sorted(folder.glob(f"*{ending}")):
            name = file.name[: -len(ending)]
            if only in (None, name):
                yield Test(name, file, folder / f"{name}{expected}" if expected else None, mode)


def read(file: pathlib.Path) -> bytes:
    try:
        return file.read_bytes()
    except OSError as error:
        raise Fault(f"can't read {file}: {error.strerror}") from error


def rulebase(folder: pathlib.Path, name: str) -> str:
    parts = name.split("_")
    for count in range(len(parts), 0, -1):
        file = folder / f"{'_'.join(parts[:count])}.txt"
        if file.is_file():
            return file.name
    raise Fault(f"there is no rulebase for {name}_input.txt in {folder}")


def given(test: Test) -> bytes:
    """What the program is given; between the commands of a test with expect lines stands `stats`, which prints one line."""
    held = read(test.file)
    if test.expected is not None:
        return held
    return b"".join(f"{command}\nstats\n".encode() for _, command, _ in expectations(test))


def expectations(test: Test) -> list[tuple[int, str, re.Match[str] | None]]:
    """Each line of a test with expect lines: its number, its command, and what is expected."""
    found = []
    for line_number, line in enumerate(read(test.file).decode("utf-8-sig", errors="replace").splitlines(), 1):
        if not line.strip() or line.lstrip().startswith("#"):
            continue
        expected = EXPECT.fullmatch(line)
        word = line.split(maxsplit=1)[0]
        if word == "expect" and not expected:
            raise Fault(f"{test.file.name}:{line_number}: an expect line is `expect POINT = VALUE` or `expect POINT at DATE = VALUE`")
        if word != "expect" and word not in CHANGES:
            raise Fault(f"{test.file.name}:{line_number}: {word} isn't a command of a test with expect lines: {', '.join(CHANGES)}, expect")
        found.append((line_number, f"show {expected[1]}" if expected else line.strip(), expected))
    return found


# Playing.


def play(programs: Programs, folder: pathlib.Path, test: Test) -> bytes:
    """What a test prints, in a copy of the folder: what `save` keeps isn't left behind."""
    program = programs.opa if test.program == "opa" else programs.desk
    with tempfile.TemporaryDirectory() as place:
        room = pathlib.Path(place) / "rules"
        shutil.copytree(folder, room)
        begun = time.monotonic()
        try:
            done = subprocess.run([path_of(program), test.mode, rulebase(folder, test.name)], cwd=room, input=given(test), capture_output=True)
        except OSError as error:
            raise Fault(f"can't run {program}: {error.strerror}") from error
        test.seconds = time.monotonic() - begun
    if done.returncode > 1:
        said = done.stderr.decode(errors="replace")[-300:]
        raise Fault(f"{test.name}: {program} {test.mode} ended with status {done.returncode}: {said}")
    return done.stdout


def play_unproved(program: str, folder: pathlib.Path, chosen: list[Test]) -> list[bytes]:
    """What each test prints, by one build of the program without proofs."""
    with tempfile.TemporaryDirectory() as place:
        cases = pathlib.Path(place) / "cases"
        cases.mkdir()
        for n, test in enumerate(chosen):
            (cases / f"t{n}").write_bytes(given(test))
            (cases / f"t{n}.args").write_text(f"{test.mode}\n{rulebase(folder, test.name)}\n")
        files = [word for file in sorted(folder.iterdir()) if file.is_file() for word in ("--data", f"{file.name}={file.resolve()}")]
        command = ["rt", "try", *files, "--cases", str(cases)]
        try:
            done = subprocess.run(command, cwd=TOP / "crates" / program, stdin=subprocess.DEVNULL, capture_output=True)
        except OSError as error:
            raise Fault(f"can't run rt: {error.strerror}") from error
    parts = re.split(rb"^== t(\d+)\n", done.stdout, flags=re.M)
    printed = {int(n): text for n, text in zip(parts[1::2], parts[2::2])}
    if sorted(printed) != list(range(len(chosen))):
        raise Fault(f"rt try in crates/{program} gave no output of some tests: {done.stderr.decode(errors='replace')[-500:]}")
    return [printed[n] for n in range(len(chosen))]


# Judging.


def judge(test: Test, printed: bytes) -> None:
    """Puts into a test what differs."""
    if test.expected is None:
        test.faults = unexpected(test, printed.decode(errors="replace"))
        return
    wanted = read(test.expected)
    if printed != wanted:
        lines = (wanted.decode(errors="replace").splitlines(), printed.decode(errors="replace").splitlines())
        test.faults = list(difflib.unified_diff(*lines, f"{test.expected.name}: expected", f"{test.file.name}: printed", lineterm=""))


def unexpected(test: Test, printed: str) -> list[str]:
    """Where a value isn't as an expect line says it, and each command that is refused."""
    said: list[list[str]] = [[]]
    for line in printed.splitlines():
        if STATS.fullmatch(line):
            said.append([])
        else:
            said[-1].append(line)
    commands = expectations(test)
    if len(said) != len(commands) + 1:
        return [f"{test.file.name}: {printed.splitlines()[0] if printed else 'nothing is printed'}"]
    found = []
    for (line_number, command, expected), lines in zip(commands, said):
        where, shown = f"{test.file.name}:{line_number}", " ".join(lines)
        if expected is None:
            if shown.startswith("refused:"):
                found.append(f"{where}: {shown}: {command}")
        elif not is_as_expected(expected[2], expected[3], shown):
            found.append(f"{where}: expected {' at '.join(filter(None, expected.group(1, 2)))} = {expected[3]}, printed {shown}")
    return found


def is_as_expected(day: str | None, wanted: str, shown: str) -> bool:
    read_line = LINE.fullmatch(shown)
    if not read_line or not LINE_OF_VALUES.fullmatch(wanted):
        return day is None and shown.partition(": ")[2] == wanted
    printed, asked = pairs_of(read_line[2]), pairs_of(wanted)
    if day:
        printed = [(asked[0][0], value_at(printed, day))]
    return len(printed) == len(asked) and all(p[0] == a[0] and is_same(p[1], a[1]) for p, a in zip(printed, asked))


def is_same(one: str, other: str) -> bool:
    """Numbers by their value: 40 is 40.00."""
    amount = number(one)
    return one == other if amount is None else amount == number(other)


# Telling.


def tap(found: list[Test]) -> str:
    lines = ["TAP version 13", f"1..{len(found)}"]
    for n, test in enumerate(found, 1):
        lines.append(f"{'not ok' if test.faults else 'ok'} {n} - {test.file.name}")
        lines += [f"# {fault}" for fault in test.faults]
    return "\n".join(lines) + "\n"


def junit(found: list[Test], folder: pathlib.Path) -> str:
    failed = sum(bool(test.faults) for test in found)
    top = xml.Element("testsuites")
    suite = xml.SubElement(top, "testsuite", name=folder.resolve().name, tests=str(len(found)), failures=str(failed), errors="0", skipped="0")
    for test in found:
        case = xml.SubElement(suite, "testcase", classname=test.name, name=test.file.name, time=f"{test.seconds:.3f}")
        if test.faults:
            xml.SubElement(case, "failure", message="what is printed differs").text = plain("\n".join(test.faults))
    xml.indent(top)
    return '<?xml version="1.0" encoding="UTF-8"?>\n' + xml.tostring(top, encoding="unicode") + "\n"


def plain(text: str) -> str:
    """The text without what XML can't hold."""
    return re.sub(r"[^\t\n\r\x20-\ud7ff\ue000-\ufffd\U00010000-\U0010ffff]", "?", text)
