"""Running `opa` and `desk`, writing results, and errors that end a tool with status 2."""
from __future__ import annotations

import argparse
import dataclasses
import os
import pathlib
import shutil
import subprocess
import sys
from collections.abc import Callable

TOP = pathlib.Path(__file__).resolve().parent.parent.parent


class Fault(Exception):
    """An error that ends a tool: its text names what is wrong."""


@dataclasses.dataclass(frozen=True)
class Programs:
    """The two programs, as paths."""

    opa: str
    desk: str

    def run(self, mode: str, rulebase: pathlib.Path, given: str) -> str:
        """What a mode prints for an input; a refusal of the rulebase is a Fault."""
        status, printed = self.tried(mode, rulebase, given)
        if status:
            first = printed.split("\n", 1)[0] or f"status {status}"
            raise Fault(f"{rulebase}: {first}")
        return printed

    def tried(self, mode: str, rulebase: pathlib.Path, given: str) -> tuple[int, str]:
        """The status (0 or 1) and what is printed."""
        program = self.desk if mode in ("batch", "cases") else self.opa
        if not rulebase.is_file():
            raise Fault(f"there is no rulebase {rulebase}")
        try:
            done = subprocess.run(
                [path_of(program), mode, rulebase.name], cwd=rulebase.parent, input=given.encode(), capture_output=True
            )
        except OSError as error:
            raise Fault(f"can't run {program}: {error.strerror}") from error
        if done.returncode > 1:
            said = (done.stderr or done.stdout).decode(errors="replace").strip()[-300:]
            raise Fault(f"{program} {mode} {rulebase.name} ended with status {done.returncode}: {said}")
        return done.returncode, done.stdout.decode(errors="replace")


def path_of(program: str) -> str:
    """The path of a program, whichever folder it runs in."""
    return os.path.abspath(shutil.which(program) or program)


def add_programs(words: argparse.ArgumentParser) -> None:
    """The options --opa and --desk; without them the environment's OPA and DESK, or this repository's own."""
    words.add_argument("--opa", default=os.environ.get("OPA", str(TOP / "opa")), help="the program opa")
    words.add_argument("--desk", default=os.environ.get("DESK", str(TOP / "desk")), help="the program desk")


def read(path: str | pathlib.Path) -> str:
    """The text of a file, without a byte order mark."""
    try:
        return pathlib.Path(path).read_text(encoding="utf-8-sig")
    except (OSError, UnicodeDecodeError) as error:
        reason = error.strerror if isinstance(error, OSError) else "it isn't UTF-8"
        raise Fault(f"can't read {path}: {reason}") from error


def can_write(path: str | None, force: bool) -> None:
    """A Fault if the file is there and may not be overwritten: asked before the work begins."""
    if path and os.path.exists(path) and not force:
        raise Fault(f"{path} already exists; --force overwrites it")


def write(path: str, text: str, force: bool) -> None:
    can_write(path, force)
    try:
        pathlib.Path(path).write_text(text, encoding="utf-8")
    except OSError as error:
        raise Fault(f"can't write {path}: {error.strerror}") from error


def ending(name: str, main: Callable[[], int]) -> None:
    """Runs a tool; an error is printed with the tool's name, and the status is 2."""
    try:
        status = main()
        sys.stdout.flush()
    except Fault as fault:
        print(f"{name}: {fault}", file=sys.stderr)
        status = 2
    except BrokenPipeError:
        os.dup2(os.open(os.devnull, os.O_WRONLY), 1)
        status = 4
    sys.exit(status)
