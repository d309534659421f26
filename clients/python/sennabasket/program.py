"""The programs: `desk cases`, which is kept running, and `opa run`, which runs once for each question that `desk` doesn't take.

Both run in the rulebase's folder, since that is where the files of a rulebase are looked for, with bounded memory and time.
"""
from __future__ import annotations

import functools
import os
import pathlib
import selectors
import subprocess
import time

from .errors import ProgramDied, ProgramSlow, RulebaseRefused

TOP = pathlib.Path(__file__).resolve().parents[3]
MEMORY = 3 << 30  # of address space: a program may put a gibibyte aside for its stack
SECONDS = 20.0
MOST_PRINTED = 64 << 20
MOST_GIVEN = 60 << 20  # a program takes 64 MiB of input and then ends; it is started again before


@functools.cache
def of_repository(name: str) -> tuple[str, str]:
    """The program that the repository's launcher runs (built here of these sources, or released), or why there is none."""
    try:
        done = subprocess.run([TOP / name, "--which"], stdin=subprocess.DEVNULL, capture_output=True, text=True, timeout=120)
    except (OSError, subprocess.SubprocessError) as error:
        return "", str(error)
    return (done.stdout.strip(), "") if done.returncode == 0 else ("", done.stderr.strip())


def found(name: str, given: str | None = None) -> str:
    """The program of this name: the given one, the one that the environment names (OPA, DESK, RULES), or the repository's."""
    path = given or os.environ.get(name.upper())
    if path:
        return str(pathlib.Path(path).resolve()) if "/" in path else path
    path, why = of_repository(name)
    if not path:
        raise ProgramDied(f"{why} (or name a program by {name.upper()}=PATH)")
    return path


def bounded(words: list[str], memory: int, seconds: float | None = None) -> list[str]:
    """The words of a command that bounds its own memory, and its time on a processor."""
    limits = f"ulimit -v {memory // 1024}; " + (f"ulimit -t {int(seconds) + 1}; " if seconds else "")
    return ["/bin/sh", "-c", f'{limits}exec "$@"', "sh", *words]


class Desk:
    """One running `desk cases`."""

    def __init__(self, words: list[str], folder: pathlib.Path, memory: int) -> None:
        try:
            self.process = subprocess.Popen(
                bounded(words, memory), cwd=folder, stdin=subprocess.PIPE, stdout=subprocess.PIPE, stderr=subprocess.DEVNULL, bufsize=0
            )
        except OSError as error:
            raise ProgramDied(f"can't run {words[0]}: {error.strerror}") from None
        assert self.process.stdin and self.process.stdout
        self.given, self.printed = self.process.stdin, self.process.stdout
        os.set_blocking(self.given.fileno(), False)
        os.set_blocking(self.printed.fileno(), False)
        self.count = self.sent = 0

    @property
    def is_running(self) -> bool:
        return self.process.poll() is None

    def exchange(self, lines: list[str], seconds: float) -> list[str]:
        """Gives lines, and takes what is printed for them. A mark behind them says when that is all: a case that is closed at once."""
        self.count += 1
        mark = f'"~{self.count}"'
        data = "".join(f"{line}\n" for line in [*lines, f"{mark} close"]).encode("utf-8")
        self.sent += len(data)
        end = f"{mark} closed\n".encode()
        until = time.monotonic() + seconds
        printed, size = [b""], 0
        try:
            with selectors.DefaultSelector() as ready:
                ready.register(self.printed, selectors.EVENT_READ)
                ready.register(self.given, selectors.EVENT_WRITE)
                while not (b"".join(printed[-2:]).endswith(end)):
                    chosen = ready.select(max(0.0, until - time.monotonic()))
                    if not chosen:
                        raise ProgramSlow(f"the program took longer than {seconds:g} seconds")
                    for key, _ in chosen:
                        if key.fileobj is self.given:
                            data = data[os.write(self.given.fileno(), data[:65536]) :]
                            if not data:
                                ready.unregister(self.given)
                        else:
                            part = os.read(self.printed.fileno(), 65536)
                            size += len(part)
                            if not part or size > MOST_PRINTED:
                                raise ProgramDied(self.last_words(b"".join(printed)))
                            printed = [*printed[:-1], printed[-1] + part] if len(printed[-1]) < len(end) else [*printed, part]
        except BrokenPipeError:
            raise ProgramDied(self.last_words(b"".join(printed))) from None
        return b"".join(printed)[: -len(end)].decode("utf-8").split("\n")[:-1]

    def last_words(self, printed: bytes) -> str:
        """Why it ended: a rulebase that is refused is told by an exception of its own."""
        try:
            status = self.process.wait(2)
        except subprocess.TimeoutExpired:
            return "the program stopped printing"
        if self.printed.fileno() >= 0:
            printed += self.printed.read() or b""
        text = printed.decode("utf-8", "replace")
        if status == 1 and text.startswith("refused: rulebase"):
            raise RulebaseRefused(text.strip())
        return f"the program ended with status {status}"

    def stop(self) -> None:
        """Ends it: by the end of its input, and by force where that isn't enough."""
        for pipe in (self.given, self.printed):
            try:
                pipe.close()
            except OSError:
                pass
        try:
            self.process.wait(0.5)
        except subprocess.TimeoutExpired:
            self.process.kill()
            self.process.wait()


def run(words: list[str], folder: pathlib.Path, lines: list[str], memory: int, seconds: float) -> str:
    """Runs a program once over some lines, and takes all that it prints."""
    given = "".join(f"{line}\n" for line in lines).encode("utf-8")
    try:
        done = subprocess.run(
            bounded(words, memory, seconds), cwd=folder, input=given, stdout=subprocess.PIPE, stderr=subprocess.DEVNULL, timeout=seconds
        )
    except OSError as error:
        raise ProgramDied(f"can't run {words[0]}: {error.strerror}") from None
    except subprocess.TimeoutExpired:
        raise ProgramSlow(f"the program took longer than {seconds:g} seconds") from None
    text = done.stdout.decode("utf-8", "replace")
    if done.returncode == 1 and text.startswith("refused: rulebase"):
        raise RulebaseRefused(text.strip())
    if done.returncode:
        raise ProgramDied(f"the program ended with status {done.returncode}")
    return text
