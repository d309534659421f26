"""Proves and builds programs of a checkout by the gate's own command, `rt ci`, in a copy of what they stand on.

What `rt ci` has proved on this machine it keeps by the checksums of all that it read, crate by crate, as soon as each
is done: so a run that is cut off goes on where it was, a run after the gate has next to nothing to do, and nothing
counts as proved that isn't of exactly these files. The copy leaves out must-fail/, which tries contracts alone.
"""
import contextlib
import fcntl
import os
import pathlib
import re
import shutil
import subprocess
import threading
import time
from collections.abc import Callable, Iterator

# What the proof of one crate wants, in bytes; and after how many seconds without news it says that it is at work.
ROOM = 4 * 2**30
QUIET = 60
PARTS = ("src", "specs", "proofs", "stdin", "stdout", "args", "status", "data")


class Fault(Exception):
    """Why there is no proved program."""


def crates_of(top: pathlib.Path) -> dict[str, list[str]]:
    """Each crate of crates.txt, with what it uses."""
    found = {}
    for line in (top / "crates.txt").read_text().splitlines():
        name, colon, used = line.partition("#")[0].partition(":")
        if colon:
            found[name.split()[0]] = used.split()
    return found


def below(crates: dict[str, list[str]], programs: list[str]) -> list[str]:
    """The programs and the crates that they stand on, lowest first."""
    found: list[str] = []

    def visit(name: str) -> None:
        for used in crates.get(name, []):
            visit(used)
        if name in crates and name not in found:
            found.append(name)

    for name in programs:
        if name not in crates:
            raise Fault(f"crates.txt lists no {name}")
        visit(name)
    return found


def source_of(top: pathlib.Path) -> str:
    """The checksum of the sources, as tools/source prints it."""
    done = subprocess.run([top / "tools" / "source"], capture_output=True, text=True)
    if done.returncode:
        raise Fault(f"tools/source: {done.stderr.strip()}")
    return done.stdout.strip()


def kit_is_here(top: pathlib.Path) -> None:
    """Refuses another kit than that of KIT."""
    wanted = (top / "KIT").read_text().strip()
    try:
        kit = subprocess.run(["rt", "version"], capture_output=True, text=True).stdout.strip()
    except FileNotFoundError:
        raise Fault(f"this needs the kit of Rattle, {wanted}, whose command is rt") from None
    if kit != wanted:
        raise Fault(f"KIT names {wanted}, and the rt here is of {kit}: take that kit, or write this one into KIT")


def room_of(top: pathlib.Path) -> pathlib.Path:
    """The folder in the user's cache in which a checkout's programs are proved."""
    cache = pathlib.Path(os.environ.get("XDG_CACHE_HOME") or pathlib.Path.home() / ".cache")
    return cache / "opa-build" / str(top).strip("/").replace("/", "-")


def copy(top: pathlib.Path, room: pathlib.Path, names: list[str]) -> None:
    """Makes the room a repository of these crates alone."""
    shutil.rmtree(room, ignore_errors=True)
    # rt takes the room for the top of a repository by this folder, and keeps its lock in it.
    (room / ".git").mkdir(parents=True)
    crates = crates_of(top)
    lines = [f"{name}: {' '.join(crates[name])}".rstrip() for name in names]
    (room / "crates.txt").write_text("\n".join(lines) + "\n")
    shutil.copy(top / "HANDLES", room)
    for name in names:
        for part in PARTS:
            source, target = top / "crates" / name / part, room / "crates" / name / part
            if source.is_dir():
                shutil.copytree(source, target)
            elif source.is_file():
                target.parent.mkdir(parents=True, exist_ok=True)
                shutil.copyfile(source, target)


def at_once() -> int:
    """How many crates are proved side by side: as many as there are processors and memory for."""
    memory = int(re.search(r"MemAvailable:\s+(\d+)", pathlib.Path("/proc/meminfo").read_text())[1]) * 1024
    return max(1, min(len(os.sched_getaffinity(0)), memory // ROOM))


class Progress:
    """Says of a run of `rt ci` which crates are proved, as it goes on, and how many are left."""

    def __init__(self, names: list[str], say: Callable[[str], None]) -> None:
        self.left, self.say, self.begun = set(names), say, time.monotonic()
        self.kept = self.proved = 0
        self.last, self.is_over = self.begun, threading.Event()

    def tell(self, text: str) -> None:
        self.last = time.monotonic()
        minutes = (self.last - self.begun) / 60
        self.say(f"{text}, {len(self.left)} left, {minutes:.0f} minutes so far")

    def take(self, line: str) -> None:
        line = line.removeprefix("rt: ").rstrip("\n")
        name, _, rest = line.partition(" ")
        if name in self.left and (rest == "proved" or rest.startswith("is kept:")):
            self.left.remove(name)
            is_kept = rest != "proved"
            self.kept, self.proved = self.kept + is_kept, self.proved + (not is_kept)
            self.tell(f"{name} is proved" + (" (by an earlier run of the same files)" if is_kept else ""))
        elif name in self.left and rest == "NOT PROVED":
            self.say(line)
        elif line.startswith(("note: ", "waiting ")) or "another run on this machine is proving the same" in line:
            self.say(line)

    def beat(self) -> None:
        """Breaks a long silence."""
        while not self.is_over.wait(1):
            if time.monotonic() - self.last > QUIET:
                self.tell("at work")


@contextlib.contextmanager
def alone(room: pathlib.Path, say: Callable[[str], None]) -> Iterator[None]:
    """Waits while another run uses the room."""
    room.parent.mkdir(parents=True, exist_ok=True)
    with open(f"{room}.lock", "w") as lock:
        try:
            fcntl.flock(lock, fcntl.LOCK_EX | fcntl.LOCK_NB)
        except BlockingIOError:
            say("another run is at work for this checkout: waiting for it")
            fcntl.flock(lock, fcntl.LOCK_EX)
        yield


def gate(room: pathlib.Path, take: Callable[[str], None]) -> int:
    """Runs `rt ci` in the room, hands on what it says line by line, and gives its status."""
    env = {**os.environ, "RT_JOBS": os.environ.get("RT_JOBS") or str(at_once())}
    how = {"stdin": subprocess.DEVNULL, "stdout": subprocess.PIPE, "stderr": subprocess.STDOUT}
    with subprocess.Popen(["rt", "ci"], cwd=room, env=env, text=True, errors="replace", **how) as run:
        try:
            for line in run.stdout:
                take(line)
        except BaseException:
            run.terminate()
            raise
    return run.returncode


def prove(
    top: pathlib.Path, programs: list[str], say: Callable[[str], None], use: Callable[[pathlib.Path, str], None]
) -> None:
    """Proves, builds and runs the programs. Then it calls `use` with the room, in which each lies as
    crates/NAME/out/NAME, and with the checksum of the sources."""
    kit_is_here(top)
    room = room_of(top)
    with alone(room, say):
        source, names = source_of(top), below(crates_of(top), programs)
        copy(top, room, names)
        lanes = os.environ.get("RT_JOBS") or at_once()
        say(f"{' and '.join(programs)}: {len(names)} crates, lowest first, {lanes} at a time")
        say("what an earlier run proved is taken as it is, and a run that is cut off goes on where it was")
        progress, log = Progress(names, say), []
        threading.Thread(target=progress.beat, daemon=True).start()
        try:
            status = gate(room, lambda line: (log.append(line), progress.take(line)))
        finally:
            progress.is_over.set()
        if status or not log or not re.fullmatch(r"\d+ passed, 0 failed", log[-1].strip()) or progress.left:
            raise Fault("".join(log[-40:]) + "the programs are not proved")
        if source_of(top) != source:
            raise Fault("the sources changed while they were proved: run this again")
        for name in programs:
            if not (room / "crates" / name / "out" / name).is_file():
                raise Fault(f"rt ci built no {name}")
        say(f"all {len(names)} crates are proved, {progress.proved} of them in this run")
        use(room, source)
        shutil.rmtree(room, ignore_errors=True)
