#!/usr/bin/env python3
"""Plays stories over a built program, with files of the system in the place of a shelf in memory.

    python3 tools/stories.py --opa PATH [--desk PATH] [--only FRONT] [--times] [STORY ..]

A story is a text of crates/opa_stories/data/stories (docs/TESTING.md says how it is written), or a file that is named. Stories in
which a device fails, or a listener watches, are for opa_stories alone and are passed over. It prints each story that differs, and
last how many passed; with --times also what each took. Its status is 1 where one failed, and 2 where it can't read a story.
"""
import argparse
import os
import pathlib
import re
import subprocess
import sys
import tempfile
import time

TOP = pathlib.Path(__file__).resolve().parent.parent
DATA = TOP / "crates" / "opa_stories" / "data"
BETWEEN = re.compile(r"\{([^{}]*)\}")
# What only a shelf, a source and a sink in memory can do.
IN_MEMORY = ("failing ", "bytes a ", "watched", "refuses")


class Fault(Exception):
    """Why a text is no story."""


def number(text):
    return int(text.replace(",", ""))


def spelled(text, turn):
    """The bytes that a line with braces stands for, on its so-manieth turn."""
    found, at = b"", 0
    for part in BETWEEN.finditer(text):
        found += text[at : part.start()].encode() + meant(part[1], turn)
        at = part.end()
    return found + text[at:].encode()


def meant(inside, turn):
    if inside == "/":
        return b"\n"
    if re.fullmatch(r"x[0-9a-f]{2}", inside):
        return bytes([int(inside[1:], 16)])
    near = re.fullmatch(r"n(?:([+-])([\d,]+))?", inside)
    if near:
        away = number(near[2]) if near[2] else 0
        return str(turn - away if near[1] == "-" else turn + away).encode()
    many = re.fullmatch(r"([\d,]+)\*(.*)", inside, re.S)
    if many:
        return many[2].encode() * number(many[1])
    span = re.fullmatch(r"([\d,]+)\.\.([\d,]+)\*(.*)", inside, re.S)
    if span:
        numbers = range(number(span[1]), number(span[2]) + 1)
        return b"".join(span[3].replace("@", str(n)).encode() for n in numbers)
    raise Fault(f"{{{inside}}} has no meaning")


def lines(text, times, mark):
    """A line of text so many times."""
    end = b"" if mark == "-" else b"\n"
    if mark == "|":
        return (text.encode() + end) * times
    if "{n" not in text:
        return (spelled(text, 1) + end) * times
    return b"".join(spelled(text, turn) + end for turn in range(1, times + 1))


class Story:
    """What a program is given, and what it must do."""

    def __init__(self, path, data=DATA):
        self.name, self.words, self.files, self.given = path.stem, [], {}, b""
        self.printed, self.after, self.gone, self.status, self.is_in_memory = None, {}, [], 0, False
        self.part = None
        for place, line in enumerate(path.read_text().splitlines(), 1):
            try:
                self.take(line, data)
            except (Fault, OSError, ValueError) as fault:
                raise Fault(f"{path}:{place}: {fault}") from fault

    def take(self, line, data):
        text = re.fullmatch(r"(?:([\d,]+) times )?([|%-]) ?(.*)", line, re.S)
        if text:
            self.add(lines(text[3], number(text[1]) if text[1] else 1, text[2]))
        elif line and not line.startswith("#"):
            key, colon, rest = line.partition(":")
            if not colon:
                raise Fault("this is no line of a story")
            self.begin(key, rest.strip(), data)

    def add(self, more):
        kind, name = self.part or (None, None)
        if kind in ("files", "after"):
            getattr(self, kind)[name] += more
        elif kind:
            setattr(self, kind, (getattr(self, kind) or b"") + more)
        else:
            raise Fault("this text belongs nowhere")

    def begin(self, key, rest, data):
        self.part = None
        if key == "words":
            self.words = rest.split()
        elif key == "shelf":
            self.files.update({pathlib.PurePath(path).name: (data / path).read_bytes() for path in rest.split()})
        elif key in ("file", "after"):
            self.part = ("files" if key == "file" else "after", rest)
            getattr(self, self.part[0])[rest] = b""
        elif key in ("input", "prints"):
            self.part = ("given" if key == "input" else "printed", None)
            self.add((data / rest).read_bytes() if rest else b"")
        elif key == "gone":
            self.gone.append(rest)
        elif key == "status":
            self.status = int(rest)
        elif key.startswith(IN_MEMORY):
            self.is_in_memory = True
        else:
            raise Fault(f"{key} is no part of a story")

    def run(self, program, env=None, before=None, **streams):
        """Runs it in a folder of its own; answers its status, what it printed, and the files that stand there afterwards."""
        with tempfile.TemporaryDirectory(prefix="opa-story-") as place:
            for name, found in self.files.items():
                pathlib.Path(place, name).write_bytes(found)
            if "stdin" not in streams:
                streams["input"] = self.given
            streams.setdefault("stdout", subprocess.PIPE)
            done = subprocess.run([program, *self.words[1:]], cwd=place, env=env, preexec_fn=before, stderr=subprocess.PIPE, timeout=300, **streams)
            after = {f.name: f.read_bytes() for f in sorted(pathlib.Path(place).iterdir()) if f.is_file()}
        return done.returncode, done.stdout, after

    def faults(self, program):
        status, printed, after = self.run(program)
        found = [f"status {status}, wanted {self.status}"] if status != self.status else []
        if self.printed is not None and printed != self.printed:
            found.append(f"printed ..{printed[-200:]!r}, wanted ..{self.printed[-200:]!r}")
        found += [f"{name} differs afterwards" for name, wanted in self.after.items() if after.get(name) != wanted]
        return found + [f"{name} is there afterwards" for name in self.gone if name in after]


def main():
    parser = argparse.ArgumentParser(description=__doc__, formatter_class=argparse.RawDescriptionHelpFormatter)
    parser.add_argument("--opa")
    parser.add_argument("--desk")
    parser.add_argument("--only", default="")
    parser.add_argument("--times", action="store_true")
    parser.add_argument("stories", nargs="*", type=pathlib.Path)
    asked = parser.parse_args()
    programs = {"opa": asked.opa, "desk": asked.desk}
    passed = failed = left = 0
    for path in asked.stories or sorted((DATA / "stories").glob(f"{asked.only}*.txt")):
        try:
            story = Story(path)
        except (Fault, OSError) as fault:
            print(f"stories: {fault}", file=sys.stderr)
            sys.exit(2)
        program = programs.get(story.words[0] if story.words else "opa")
        if story.is_in_memory or not program:
            left += 1
            continue
        begun = time.monotonic()
        found = story.faults(os.path.abspath(program))
        passed, failed = passed + (not found), failed + bool(found)
        if asked.times:
            print(f"{story.name}: {time.monotonic() - begun:.2f} s")
        for fault in found:
            print(f"{story.name}: {fault}")
    print(f"{passed} passed, {failed} failed, {left} passed over")
    sys.exit(1 if failed else 0)


if __name__ == "__main__":
    main()
