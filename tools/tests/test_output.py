"""What a program writes is there before it waits for the next line, and is whole and in order however much it is."""
from __future__ import annotations

import os
import select
import subprocess
import time
import unittest
from pathlib import Path

from tools.tests.base import DESK, OPA, ToolTest

RULES = """verb is / is not / is /
global
  bool the claimant [is] entitled
  bool the claimant [is] an adult
  bool the claimant [is] a veteran
goal the claimant is entitled
the claimant is entitled if
  the claimant is an adult and
  the claimant is a veteran
"""
PATIENCE = 20.0


class Talk:
    """A program that is spoken to through pipes, line by line."""

    def __init__(self, program: str, mode: str, folder: Path) -> None:
        self.process = subprocess.Popen([program, mode, "rules.txt"], cwd=folder, stdin=subprocess.PIPE, stdout=subprocess.PIPE, bufsize=0)

    def say(self, line: str) -> None:
        assert self.process.stdin is not None
        self.process.stdin.write(line.encode())

    def hear(self, wanted: str) -> str:
        """What is written until it is as long as what is wanted, or until patience ends."""
        assert self.process.stdout is not None
        heard, until = b"", time.monotonic() + PATIENCE
        while len(heard) < len(wanted.encode()) and (left := until - time.monotonic()) > 0:
            if select.select([self.process.stdout], [], [], left)[0]:
                piece = os.read(self.process.stdout.fileno(), 65_536)
                if not piece:
                    break
                heard += piece
        return heard.decode()

    def end(self) -> tuple[int, str]:
        """The status, and what is written at the end of the input."""
        assert self.process.stdin is not None and self.process.stdout is not None
        self.process.stdin.close()
        rest = self.process.stdout.read().decode()
        self.process.stdout.close()
        return self.process.wait(PATIENCE), rest


class OutputTest(ToolTest):
    def talk(self, program: str, mode: str) -> Talk:
        self.put("rules.txt", RULES)
        return Talk(program, mode, self.folder)

    def each_is_heard(self, talk: Talk, turns: list[tuple[str, str]]) -> None:
        """After each line its reply is there before the next line is said."""
        for line, reply in turns:
            talk.say(line)
            self.assertEqual(talk.hear(reply), reply)
        self.assertEqual(talk.end(), (0, ""))

    def test_a_reply_comes_before_the_next_line(self) -> None:
        self.each_is_heard(self.talk(OPA, "run"), [
            ("show the claimant is entitled\n", "the claimant is entitled: unknown\n"),
            ("answer the claimant is an adult = false\nshow the claimant is entitled\n", "the claimant is entitled: false\n"),
        ])

    def test_an_interview_asks_before_it_reads(self) -> None:
        self.each_is_heard(self.talk(OPA, "interview"), [
            ("", "[Questions] is the claimant an adult?\n"),
            ("true\n", "[Questions] is the claimant a veteran?\n"),
        ])

    def test_a_caseload_answers_each_line(self) -> None:
        self.each_is_heard(self.talk(DESK, "cases"), [
            ('"A" show the claimant is entitled\n', '"A" the claimant is entitled: unknown\n'),
            ('"A" answer the claimant is an adult = false\n"A" show the claimant is entitled\n', '"A" the claimant is entitled: false\n'),
            ('"B" show the claimant is entitled\n', '"B" the claimant is entitled: unknown\n'),
        ])

    def test_half_a_line_waits_for_the_other_half(self) -> None:
        self.each_is_heard(self.talk(OPA, "run"), [
            ("show the claimant ", ""),
            ("is entitled\n", "the claimant is entitled: unknown\n"),
        ])

    def test_an_output_that_takes_nothing_is_said_by_the_status(self) -> None:
        self.put("rules.txt", RULES)
        for program, mode in ((OPA, "run"), (OPA, "interview"), (DESK, "cases")):
            with self.subTest(mode), open("/dev/full", "wb") as full:
                line = '"A" ' * (mode == "cases") + "show the claimant is entitled\n"
                done = subprocess.run([program, mode, "rules.txt"], cwd=self.folder, input=line.encode(), stdout=full)
                self.assertEqual(done.returncode, 4)

    def test_much_output_comes_whole_and_in_order(self) -> None:
        self.put("rules.txt", RULES)
        values = ["true", "false", "uncertain"] * 10_000
        given = "".join(f"answer the claimant is an adult = {value}\nshow the claimant is an adult\n" for value in values)
        done = subprocess.run([OPA, "run", "rules.txt"], cwd=self.folder, input=given, capture_output=True, text=True)
        self.assertEqual(done.returncode, 0)
        self.assertEqual(done.stdout, "".join(f"the claimant is an adult: {value}\n" for value in values))


if __name__ == "__main__":
    unittest.main()
