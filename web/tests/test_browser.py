"""Whole interviews in Chromium, driven by selenium."""
import json
import os
import pathlib
import re
import shutil
import signal
import sqlite3
import subprocess
import tempfile
import unittest
from typing import Any

import usable
from browsing import EXAMPLES
from driving import Driven, Server, missing
from people import ADA, FAMILY, FAMILY_REPLIES, GOALS, PERMIT, PERMIT_REPLIES, renamed
from sennabasket.program import MEMORY, found, run
from troubles import troubles

WIDTHS = (320, 768, 1280)


def kept(store: pathlib.Path) -> list[list[str]]:
    with sqlite3.connect(store) as base:
        return [json.loads(row[0]) for row in base.execute("select lines from cases order by number")]


def goals(rulebase: str, lines: list[str]) -> list[str]:
    """The goals as `opa run` prints them over kept lines."""
    return run([found("opa"), "run", rulebase], EXAMPLES, [*lines, "goals"], MEMORY, 60).split("\n")[:-1]


def transcript(rulebase: str, replies: str) -> list[str]:
    """The goals at the end of the transcript of `opa interview` for these replies."""
    printed = run([found("opa"), "interview", rulebase], EXAMPLES, replies.splitlines(), MEMORY, 60).split("\n")[:-1]
    return [line for line in printed if re.search(r" \((un)?(decided|settled)\)$", line)]


@unittest.skipIf(missing(), missing())
class InABrowser(unittest.TestCase):
    def setUp(self) -> None:
        folder = tempfile.TemporaryDirectory()
        self.addCleanup(folder.cleanup)
        self.store = pathlib.Path(folder.name) / "cases.sqlite"

    def server(self, rulebase: str | pathlib.Path, **more: Any) -> Server:
        server = Server(rulebase, self.store, **more)
        self.addCleanup(lambda: server.process.poll() is None and server.stop())
        return server

    def driven(self, server: Server, **more: bool) -> Driven:
        driven = Driven(server.address, **more)
        self.addCleanup(driven.quit)
        return driven

    def test_food_without_javascript(self) -> None:
        """A whole interview comes to the goals of the transcript, and no page is wider than its window."""
        driven = self.driven(self.server("food.txt"), has_script=False)
        driven.driver.get("data:text/html,<title>plain</title><script>document.title='scripted'</script>")
        self.assertEqual(driven.driver.title, "plain")
        driven.start()
        while driven.path == "/questions":
            for width in WIDTHS:
                self.assertLessEqual(driven.overflow(width), 0, driven.text[:200])
            driven.answer(ADA)
        self.assertEqual(driven.path, "/result")
        self.assertEqual(goals("food.txt", kept(self.store)[0]), GOALS)
        self.assertEqual(transcript("food.txt", (EXAMPLES / "food_ada_replies.txt").read_text()), GOALS)
        for text in ("204.00 dollars a month", "129.00 dollars", "12 December 2024", "Settled"):
            self.assertIn(text, driven.text)
        for path in ("/result", "/answers", "/print", "/page/3", "/nowhere", "/?lang=de"):
            driven.open(path)
            for width in WIDTHS:
                self.assertLessEqual(driven.overflow(width), 0, path)

    def test_permit(self) -> None:
        """Back and change, a wrong number, the keyboard, and the focus on what is wrong."""
        from selenium.webdriver.common.keys import Keys

        driven = self.driven(self.server("permit.txt"))
        driven.start()
        driven.answer(PERMIT)
        driven.answer(PERMIT)
        driven.fill("What is the length of the car?", "25")
        driven.go()
        self.assertIn("There is a problem", driven.text)
        self.assertEqual(driven.driver.switch_to.active_element.get_attribute("id"), "q0")
        self.assertTrue(driven.driver.title.startswith("Error: "))
        driven.one(".summary a").click()
        self.assertEqual(driven.driver.switch_to.active_element.get_attribute("id"), "q0")
        length = driven.one("#q0")
        length.clear()
        driven.press(lambda: length.send_keys("4.8" + Keys.ENTER))
        self.assertEqual(driven.path, "/result")
        self.assertEqual(goals("permit.txt", kept(self.store)[0]), ["the resident is entitled: true (settled)", "the yearly fee: 90.00 (settled)"])
        self.assertEqual(goals("permit.txt", kept(self.store)[0]), transcript("permit.txt", PERMIT_REPLIES))
        driven.open("/questions")
        driven.open("/page/2")
        driven.press(driven.one("a.back").click)
        self.assertEqual(driven.path, "/page/1")
        driven.fill("Does the resident have a car?", False)
        driven.go()
        self.assertEqual(driven.path, "/page/2")
        driven.open("/result")
        self.assertIn("0.00", driven.text)
        driven.open("/answers")
        driven.press(driven.one("a[aria-label='Change: Does the resident have a car?']").click)
        driven.fill("Does the resident have a car?", True)
        driven.one(".changes summary").click()
        for part, text in (("d", "1"), ("m", "5"), ("y", "2025")):
            driven.put(f"q0-c1-f-{part}", text)
        driven.choose("q0-c1-2")
        driven.go()
        driven.open("/result")
        self.assertEqual(goals("permit.txt", kept(self.store)[0])[1], "the yearly fee: 90.00; from 2025-05-01 0.00 (settled)")
        self.assertEqual(len(driven.all("svg.line")), 2)

    def test_child_benefit(self) -> None:
        """A second policy, with amounts that change over time: the same goals as the transcript, and a picture of each line."""
        driven = self.driven(self.server("child_benefit.txt"))
        driven.start()
        driven.interview(FAMILY)
        self.assertEqual(driven.path, "/result")
        wanted = transcript("child_benefit.txt", FAMILY_REPLIES)
        self.assertEqual(goals("child_benefit.txt", kept(self.store)[0]), wanted)
        self.assertIn("from 2025-04-07 38.97", wanted[1])
        driven.open("/result?at=2025-06-01")
        self.assertEqual([each.text for each in driven.all(".now strong")], ["43.30", "38.97"])
        self.assertEqual(len(driven.all("svg.line")), 2)
        self.assertGreater(len(driven.all("svg.line rect.bar")), 8)
        self.assertIn("from 7 April 2025", driven.text)
        driven.open("/print?at=2025-06-01")
        self.assertEqual(len(driven.all("details:not([open])")), 0)

    def test_each_page_is_usable(self) -> None:
        """The checks of usable.py over each page, at the smallest and the largest width; and all of a page by the keyboard."""
        driven = self.driven(self.server("food.txt"))

        def check(name: str) -> None:
            for width in (320, 1280):
                driven.width(width)
                self.assertEqual(usable.faults(driven), [], (name, width))

        driven.open("/"), check("the start")
        driven.start(), check("the first questions")
        driven.fill("On which day do you apply, or did you apply?", "2024-02-31")
        driven.go(), check("a wrong day")
        driven.answer(ADA)
        driven.fill("Who lives with you, and buys and prepares food together with you?", ["Ada", "Bo"])
        check("names")
        driven.open("/questions")
        driven.answer(ADA), check("questions of a person")
        self.assertEqual(usable.unreached(driven), [])
        driven.interview(ADA)
        for path in ("/result", "/answers", "/print", "/page/2", "/change?phrase=the+monthly+rent", "/change?phrase=the+members", "/nowhere", "/?lang=de", "/result?lang=de"):
            driven.open(path), check(path)
        driven.open("/result?lang=en")
        self.assertEqual(usable.unreached(driven), [])

    def test_deep_reasons(self) -> None:
        """Conclusions that rest on one another eighty times: the tree is cut, and no page is wider than its window."""
        rules = self.store.parent / "deep.txt"
        numbers = "".join(f"  number the sum {n}\n" for n in range(1, 81))
        sums = "the sum 1 = the start + 1\n" + "".join(f"the sum {n} = the sum {n - 1} + 1\n" for n in range(2, 81))
        rules.write_text(f"global\n  number the start\n{numbers}goal the sum 80\n{sums}")
        driven = self.driven(self.server(rules))
        driven.start()
        driven.answer({"What is the start?": "5"})
        for path in ("/result", "/print"):
            driven.open(path)
            self.assertIn("85", driven.text)
            driven.driver.execute_script("document.querySelectorAll('.why details').forEach(each => each.open = true)")
            self.assertIn("The sum 20: 25 by a rule; what it rests on is in the file of reasons", driven.text)
            self.assertEqual(usable.faults(driven), [])
            for width in WIDTHS:
                self.assertLessEqual(driven.overflow(width), 0, (path, width))
                self.assertGreater(int(driven.driver.execute_script("return Math.min(...[...document.querySelectorAll('.why p')].map(each => each.clientWidth))")), 80)

    def test_pages_of_what_went_wrong(self) -> None:
        """Each is plain, usable and no wider than its window, and the case is kept."""
        for name, heading, driven in troubles(self.store.parent):
            self.assertEqual(driven.one("h1").text, heading)
            for width in WIDTHS:
                self.assertLessEqual(driven.overflow(width), 0, name)
                self.assertEqual(usable.faults(driven), [], (name, width))
        self.assertEqual([len(lines) for lines in kept(self.store)], [2])

    def test_the_checks_find_errors(self) -> None:
        driven = self.driven(self.server("permit.txt"))
        page = (
            "<h1>A</h1><h3 style='color:%23aaa'>pale</h3><input id=a><input id=a><a href='%23b'></a><button style='width:9px;height:9px;padding:0'>x</button>"
            "<label>one<input type=radio></label><table><tr><td>x</td></tr></table><svg></svg><p style='background:%23222'>dark</p><label for=c>c</label>"
        )
        driven.driver.get(f"data:text/html,{page}")
        found = " ".join(usable.faults(driven))
        for said in ("no language", "no title", "left out", "the id a", "names b", "no name: <input> a", "9 by 9", "without a question", "table", "without a title", "contrast of 2.3", "contrast of 1.3", "names c"):
            self.assertIn(said, found)

    def test_the_first_tab_stop_skips_to_the_content(self) -> None:
        from selenium.webdriver.common.keys import Keys

        driven = self.driven(self.server("permit.txt"))
        driven.open("/")
        driven.one("body").send_keys(Keys.TAB)
        found_first = driven.driver.switch_to.active_element
        self.assertEqual(found_first.text, "Skip to the content")
        self.assertGreaterEqual(found_first.location["x"], 0)

    def test_wrong_date_and_hostile_name(self) -> None:
        name = '<script>document.title="owned"</script>"'
        driven = self.driven(self.server("food.txt"))
        driven.start()
        driven.fill("On which day do you apply, or did you apply?", "2024-02-31")
        driven.go()
        self.assertIn("There is no such day", driven.text)
        self.assertEqual(driven.one("#q0-d").get_attribute("value"), "31")
        self.assertEqual(driven.driver.switch_to.active_element.get_attribute("id"), "q0-d")
        driven.interview(renamed(ADA, name))
        self.assertEqual(driven.path, "/result")
        self.assertNotIn("owned", driven.driver.title)
        driven.open("/answers")
        self.assertIn(f"When was {name} born?", driven.text)
        self.assertNotIn("owned", driven.driver.title)
        self.assertEqual(goals("food.txt", kept(self.store)[0]), GOALS)

    def test_two_browsers(self) -> None:
        server = self.server("food.txt")
        one, two = self.driven(server), self.driven(server)
        one.start(), two.start()
        people = (one, ADA), (two, renamed(ADA, "Zoe"))
        for _ in range(12):
            for driven, person in people:
                if driven.path == "/questions":
                    driven.answer(person)
        for driven, mine, other in ((one, "Ada", "Zoe"), (two, "Zoe", "Ada")):
            driven.open("/answers")
            self.assertIn(mine, driven.text)
            self.assertNotIn(other, driven.text)
        self.assertEqual([goals("food.txt", lines) for lines in kept(self.store)], [GOALS, GOALS])

    def test_the_server_is_killed(self) -> None:
        """The server is killed after each page and started again: the interview goes on where it was."""
        server = self.server("permit.txt")
        driven = self.driven(server)
        driven.start()
        for _ in range(3):
            server.kill()
            server = self.server("permit.txt", port=server.port)
            driven.answer(PERMIT)
        self.assertEqual(driven.path, "/result")
        self.assertIn("90.00", driven.text)

    @unittest.skipUnless(shutil.which("gunicorn"), "gunicorn isn't installed (Debian: gunicorn)")
    def test_workers(self) -> None:
        """With several workers, of which one is killed after each page: whichever answers goes on where the interview was."""
        server = self.server("permit.txt", workers=3)
        driven = self.driven(server)
        driven.start()
        for _ in range(3):
            workers = subprocess.run(["ps", "-o", "pid=", "--ppid", str(server.process.pid)], capture_output=True, text=True).stdout.split()
            self.assertTrue(workers)
            os.kill(int(workers[0]), signal.SIGKILL)
            driven.answer(PERMIT)
        self.assertEqual(driven.path, "/result")
        self.assertIn("90.00", driven.text)


if __name__ == "__main__":
    unittest.main()
