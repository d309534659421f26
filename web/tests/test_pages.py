"""Interviews through the pages, with what they come to; back and change; languages; downloads."""
import json
import pathlib
import re
import subprocess
import tempfile
import unittest
from typing import Any

from browsing import EXAMPLES, Browser, SiteCase, needs_site
from people import ADA, GOALS, PERMIT, renamed


def lines_of(app: Any, browser: Browser) -> list[str]:
    """The kept lines of the browser's case."""
    site = app.extensions["site"]
    kept = site.store.find(browser.client.get_cookie(site.cookie).value if hasattr(browser.client, "get_cookie") else cookie(browser, site.cookie))
    assert kept
    return list(kept.lines)


def cookie(browser: Browser, name: str) -> str:
    return str(next(each.value for each in browser.client.cookie_jar if each.name == name))


def goals_of(app: Any, lines: list[str]) -> list[str]:
    """What `opa run` prints for `goals` over these lines."""
    return str(app.extensions["site"].live.cases.run(lines, ["goals"])).split("\n")[:-1]


def interview(browser: Browser, known: dict[str, Any]) -> None:
    for _ in range(40):
        if browser.address != "/questions":
            return
        browser.send({question: known[question] for question in browser.questions})
    raise AssertionError("there is no end of questions")


@needs_site
class Interviews(SiteCase):
    def test_food(self) -> None:
        app = self.site("food.txt")
        browser = Browser(app).start()
        interview(browser, ADA)
        self.assertEqual((browser.address, browser.status), ("/result", 200))
        printed = subprocess.run(
            [app.extensions["site"].live.cases.opa, "interview", "food.txt"], cwd=EXAMPLES, input=(EXAMPLES / "food_ada_replies.txt").read_bytes(), capture_output=True
        ).stdout.decode().split("\n")[-5:-1]
        self.assertEqual(printed, GOALS)
        self.assertEqual(goals_of(app, lines_of(app, browser)), printed)
        for text in ("Would the application be approved?", "204.00 dollars a month", "129.00 dollars", "12 December 2024", "Ada is elderly"):
            self.assertIn(text, browser.said)
        self.assertEqual(browser.said.count("Settled"), 4)
        self.assertEqual(browser.text.count("<svg"), 4)
        for language, sentence in (("en", "This is so on every day."), ("de", "Das gilt an jedem Tag.")):
            said = browser.open(f"/result?lang={language}").said
            self.assertGreater(said.count(sentence), 0)
            self.assertEqual(said.count(sentence) + browser.text.count("<table>"), 4)

    def test_permit_with_dates(self) -> None:
        """An answer that changes, as in the example's replies."""
        app = self.site("permit.txt")
        browser = Browser(app).start()
        browser.send({"Does the resident live in the street?": False, "Does the resident have a garage?": False}, **{"q0-c1-f-d": "1", "q0-c1-f-m": "5", "q0-c1-f-y": "2024", "q0-c1": "yes"})
        browser.send({"Does the resident have a car?": True})
        browser.send({"What is the length of the car?": "4.6"})
        self.assertEqual(browser.address, "/result")
        self.assertEqual(goals_of(app, lines_of(app, browser)), ["the resident is entitled: false; from 2024-05-01 true (settled)", "the yearly fee: 0.00; from 2024-05-01 90.00 (settled)"])
        self.assertIn("until 30 April 2024", browser.said)
        self.assertIn("<svg", browser.text)
        self.assertIn("from 1 May 2024: Yes", browser.open("/answers").said)

    def test_all_examples_come_to_an_end(self) -> None:
        """With "I can't say" to everything and two names in each list each interview comes to its result."""
        for name in ("benefit", "child_benefit", "children", "estimate", "housing", "insured", "library", "redundancy", "scholarship", "school", "training"):
            with self.subTest(name=name):
                app = self.site(f"{name}.txt")
                browser = Browser(app).start()
                for count in range(30):
                    if browser.address != "/questions":
                        break
                    sent = {}
                    for question in browser.questions:
                        is_list = question.startswith("Which are")
                        sent[question] = [f"{question[:20]} {count}a", f"{question[-20:]} {count}b"] if is_list else "~"
                    browser.send(sent)
                    self.assertEqual(browser.status, 200, browser.said)
                self.assertEqual((browser.address, browser.status), ("/result", 200))
                self.assertTrue(all(line.endswith(("(settled)", "(decided)")) for line in goals_of(app, lines_of(app, browser))))

    def test_back_and_change(self) -> None:
        app = self.site("food.txt")
        browser = Browser(app).start()
        for _ in range(3):
            browser.send({question: ADA[question] for question in browser.questions})
        browser.open("/page/0")
        self.assertIn('value="2024"', browser.text)
        browser.send({"On which day do you apply, or did you apply?": "2024-03-14"})
        self.assertEqual(browser.address, "/page/1")
        browser.send({"Who lives with you, and buys and prepares food together with you?": ["Ada"]})
        self.assertEqual(browser.address, "/page/2")
        browser.send({})
        self.assertEqual(browser.address, "/questions")
        self.assertIn("answer the day of the application = 2024-03-14", lines_of(app, browser))
        self.assertEqual(browser.open("/page/3").status, 404)

    def test_change_of_one_answer(self) -> None:
        app = self.site("permit.txt")
        browser = Browser(app).start()
        interview(browser, PERMIT)
        self.assertIn("90.00", browser.said)
        address = re.findall(r'href="(/change\?[^"]*length[^"]*)"', browser.open("/answers").text)[0]
        browser.open(address).send({"What is the length of the car?": "4.5"})
        self.assertEqual(browser.address, "/answers")
        self.assertIn("60.00", browser.open("/result").said)
        browser.open(address).send({}, action="remove")
        self.assertNotIn("length", browser.open("/answers").said)
        self.assertIn("this isn't final", browser.open("/result").said)
        browser.open("/questions")
        self.assertEqual(browser.questions, ["What is the length of the car?"])

    def test_a_name_that_goes_takes_its_answers(self) -> None:
        app = self.site("food.txt")
        browser = Browser(app).start()
        interview(browser, ADA)
        browser.open("/change?phrase=the+members").send({"Who lives with you, and buys and prepares food together with you?": ["Bo"]})
        self.assertEqual(browser.status, 200)
        self.assertNotIn("Ada", browser.said)
        self.assertIn("When was Bo born?", browser.open("/questions").questions)

    def test_names_are_added_and_removed(self) -> None:
        browser = Browser(self.site("food.txt")).start()
        question = "Who lives with you, and buys and prepares food together with you?"
        browser.send({"On which day do you apply, or did you apply?": "2024-11-12"})
        self.assertIn("You have given 1 answer.", browser.said)
        browser.send({question: ["Ada"]}, action="add-name:q0")
        self.assertIn("You have given 1 answer.", browser.said)
        self.assertEqual(browser.filled("/questions")["q0-0"] + browser.filled("/questions")["q0-1"], ["Ada", ""])
        browser.send({question: ["Ada", "Bo"]}, action="remove-name:q0:0")
        self.assertEqual(browser.filled("/questions")["q0-0"], ["Bo"])
        self.assertNotIn("q0-1", browser.filled("/questions"))

    def test_references(self) -> None:
        """A list that names who lives elsewhere is chosen from those."""
        with tempfile.TemporaryDirectory() as folder:
            file = pathlib.Path(folder) / "chair.txt"
            file.write_text(
                "verb is / is not / is /\nglobal\n  bool the club [is] led\n  reference the chair: one the member\n  reference the helpers: many the member\n"
                "  text the town\nentity the member\n  in global: the members\n  bool the member [is] old\ngoal the club is led\nthe club is led if\n"
                '  For(the chair, the member is old) and\n  InstanceCount(the helpers) > 1 and\n  the town = "Ulm"\n'
            )
            file.with_name("chair.words.toml").write_text('[en.words."the town"]\nchoices = {Ulm = "Ulm on the Danube", Bonn = "Bonn"}\n')
            app = self.site(str(file))
            browser = Browser(app).start()
            self.assertEqual(browser.questions, ["Which are the chair?", "Which are the helpers?", "What is the town?"][: len(browser.questions)])
            self.assertIn("Nobody has been named yet", browser.said)
            browser.open("/change?phrase=the+members").send({"Which are the members?": ["Zoe", "Yan"]})
            browser.open("/questions")
            browser.send({"Which are the chair?": ["Zoe"], "Which are the helpers?": ["Yan", "Zoe"], "What is the town?": "Ulm"})
            browser.send({"Is Zoe old?": True})
            self.assertEqual((browser.address, goals_of(app, lines_of(app, browser))), ("/result", ["the club is led: true (settled)"]))
            self.assertIn("Ulm on the Danube", browser.open("/answers").said)
            browser.open("/change?phrase=the+chair").send({"Which are the chair?": ["Mallory"]})
            self.assertEqual(browser.status, 422)


@needs_site
class Faults(SiteCase):
    def test_what_is_wrong_stands_at_its_field(self) -> None:
        browser = Browser(self.site("food.txt")).start()
        day = "On which day do you apply, or did you apply?"
        for typed, said in (("2024-02-31", "There is no such day"), ("1500-01-01", "The day must be between 1600 and 2399"), ("24-01-01", "There is no such day"), ("x-y-z", "There is no such day")):
            browser.send({day: typed})
            self.assertEqual(browser.status, 422)
            self.assertIn(said, browser.said)
            self.assertIn("<title>Error: ", browser.text)
            self.assertEqual(len(re.findall(r"autofocus", browser.text)), 1)
            self.assertRegex(browser.text, r'href="#q0-[dy]"')
        browser.send({})
        self.assertEqual(browser.status, 422)
        browser.send({day: "~"})
        self.assertEqual((browser.status, browser.address), (200, "/result"))

    def test_numbers(self) -> None:
        app = self.site("permit.txt")
        browser = Browser(app).start()
        browser.send({"Does the resident live in the street?": True, "Does the resident have a garage?": False})
        browser.send({"Does the resident have a car?": True})
        question = "What is the length of the car?"
        for typed, said in (("25", "From 0 to 20"), ("-1", "From 0 to 20"), ("4.123", "At most 2 digits after the decimal point"), ("long", "Write a number"), ("1e3", "Write a number"), ("4.56789", "outside"), ("99999999999999999", "Write a number"), ("٣", "Write a number")):
            browser.send({question: typed})
            self.assertEqual(browser.status, 422, typed)
            self.assertIn(said, browser.said)
        browser.send({question: "4.5", }, **{"q0-n": "1"})
        self.assertIn("not both", browser.said)
        browser.send({question: "4.5"})
        self.assertEqual(browser.address, "/result")

    def test_changes(self) -> None:
        browser = Browser(self.site("permit.txt")).start()
        question = "Does the resident live in the street?"
        at = lambda place, d, m, y, value: {f"q0-c{place}-f-d": d, f"q0-c{place}-f-m": m, f"q0-c{place}-f-y": y, f"q0-c{place}": value}
        for more, said in (
            (at(1, "1", "5", "2024", ""), "Say what was so from that day on"),
            (at(1, "", "", "", "yes"), "Say on which day this changed"),
            (at(1, "31", "4", "2024", "yes"), "There is no such day"),
            (at(1, "1", "5", "2024", "yes") | at(2, "1", "5", "2024", "no"), "must rise"),
            (at(1, "1", "1", "1600", "yes"), "must rise"),
        ):
            browser.send({question: False, "Does the resident have a garage?": False}, **more)
            self.assertEqual(browser.status, 422)
            self.assertIn(said, browser.said)
        browser.send({question: False}, action="add-change:q0", **at(1, "1", "5", "2024", "yes"))
        self.assertIn("Change 2", browser.said)


@needs_site
class Languages(SiteCase):
    def test_german(self) -> None:
        app = self.site("food.txt")
        browser = Browser(app)
        browser.open("/?lang=de")
        self.assertIn('<html lang="de">', browser.text)
        browser.start()
        self.assertEqual(browser.questions, ["An welchem Tag beantragen Sie die Hilfe, oder haben Sie sie beantragt?"])
        browser.send({browser.questions[0]: "2024-11-12"})
        browser.send({browser.questions[0]: ["Ada"]})
        self.assertIn("Wann ist Ada geboren?", browser.questions)
        browser.open("/change?phrase=the+monthly+rent").send({"Was zahlen Sie im Monat an Miete oder für den Kredit auf Ihr Haus?": "1.234,50"})
        self.assertIn("answer the monthly rent = 1234.5", lines_of(app, browser))
        self.assertIn("1.234,50 Dollar im Monat", browser.open("/answers").said)
        browser.open("/change?phrase=the+monthly+rent").send({"Was zahlen Sie im Monat an Miete oder für den Kredit auf Ihr Haus?": "12.5"})
        self.assertIn("Schreiben Sie eine Zahl", browser.said)
        self.assertIn("1,234.50 dollars", browser.open("/answers?lang=en").said)

    def test_the_browsers_language(self) -> None:
        app = self.site("food.txt")
        self.assertIn('<html lang="de">', Browser(app).open("/", headers={"Accept-Language": "de-AT,de;q=0.9,en;q=0.5"}).text)
        self.assertIn('<html lang="en">', Browser(app).open("/", headers={"Accept-Language": "fr"}).text)


@needs_site
class Downloads(SiteCase):
    def test_case_and_report(self) -> None:
        app = self.site("food.txt")
        browser = Browser(app).start()
        interview(browser, ADA)
        for number in range(1, 5):
            self.assertIn(f"opa verify food.txt report{number}.txt\n", browser.text)
        opa = app.extensions["site"].live.cases.opa
        with tempfile.TemporaryDirectory() as folder:
            report = pathlib.Path(folder) / "report2.txt"
            report.write_text(browser.open("/report/1.txt?at=2024-12-01").text)
            done = subprocess.run([opa, "verify", "food.txt", report], cwd=EXAMPLES, capture_output=True, text=True)
            self.assertEqual((done.returncode, done.stdout), (0, "supported: the benefit at the application at 2024-12-01 is 204.00\n"))
            kept = pathlib.Path(folder) / "case.json"
            kept.write_text(browser.open("/case.json").text)
            self.assertEqual(json.loads(kept.read_text())["format"], "policy-case")
            done = subprocess.run([opa, "run", "food.txt"], cwd=EXAMPLES, input=f'load "{kept}"\ngoals\n', capture_output=True, text=True)
            self.assertEqual(done.stdout.split("\n")[:-1], ["loaded", *GOALS])
        self.assertEqual(browser.open("/report/9.txt").status, 404)

    def test_print(self) -> None:
        browser = Browser(self.site("permit.txt")).start()
        interview(browser, PERMIT)
        browser.open("/print?at=2024-06-01")
        self.assertNotIn("<details>", browser.text)
        self.assertIn("On 1 June 2024", browser.said)
        self.assertIn("Your answers", browser.said)


@needs_site
class Names(SiteCase):
    def test_hostile_names(self) -> None:
        """What is typed is shown as text, and is a name and nothing else."""
        app = self.site("food.txt")
        for name in ("<script>alert(1)</script>", '"><img src=x onerror=alert(1)>', "Ada\"\ngoals", "{{ 7*7 }}", "' or 1=1 --", '"1" close', "~1", "#", "{member}", "a = b", "x of \"y\""):
            with self.subTest(name=name):
                browser = Browser(app).start()
                browser.send({browser.questions[0]: "2024-11-12"})
                browser.send({browser.questions[0]: [name]})
                if "\n" in name:
                    self.assertEqual(browser.status, 422)
                    continue
                self.assertEqual(browser.status, 200, browser.said)
                self.assertIn(f"About {name}", browser.said.replace("  ", " "))
                self.assertNotIn("<script", browser.text)
                self.assertNotIn("<img", browser.text)
                person = renamed(ADA, name)
                interview(browser, person)
                self.assertEqual(browser.address, "/result", browser.said[:500])
                self.assertEqual(goals_of(app, lines_of(app, browser)), GOALS)
                self.assertNotIn("<script", browser.text + browser.open("/print").text + browser.open("/answers").text)


if __name__ == "__main__":
    unittest.main()
