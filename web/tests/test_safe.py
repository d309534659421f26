"""What strangers may try: foreign tokens, forged forms, too much at once; and programs and servers that die."""
import os
import pathlib
import random
import re
import signal
import subprocess
import sys
import tempfile
import unittest

from browsing import EXAMPLES, HERE, Browser, SiteCase, needs_site
from people import PERMIT
from test_pages import cookie, goals_of, interview, lines_of

PAGES = ["/", "/questions", "/answers", "/result", "/print", "/change?phrase=the+resident+has+a+car", "/page/0", "/nowhere"]


@needs_site
class Pages(SiteCase):
    def test_headers_and_no_script(self) -> None:
        browser = Browser(self.site()).start()
        browser.send({"Does the resident live in the street?": True, "Does the resident have a garage?": False})
        for page in PAGES:
            browser.open(page)
            with self.subTest(page=page):
                said = browser.headers["Content-Security-Policy"]
                self.assertIn("default-src 'none'", said)
                self.assertNotIn("unsafe", said)
                self.assertNotIn("script-src", said)
                self.assertEqual(browser.headers["Cache-Control"], "no-store")
                self.assertNotRegex(browser.text, r"<script|<style|\sstyle=|\son[a-z]+=|javascript:")
                self.assertRegex(browser.text, r'<html lang="en">')
                self.assertEqual(len(re.findall(r"<h1", browser.text)), 1)

    def test_controls_have_names(self) -> None:
        """Each control has a label, or is named by its question."""
        browser = Browser(self.site("food.txt")).start()
        browser.send({browser.questions[0]: "2024-11-12"})
        browser.send({browser.questions[0]: ["Ada", "Bo"]})
        for page in ("/questions", "/answers", "/result", "/page/0", "/page/1", "/change?phrase=the+monthly+rent"):
            text = browser.open(page).text
            labelled = set(re.findall(r'<label for="([^"]+)"', text))
            ids = re.findall(r'\sid="([^"]+)"', text)
            self.assertEqual(len(ids), len(set(ids)), page)
            for control in re.findall(r"<input [^>]*>", text):
                if 'type="hidden"' not in control:
                    key = re.findall(r'\sid="([^"]+)"', control)[0]
                    named = re.search(r'aria-labelledby="([^"]+)"', control)
                    self.assertTrue(key in labelled or (named and named[1] in ids), control)
            for told in re.findall(r'aria-describedby="([^"]+)"', text):
                self.assertLessEqual(set(told.split()), set(ids), page)

    def test_contrast(self) -> None:
        """Each text colour on each ground that it stands on: 4.5 to 1 at least, as WCAG asks; bars, borders and the focus 3 to 1."""
        style = (HERE.parent / "interview" / "static" / "style.css").read_text()
        colour = dict(re.findall(r"--(\w+): (#[0-9a-f]{3,6});", style)) | {"white": "#fff"}
        colour |= {name: found for name, found in re.findall(r"\.bar\.(\w+) \{ fill: (#[0-9a-f]{6})", style)}

        def light(name: str) -> float:
            text = colour[name][1:]
            text = "".join(each * 2 for each in text) if len(text) == 3 else text
            parts = [int(text[n : n + 2], 16) / 255 for n in (0, 2, 4)]
            one, two, three = (part / 12.92 if part <= 0.03928 else ((part + 0.055) / 1.055) ** 2.4 for part in parts)
            return float(0.2126 * one + 0.7152 * two + 0.0722 * three)

        def contrast(one: str, two: str) -> float:
            high, low = sorted((light(one), light(two)), reverse=True)
            return (high + 0.05) / (low + 0.05)

        for text, ground in (("ink", "white"), ("ink", "tint"), ("soft", "white"), ("soft", "tint"), ("main", "white"), ("main", "tint"), ("white", "main"), ("white", "bad"), ("bad", "white"), ("good", "white")):
            self.assertGreaterEqual(contrast(text, ground), 4.5, (text, ground))
        for one, two in (("value", "white"), ("true", "white"), ("ink", "focus")):
            self.assertGreaterEqual(contrast(one, two), 3, (one, two))

    def test_cookies(self) -> None:
        app = self.site(is_secure=True)
        answer = app.test_client().get("/")
        said = answer.headers["Set-Cookie"]
        for part in ("HttpOnly", "SameSite=Lax", "Secure", "Path=/"):
            self.assertIn(part, said)

    def test_the_token_changes_at_the_start(self) -> None:
        app = self.site()
        browser = Browser(app).open("/")
        name = app.extensions["site"].cookie
        before = browser.client.get_cookie(name).value if hasattr(browser.client, "get_cookie") else cookie(browser, name)
        browser.start()
        after = browser.client.get_cookie(name).value if hasattr(browser.client, "get_cookie") else cookie(browser, name)
        self.assertNotEqual(before, after)
        text = pathlib.Path(app.extensions["site"].store.path).read_bytes()
        self.assertNotIn(after.encode(), text)
        self.assertEqual(os.stat(app.extensions["site"].store.path).st_mode & 0o077, 0)

    def test_foreign_tokens(self) -> None:
        app = self.site()
        name = app.extensions["site"].cookie
        for token in ("", "x", "a" * 43, "../../etc", "' or 1=1 --", "é" * 43, "a" * 5000):
            for page in ("/questions", "/answers", "/result", "/print", "/case.json", "/report/0.txt", "/page/0", "/change?phrase=the+resident+has+a+car"):
                answer = app.test_client().get(page, headers={"Cookie": f"{name}={token}".encode().decode("latin-1")})
                self.assertEqual(answer.status_code, 404, (token, page))
                self.assertIn("There is no case here", answer.get_data(as_text=True))

    def test_forged_forms(self) -> None:
        app = self.site()
        browser, other = Browser(app).start(), Browser(app).start()
        before = lines_of(app, browser)
        stranger = other.filled("/questions")["csrf"][0]
        forged: list[dict[str, str]] = [{}, {"csrf": ""}, {"csrf": stranger}, {"csrf": "é"}, {"csrf": "0" * 64}]
        for sent in forged:
            for page in ("/questions", "/start", "/end", "/page/0", "/change?phrase=the+resident+has+a+car"):
                answer = browser.client.post(page, data={**sent, "q0-p": "the resident has a car", "q0": "yes", "action": "go"})
                self.assertEqual(answer.status_code, 400, (sent, page))
        self.assertEqual(lines_of(app, browser), before)
        self.assertEqual(Browser(app).open("/start", method="POST", data={"csrf": stranger}).status, 400)

    def test_addresses(self) -> None:
        browser = Browser(self.site()).start()
        for page in ("/nowhere", "/questions/1", "/page/-1", "/page/99999999999999999999", "/report/1", "/change", "/change?phrase=the+weather", "/change?phrase=a%0Ab", "/change?phrase=the+yearly+fee", "/change?phrase=the+resident+has+a+car&of=Zoe", "/static/../pages.py", "/static/%2e%2e/pages.py"):
            browser.open(page)
            self.assertEqual(browser.status, 404, page)
        self.assertIn("There is no such page", browser.open("/nowhere").said)
        self.assertEqual(browser.open("/start").status, 405)
        self.assertEqual(browser.open("/", method="PUT").status, 405)
        for at in ("x", "2024-13-01", "0001-01-01", "9999-12-31"):
            self.assertEqual(browser.open(f"/result?at={at}").status, 200)
        self.assertEqual(browser.open("/result?d=x&m=y&y=z").status, 200)


@needs_site
class TooMuch(SiteCase):
    def test_bodies(self) -> None:
        app = self.site()
        browser = Browser(app).start()
        sent = browser.filled("/questions")
        browser.open("/questions", method="POST", data=b"x=" + b"a" * 10_000_000, content_type="application/x-www-form-urlencoded")
        self.assertEqual(browser.status, 413)
        self.assertIn("That was too much at once", browser.said)
        browser.open("/questions", method="POST", data={**sent, "q0": "yes", **{f"x{n}": "1" for n in range(20_000)}})
        self.assertEqual(browser.status, 413)
        browser.open("/questions", method="POST", data={**sent, "q0": "y" * 100_000})
        self.assertEqual(browser.status, 422)
        self.assertEqual(lines_of(app, browser), [])

    def test_many_names_and_changes(self) -> None:
        app = self.site("food.txt")
        browser = Browser(app).start()
        browser.send({browser.questions[0]: "2024-11-12"})
        browser.send({browser.questions[0]: ["n" * 101]})
        self.assertEqual(browser.status, 422)
        browser.send({browser.questions[0]: ["ä" * 51]})
        self.assertEqual(browser.status, 422)
        browser.send({browser.questions[0]: [f"N{n}" for n in range(500)]})
        self.assertEqual(browser.status, 422)
        self.assertIn("At most 60", browser.said)
        browser.send({browser.questions[0]: [f"N{n}" for n in range(60)]})
        line = next(line for line in lines_of(app, browser) if line.startswith("list"))
        self.assertEqual(line.count('"'), 120)
        many = {f"q0-c{n}-f-{part}": str(number) for n in range(1, 60) for part, number in (("d", 1), ("m", 1), ("y", 1900 + n))}
        browser.open("/change?phrase=the+monthly+rent").send({"What is your rent, or your mortgage payment, in a month?": "5"}, **many)
        self.assertIn("At most 40", browser.said)

    def test_a_case_has_an_end(self) -> None:
        from interview import forms

        app = self.site()
        browser = Browser(app).start()
        before, forms.MOST_LINES = forms.MOST_LINES, 1
        try:
            browser.send({"Does the resident live in the street?": True, "Does the resident have a garage?": False})
        finally:
            forms.MOST_LINES = before
        self.assertIn("This case has too many answers", browser.said)
        self.assertEqual(len(lines_of(app, browser)), 1)

    def test_cases_have_an_end(self) -> None:
        from interview import store

        app = self.site()
        before, store.MOST_CASES = store.MOST_CASES, 1
        try:
            Browser(app).start()
            self.assertIn("No further case", Browser(app).start().said)
        finally:
            store.MOST_CASES = before


@needs_site
class Anything(SiteCase):
    def test_whatever_is_sent(self) -> None:
        """Forms with anything in them: each is answered by a page, and the case's lines stay lines that the program takes."""
        chance = random.Random(20240501)
        app = self.site("food.txt")
        browser = Browser(app).start()
        base = app.extensions["site"].base
        browser.send({browser.questions[0]: "2024-11-12"}).send({"Who lives with you, and buys and prepares food together with you?": ["Ada"]})
        asked = [about.phrase for about in app.extensions["site"].words.asked()]
        points = [*asked * 5, *base.attributes, "the weather", "", "x\ny", 'a of "b"', "a" * 2000, "the members = none"]
        texts = ["", "1", "-1", "yes", "no", "~", "31", "2", "2024", "99999", "1e9", '"', '"; from 2024-01-01 2', "\n", "\x00", "\ud800", "é" * 60, "n" * 1001, "<b>", "{{x}}", "%s", "unknown"]
        for turn in range(250):
            sent = {"csrf": browser_csrf(browser), "action": chance.choice(["go", "go", "remove", "add-name:q0", "remove-name:q0:0", "add-change:q1", "x", "", "remove-name:q0:999", "add-change:q\u0661"])}
            for number in range(chance.randrange(6)):
                key = f"q{number}"
                sent[f"{key}-p"] = chance.choice(points)
                if chance.random() < (0.9 if "member's" in sent[f"{key}-p"] else 0.1):
                    sent[f"{key}-i"] = chance.choice(["Ada"] * 9 + texts)
                for part in ("", "-d", "-m", "-y", "-n", "-0", "-1", "-r", "-none", "-c1", "-c1-f-d", "-c1-f-m", "-c1-f-y", "-c2-f-d"):
                    if chance.random() < (0.9 if part == "" else 0.1):
                        sent[key + part] = chance.choice(["Ada", *texts])
            sent = {key: said.encode("utf-8", "replace").decode() for key, said in sent.items()}
            page = chance.choice(["/questions", "/page/0", "/change?phrase=the+members", "/change?phrase=the+member%27s+cash&of=Ada", "/change?phrase=the+monthly+rent"])
            answer = browser.client.post(page, data=sent)
            self.assertIn(answer.status_code, (200, 303, 422), (turn, page, sent))
        lines = lines_of(app, browser)
        self.assertGreater(len(lines), 3)
        self.assertEqual(len(goals_of(app, lines)), 4)


def browser_csrf(browser: Browser) -> str:
    return str(browser.filled("/questions")["csrf"][0])


@needs_site
class Apart(SiteCase):
    def test_one_case_never_sees_anothers(self) -> None:
        """Interviews through one server, turn by turn, with names and amounts that would show themselves elsewhere."""
        app = self.site("benefit.txt")
        browsers = [Browser(app).start() for _ in range(6)]
        for number, browser in enumerate(browsers):
            browser.send({browser.questions[0]: [f"Secret{number}"]})
        for _ in range(4):
            for number, browser in enumerate(browsers):
                if browser.address == "/questions":
                    browser.send({q: (str(700 + number) if "income" in q else False) for q in browser.questions})
        for number, browser in enumerate(browsers):
            self.assertEqual(browser.open("/result").status, 200)
            text = browser.text + browser.open("/answers").text + browser.open("/print").text + browser.open("/case.json").text + browser.open("/report/0.txt").text
            self.assertIn(f"Secret{number}", text)
            for other in range(6):
                if other != number:
                    self.assertNotIn(f"Secret{other}", text)
                    self.assertNotRegex(text, rf"(?<![0-9a-f]){700 + other}(?![0-9a-f])")  # not inside of a form's token

    def test_two_workers(self) -> None:
        """Two servers over one store, turn by turn: each goes on from what the other one kept."""
        with tempfile.TemporaryDirectory() as folder:
            store = pathlib.Path(folder) / "cases.sqlite"
            one, two = self.site(store=store), self.site(store=store)
            first, second = Browser(one).start(), Browser(two)
            name = one.extensions["site"].cookie
            token = first.client.get_cookie(name).value if hasattr(first.client, "get_cookie") else cookie(first, name)
            second.client.set_cookie(key=name, value=token, domain="localhost") if hasattr(first.client, "get_cookie") else second.client.set_cookie("localhost", name, token)
            first.send({"Does the resident live in the street?": True, "Does the resident have a garage?": False})
            second.open("/questions").send({"Does the resident have a car?": True})
            first.open("/questions").send({"What is the length of the car?": "4.8"})
            self.assertIn("90.00", second.open("/result").said)
            second.open("/change?phrase=the+length+of+the+car").send({"What is the length of the car?": "3"})
            self.assertIn("60.00", first.open("/result").said)

    def test_deleted(self) -> None:
        app = self.site()
        browser = Browser(app).start()
        browser.open("/answers")
        browser.open("/end", method="POST", data=browser.filled("/end"))
        self.assertEqual(browser.address, "/")
        self.assertEqual(browser.open("/questions").status, 404)
        with app.extensions["site"].store.open() as base:
            self.assertEqual(base.execute("select count(*) from cases").fetchone()[0], 0)

    def test_old_cases_go(self) -> None:
        app = self.site(days=1)
        browser = Browser(app).start()
        with app.extensions["site"].store.open() as base:
            base.execute("update cases set touched = touched - 90000")
        self.assertEqual(browser.open("/questions").status, 404)


@needs_site
class Programs(SiteCase):
    def test_the_program_is_killed(self) -> None:
        app = self.site()
        browser = Browser(app).start()
        browser.send({"Does the resident live in the street?": True, "Does the resident have a garage?": False})
        os.kill(app.extensions["site"].live.cases.running.process.pid, signal.SIGKILL)
        browser.send({"Does the resident have a car?": True})
        self.assertEqual(browser.status, 200)
        browser.send({"What is the length of the car?": "4.8"})
        self.assertIn("90.00", browser.said)

    def test_the_program_dies_again_and_again(self) -> None:
        app = self.site()
        browser = Browser(app).start()
        browser.send({"Does the resident live in the street?": True, "Does the resident have a garage?": False})
        cases = app.extensions["site"].live.cases
        kept, cases.desk = cases.desk, "/bin/false"
        cases.kill()
        before = lines_of(app, browser)
        for page in ("/questions", "/answers", "/result"):
            browser.open(page)
            self.assertEqual(browser.status, 503)
            self.assertIn("Your case is kept", browser.said)
        cases.desk = kept
        self.assertEqual(lines_of(app, browser), before)
        self.assertEqual(browser.open("/questions").questions, ["Does the resident have a car?"])
        opa, cases.opa = cases.opa, "/nowhere/opa"
        self.assertEqual(browser.open("/questions").status, 503)
        cases.opa = opa
        browser.open("/questions").send({"Does the resident have a car?": False})
        self.assertEqual(browser.address, "/result")

    def test_a_program_that_hangs(self) -> None:
        app = self.site(seconds=1)
        browser = Browser(app).start()
        cases = app.extensions["site"].live.cases
        os.kill(cases.running.process.pid, signal.SIGSTOP)
        self.assertEqual(browser.open("/questions").status, 503)
        self.assertEqual(browser.open("/questions").status, 200)

    def test_rules_that_have_changed(self) -> None:
        with tempfile.TemporaryDirectory() as folder:
            file = pathlib.Path(folder) / "permit.txt"
            text = (EXAMPLES / "permit.txt").read_text()
            file.write_text(text)
            store = pathlib.Path(folder) / "cases.sqlite"
            browser = Browser(self.site(str(file), store=store)).start()
            browser.send({"Does the resident live in the street?": True, "Does the resident have a garage?": False})
            file.write_text(text.replace("garage", "shed"))
            app = self.site(str(file), store=store)
            other = Browser(app)
            other.client = app.test_client()
            name = app.extensions["site"].cookie
            token = browser.client.get_cookie(name).value if hasattr(browser.client, "get_cookie") else cookie(browser, name)
            other.client.set_cookie(key=name, value=token, domain="localhost") if hasattr(browser.client, "get_cookie") else other.client.set_cookie("localhost", name, token)
            self.assertEqual(other.open("/questions").status, 409)
            self.assertIn("The rules have changed", other.said)
            self.assertEqual(len(lines_of(app, other)), 2)

    def test_a_rulebase_that_isnt_accepted(self) -> None:
        with tempfile.TemporaryDirectory() as folder:
            file = pathlib.Path(folder) / "bad.txt"
            file.write_text("goal the weather\n")
            done = subprocess.run([sys.executable, str(HERE.parent / "run"), str(file), "--store", f"{folder}/c.sqlite"], capture_output=True, text=True, timeout=60)
            self.assertEqual((done.returncode, done.stdout), (1, "refused: rulebase 3 bad.txt:1\n"))
            self.assertIn("bad.txt, line 1: 'goal the weather': a phrase", done.stderr)
            self.assertIn("Nothing is served", done.stderr)
            done = subprocess.run([sys.executable, str(HERE.parent / "run"), f"{folder}/none.txt"], capture_output=True, text=True, timeout=60)
            self.assertEqual(done.returncode, 1)
            self.assertIn("isn't there", done.stderr)

    def test_goals_are_the_programs(self) -> None:
        app = self.site()
        browser = Browser(app).start()
        interview(browser, PERMIT)
        self.assertEqual(goals_of(app, lines_of(app, browser)), ["the resident is entitled: true (settled)", "the yearly fee: 90.00 (settled)"])


if __name__ == "__main__":
    unittest.main()
