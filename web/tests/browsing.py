"""A small browser for tests: it keeps cookies, reads forms, fills them in by the questions' texts, and sends them."""
from __future__ import annotations

import html
import pathlib
import re
import sys
import tempfile
import unittest
from collections.abc import Mapping
from html.parser import HTMLParser
from typing import Any

HERE = pathlib.Path(__file__).resolve().parent
TOP = HERE.parents[1]
EXAMPLES = TOP / "examples"
sys.path[:0] = [str(HERE.parent), str(TOP / "clients" / "python")]

try:
    import flask  # noqa: F401
    from interview import create_app
    from sennabasket.program import found

    found("opa"), found("desk")
    MISSING = ""
except ImportError as error:
    MISSING = f"Flask isn't installed: {error}"
except Exception as error:  # the programs
    MISSING = str(error)

needs_site = unittest.skipIf(MISSING, MISSING)


class Parts(HTMLParser):
    """The forms of a page, with their controls and which question each stands in."""

    def __init__(self, text: str) -> None:
        super().__init__()
        self.forms: list[dict[str, Any]] = []
        self.legends: list[str] = []
        self.depth = 0
        self.is_legend = False
        self.feed(text)

    def handle_starttag(self, tag: str, attributes: list[tuple[str, str | None]]) -> None:
        said = dict(attributes)
        if tag == "form":
            self.forms.append({"action": said.get("action"), "method": said.get("method"), "controls": [], "questions": {}})
        elif tag == "legend":
            self.is_legend = True
            self.legends.append("")
        elif tag in ("input", "button") and self.forms:
            self.forms[-1]["controls"].append(said | {"tag": tag})
            name = said.get("name") or ""
            if re.fullmatch(r"q\d+-p", name):
                self.forms[-1]["questions"][name[:-2]] = self.legends[-1].strip()

    def handle_endtag(self, tag: str) -> None:
        self.is_legend = self.is_legend and tag != "legend"

    def handle_data(self, data: str) -> None:
        if self.is_legend:
            self.legends[-1] += data


class Browser:
    def __init__(self, app: Any) -> None:
        self.client = app.test_client()
        self.text, self.status, self.address = "", 0, "/"
        self.headers: Mapping[str, str] = {}

    def open(self, address: str, **more: Any) -> Browser:
        for _ in range(5):
            answer = self.client.open(address, **more)
            if answer.status_code != 303:
                break
            address, more = answer.headers["Location"], {}
        self.address, self.status, self.headers = address, answer.status_code, answer.headers
        self.text = answer.get_data(as_text=True)
        return self

    @property
    def parts(self) -> Parts:
        return Parts(self.text)

    @property
    def said(self) -> str:
        """The page's text without its tags."""
        return html.unescape(re.sub(r"\s+", " ", re.sub(r"<[^>]*>", " ", self.text)))

    def form(self, action: str) -> dict[str, Any]:
        return next(form for form in self.parts.forms if form["action"].split("?")[0] == action.split("?")[0] and form["method"] == "post")

    def filled(self, action: str) -> dict[str, Any]:
        """What the form would send as it is."""
        sent: dict[str, Any] = {}
        for control in self.form(action)["controls"]:
            name, sort = control.get("name"), control.get("type")
            if not name or control["tag"] == "button" or (sort in ("radio", "checkbox") and "checked" not in control):
                continue
            sent.setdefault(name, []).append(control.get("value") or "")
        return sent

    def start(self) -> Browser:
        self.open("/")
        return self.open("/start", method="POST", data=self.filled("/start"))

    def send(self, answers: dict[str, Any], action: str = "go", **changed: Any) -> Browser:
        """Fills in the questions of a page by their texts, and sends it: True and False, texts, lists of names, days as ISO texts."""
        address = self.address
        form, sent = self.form(address), self.filled(address)
        for question, said in answers.items():
            key = next(key for key, text in form["questions"].items() if text == question)
            sent = {name: value for name, value in sent.items() if not (name == key or (name.startswith(f"{key}-") and name not in (f"{key}-p", f"{key}-i")))}
            sent |= typed(form, key, said)
        return self.open(address, method="POST", data={**sent, "action": action, **changed})

    @property
    def questions(self) -> list[str]:
        return list(self.form(self.address)["questions"].values())


def typed(form: dict[str, Any], key: str, said: Any) -> dict[str, Any]:
    controls = {control.get("name") for control in form["controls"]}
    if said == "~":
        return {f"{key}-n": "1"} if f"{key}-n" in controls else {key: "~"}
    if isinstance(said, bool):
        return {key: "yes" if said else "no"}
    if isinstance(said, list):
        if f"{key}-r" in controls:
            return {f"{key}-r": said or ["~"]}
        return {f"{key}-{n}": name for n, name in enumerate(said)} if said else {f"{key}-0": "", f"{key}-none": "1"}
    if f"{key}-d" in controls:
        year, month, day = said.split("-") if said.count("-") == 2 else (said, "", "")
        return {f"{key}-d": day, f"{key}-m": month, f"{key}-y": year}
    return {key: said}


class SiteCase(unittest.TestCase):
    """A test with a site over an example, and a store of its own."""

    rulebase = "permit.txt"

    def site(self, rulebase: str | None = None, **more: Any) -> Any:
        folder = tempfile.TemporaryDirectory()
        self.addCleanup(folder.cleanup)
        name = rulebase or self.rulebase
        more.setdefault("store", pathlib.Path(folder.name) / "cases.sqlite")
        app = create_app(EXAMPLES / name, **more)
        app.testing = False
        self.addCleanup(app.extensions["site"].live.cases.close)
        return app
