"""The addresses of the site, and what each of them shows."""
from __future__ import annotations

import secrets
import shlex
from collections.abc import Callable
from datetime import date
from functools import partial
from typing import Any

from flask import Flask, Response, abort, g, redirect, request
from sennabasket import FIRST_DAY, LAST_DAY, BadText, Case, Goal, Point, ProgramDied, Refused
from werkzeug.exceptions import HTTPException
from werkzeug.wrappers import Response as Answer

from . import fields, forms
from .live import Busy, Gone
from .pictures import picture
from .saying import Saying
from .serving import Serving, Site
from .store import Full, Kept
from .why import Why


def add(app: Flask, site: Site) -> None:
    """Puts the site's pages into the application."""
    views = Views(app, site)
    app.extensions["site"] = site
    app.before_request(views.before)
    app.after_request(views.after)
    for fault, handler in (
        (HTTPException, views.http_fault), (ProgramDied, views.died), (Refused, views.rules_changed), (Gone, views.lost), (Busy, views.busy),
        (Full, views.full), (Exception, views.fault),
    ):  # fmt: skip
        app.register_error_handler(fault, handler)
    for address, name, methods in (
        ("/", "start", ["GET"]), ("/start", "begin", ["POST"]), ("/questions", "questions", ["GET"]), ("/questions", "answer", ["POST"]),
        ("/page/<int:number>", "page", ["GET"]), ("/page/<int:number>", "answer_page", ["POST"]), ("/answers", "answers", ["GET"]),
        ("/change", "change", ["GET"]), ("/change", "answer_change", ["POST"]), ("/result", "result", ["GET"]), ("/print", "for_print", ["GET"]),
        ("/case.json", "saved", ["GET"]), ("/report/<int:number>.txt", "report", ["GET"]), ("/end", "end", ["POST"]),
    ):  # fmt: skip
        app.add_url_rule(address, name, getattr(views, name), methods=methods)


class Views(Serving):
    """The pages themselves."""

    def start(self) -> Answer:
        is_new = not g.token
        g.token = g.token or secrets.token_urlsafe(32)  # a token without a case, so that no other place can send the form
        response = self.show("start.html", has_case=self.has_case(), days=f"{self.app.config['KEPT_DAYS']:g}", about=self.site.words.about(g.saying.language))
        if is_new:
            self.set_cookie(response, self.site.cookie, g.token)
        return response

    def begin(self) -> Answer:
        self.site.store.end(g.token)
        response = redirect("/questions", 303)
        self.set_cookie(response, self.site.cookie, self.site.store.start())
        return response

    def end(self) -> Answer:
        self.site.store.end(g.token)
        response = redirect("/", 303)
        response.delete_cookie(self.site.cookie, path="/", httponly=True, samesite="Lax", secure=self.app.config["IS_SECURE"])
        return response

    # Questions

    def questions(self) -> Answer:
        def what(case: Case, kept: Kept) -> Any:
            screen, still = forms.needed(case)
            if screen is None:
                return None
            made = forms.fresh(case, screen, self.site.words, g.saying)
            return screen, made, forms.progress(case, len(still), made), len(kept.pages)

        found = self.look(what)
        if found is None:
            return redirect("/result", 303)
        screen, made, progress, pages = found
        return self.form(made, title_of_screen=screen.title, progress=progress, back=f"/page/{pages - 1}" if pages else "/")

    def form(self, made: list[fields.Field], status: int = 200, **parts: Any) -> Answer:
        groups: list[tuple[str | None, list[fields.Field]]] = []
        for each in made:
            if not groups or groups[-1][0] != each.point.of:
                groups.append((each.point.of, []))
            groups[-1][1].append(each)
        wrong = [each for each in made if each.error]
        focus = wrong[0].error_at if wrong else next((each.focus for each in made if each.focus), "")
        return self.show("questions.html", status, groups=groups, wrong=wrong, focus=focus, bounds=fields.bounds, **parts)

    def answer(self) -> Answer:
        return self.sent(None)

    def sent(self, number: int | None, one: Point | None = None) -> Answer:
        """Answers that were sent: of the questions' page, of an earlier page by its number, or of one point."""
        parts: dict[str, Any] = {"title_of_screen": request.form.get("title", "")[:1000], "progress": None, "back": "/questions"}
        is_next = number is None and one is None
        if number is not None:
            parts |= {"back": f"/page/{number - 1}" if number else "/", "is_earlier": True}
        if one is not None:
            parts |= {"back": "/answers", "one": one, "is_earlier": True}

        def what(case: Case, kept: Kept) -> tuple[list[fields.Field], bool, int]:
            made = forms.sent(case, self.site.words, g.saying, request.form, one)
            is_done = forms.act(case, made, g.saying, request.form, is_strict=not is_next)
            if is_next and not is_done:
                parts["progress"] = forms.progress(case, len(forms.needed(case)[1]), made)
            if is_done and is_next:
                page = [(each.point.phrase, each.point.of) for each in made]
                if not kept.pages or kept.pages[-1] != page:
                    kept.pages = [*kept.pages, page][-forms.MOST_PAGES :]
            return made, is_done, len(kept.pages)

        made, is_done, pages = self.site.live.change(g.token, what)
        if not is_done:
            if is_next and pages:
                parts["back"] = f"/page/{pages - 1}"
            return self.form(made, 422 if any(each.error for each in made) else 200, **parts)
        if one is not None:
            return redirect("/answers", 303)
        if number is not None and number + 1 < pages:
            return redirect(f"/page/{number + 1}", 303)
        return redirect("/questions", 303)

    def page(self, number: int) -> Answer:
        def what(case: Case, kept: Kept) -> Any:
            if number >= len(kept.pages):
                abort(404)
            points = [Point(phrase, of) for phrase, of in kept.pages[number]]
            return forms.held(case, points, self.site.words, g.saying)

        made = self.look(what)
        if not made:
            return redirect(f"/page/{number - 1}" if number else "/questions", 303)
        titles = {each.about.screen or "Questions" for each in made}
        return self.form(made, title_of_screen=titles.pop(), progress=None, back=f"/page/{number - 1}" if number else "/", is_earlier=True)

    def answer_page(self, number: int) -> Answer:
        return self.sent(number)

    # What was answered

    def answers(self) -> Answer:
        return self.show("answers.html", groups=self.look(lambda case, kept: forms.answered(case, self.site.words, g.saying)))

    def point(self) -> Point:
        said = request.args
        point = Point(said.get("phrase", ""), said.get("of"))
        try:
            str(point)
        except BadText:
            abort(404)
        return point

    def change(self) -> Answer:
        point = self.point()
        made = self.look(lambda case, kept: forms.held(case, [point], self.site.words, g.saying))
        if not made:
            abort(404)
        return self.form(made, title_of_screen=made[0].about.screen or "Questions", progress=None, back="/answers", is_earlier=True, one=point)

    def answer_change(self) -> Answer:
        return self.sent(None, self.point())

    # Results

    def day(self) -> date:
        said = request.args
        try:
            if said.get("at"):
                day = date.fromisoformat(said["at"])
            elif said.get("y"):
                day = date(int(said["y"][:4]), int(said.get("m", "")[:2]), int(said.get("d", "")[:2]))
            else:
                return date.today()
        except ValueError:
            return date.today()
        return day if FIRST_DAY <= day <= LAST_DAY else date.today()

    def shown(self, template: str) -> Answer:
        day, words, saying = self.day(), self.site.words, g.saying

        def what(case: Case, kept: Kept) -> Any:
            goals = case.goals()
            return goals, case.look((Point(goal.phrase), day) for goal in goals).reports, forms.answered(case, words, saying)

        goals, reports, groups = self.look(what)
        results = []
        for number, (goal, report) in enumerate(zip(goals, reports)):
            about = words.base.attributes[goal.phrase]
            said = partial(saying.value, kind=about.kind, unit=words.unit(saying.language, about.phrase))
            results.append(
                {
                    "goal": goal, "label": words.label(saying.language, about), "help": words.help(saying.language, about, None),
                    "today": said(goal.line.at(day)), "rows": rows(goal, saying, said), "picture": picture(goal.line, day),
                    "why": Why(report, words, saying, number).tree(),
                }
            )  # fmt: skip
        return self.show(
            template, results=results, day=day, is_open=any(goal.state == "undecided" for goal in goals), file=quoted(words.base.name),
            today=date.today(), groups=groups,
        )

    def result(self) -> Answer:
        return self.shown("result.html")

    def for_print(self) -> Answer:
        return self.shown("print.html")

    def saved(self) -> Answer:
        return self.download("case.json", "application/json", self.look(lambda case, kept: case.saved()))

    def report(self, number: int) -> Answer:
        if number >= len(self.site.base.goals):
            abort(404)
        day = self.day()
        text = self.look(lambda case, kept: case.report(self.site.base.goals[number], day)).text
        return self.download(f"report{number + 1}.txt", "text/plain; charset=utf-8", text.encode())

    def download(self, name: str, sort: str, text: bytes) -> Answer:
        response = Response(text, content_type=sort)
        response.headers["Content-Disposition"] = f'attachment; filename="{name}"'
        return response


def quoted(name: str) -> str:
    """The name of a file as a word of a command."""
    return shlex.quote(f"./{name}" if name.startswith("-") else name)


def rows(goal: Goal, saying: Saying, said: Callable[[Any], str]) -> list[tuple[int, str, str]]:
    """The line of a goal as rows of a table."""
    days = [since for since, _ in goal.line.parts]
    if len(days) == 1:
        return [(1, saying("always"), said(goal.line.parts[0][1]))]
    first = saying("until_day", day=saying.day(date.fromordinal(days[1].toordinal() - 1)))
    return [(n, first if n == 1 else saying("from_day", day=saying.day(since)), said(value)) for n, (since, value) in enumerate(goal.line.parts, 1)]
