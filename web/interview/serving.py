"""What holds for each request: its case and language, its safety, and what is said where something goes wrong."""
from __future__ import annotations

import hashlib
import hmac
import re
import sqlite3
import urllib.parse
from collections.abc import Callable
from dataclasses import dataclass
from typing import Any

from flask import Flask, Response, abort, g, render_template, request
from sennabasket import Case, Rulebase
from werkzeug.exceptions import HTTPException
from werkzeug.wrappers import Response as Answer

from .live import Gone, Live
from .saying import Saying
from .store import Kept, Store
from .words import Words

TOKEN = re.compile(r"[\w-]{43}")
HEADERS = {
    "Content-Security-Policy": "default-src 'none'; style-src 'self'; img-src 'self'; form-action 'self'; base-uri 'none'; frame-ancestors 'none'",
    "X-Content-Type-Options": "nosniff",
    "X-Frame-Options": "DENY",
    "Referrer-Policy": "same-origin",
    "Cross-Origin-Opener-Policy": "same-origin",
}
MOST_CONTROLS = 10_000
FAULTS = {400: "csrf", 404: "missing", 405: "method", 411: "large", 413: "large"}


@dataclass
class Site:
    base: Rulebase
    live: Live
    store: Store
    words: Words
    sayings: dict[str, Saying]

    @property
    def cookie(self) -> str:
        return "case_" + hashlib.sha256(self.base.name.encode()).hexdigest()[:8]

    def csrf(self, token: str) -> str:
        return hmac.new(self.store.secret.encode(), f"form {token}".encode(), "sha256").hexdigest()


class Serving:
    """The ground of the site's pages."""

    def __init__(self, app: Flask, site: Site) -> None:
        self.app, self.site = app, site

    # Each request

    def before(self) -> None:
        chosen = request.args.get("lang") or request.cookies.get("language") or request.accept_languages.best_match(list(self.site.sayings))
        g.saying = self.site.sayings.get(chosen or "") or self.site.sayings.get(self.site.words.language) or next(iter(self.site.sayings.values()))
        token = request.cookies.get(self.site.cookie, "")
        g.token = token if TOKEN.fullmatch(token) else ""
        if request.method == "POST":
            self.before_post()

    def before_post(self) -> None:
        length = request.content_length
        if length is None:
            abort(411)
        if length > self.app.config["MAX_CONTENT_LENGTH"]:
            left = min(length, 32 << 20)  # what is sent is taken and dropped, so that the page is read
            stream = request.environ["wsgi.input"]
            while left > 0 and (part := stream.read(min(left, 65_536))):
                left -= len(part)
            abort(413)
        if len(request.form) > MOST_CONTROLS:
            abort(413)
        sent = request.form.get("csrf", "").encode("utf-8", "replace")
        if not g.token or not hmac.compare_digest(sent, self.site.csrf(g.token).encode()):
            abort(400)

    def after(self, response: Answer) -> Answer:
        response.headers.extend(HEADERS)
        if request.endpoint != "static":
            response.headers["Cache-Control"] = "no-store"
        if request.args.get("lang") in self.site.sayings:
            self.set_cookie(response, "language", request.args["lang"])
        return response

    def set_cookie(self, response: Answer, name: str, value: str) -> None:
        response.set_cookie(
            name, value, max_age=int(self.app.config["KEPT_DAYS"] * 86_400), httponly=True, samesite="Lax", secure=self.app.config["IS_SECURE"], path="/"
        )

    def show(self, name: str, status: int = 200, **parts: Any) -> Answer:
        site, saying = self.site, g.saying
        text = render_template(
            name, t=saying, words=site.words, language=saying.language, sayings=site.sayings, csrf=site.csrf(g.token), has_case=parts.pop("has_case", True),
            title=site.words.title(saying.language), path=request.path, query_for=self.query_for, **parts,
        )  # fmt: skip
        return Response(text, status=status, content_type="text/html; charset=utf-8")

    @staticmethod
    def query_for(language: str) -> str:
        """The address's query with another language."""
        said = {key: value for key, value in request.args.items() if key != "lang"} if request.method == "GET" else {}
        return urllib.parse.urlencode({**said, "lang": language})

    # What can go wrong

    def plain(self, key: str, status: int) -> Answer:
        if not hasattr(g, "saying"):
            g.saying, g.token = next(iter(self.site.sayings.values())), ""
        return self.show("fault.html", status, key=key, has_case=key != "lost" and self.has_case())

    def http_fault(self, fault: HTTPException) -> Answer:
        return self.plain(FAULTS.get(fault.code or 500, "fault"), fault.code or 500)

    def died(self, fault: Exception) -> Answer:
        self.app.logger.error("a program: %s", fault)
        return self.plain("died", 503)

    def rules_changed(self, fault: Exception) -> Answer:
        self.app.logger.error("a kept case: %s", fault)
        return self.plain("rules", 409)

    def lost(self, fault: Exception) -> Answer:
        return self.plain("lost", 404)

    def busy(self, fault: Exception) -> Answer:
        return self.plain("busy", 409)

    def full(self, fault: Exception) -> Answer:
        return self.plain("full", 503)

    def fault(self, fault: Exception) -> Answer:
        self.app.logger.exception("a fault")
        return self.plain("fault", 500)

    # The case

    def has_case(self) -> bool:
        try:
            return g.token != "" and self.site.store.find(g.token) is not None
        except sqlite3.Error:
            return False

    def kept(self) -> Kept:
        kept = self.site.store.find(g.token) if g.token else None
        if kept is None:
            raise Gone
        return kept

    def look(self, what: Callable[[Case, Kept], Any]) -> Any:
        kept = self.kept()

        def on(case: Case) -> Any:
            return what(case, kept)

        return self.site.live.look(kept, on)
