"""A web page over `desk cases`: an interview that a citizen can use.

The page shows what the programs print, and decides nothing. `create_app` makes the application for a rulebase; `application` makes it
from the environment, for a server with several processes:

    RULEBASE=examples/food.txt gunicorn --chdir web --workers 4 'interview:application()'
"""
from __future__ import annotations

import os
import pathlib
import sys

TOP = pathlib.Path(__file__).resolve().parents[2]
sys.path.insert(0, str(TOP / "clients" / "python"))

from flask import Flask  # noqa: E402
from sennabasket import Cases, Rulebase  # noqa: E402
from sennabasket.program import MEMORY  # noqa: E402

from . import pages  # noqa: E402
from .live import Live  # noqa: E402
from .saying import Saying, languages  # noqa: E402
from .serving import Site  # noqa: E402
from .store import Store  # noqa: E402
from .words import Words, beside  # noqa: E402

MOST_SENT = 512 * 1024


def create_app(
    rulebase: pathlib.Path | str,
    *,
    store: pathlib.Path | str | None = None,
    words: pathlib.Path | str | None = None,
    describe: pathlib.Path | str | None = None,
    opa: str | None = None,
    desk: str | None = None,
    seconds: float = 10,
    memory: int = MEMORY,
    days: float = 30,
    is_secure: bool = False,
) -> Flask:
    """The application; a rulebase that isn't accepted raises RulebaseRefused with its refusal."""
    main = pathlib.Path(rulebase).resolve()
    base = Rulebase.describe(main, describe, opa, memory=memory)
    cases = Cases(base, desk=desk, opa=opa, seconds=seconds, memory=memory)
    said = Words.read(base, pathlib.Path(words) if words else beside(main))
    kept = Store(pathlib.Path(store or TOP / "out" / "cases.sqlite"), base.name, days)
    app = Flask(__name__)
    app.config.update(MAX_CONTENT_LENGTH=MOST_SENT, IS_SECURE=is_secure, KEPT_DAYS=days)
    app.jinja_env.trim_blocks = app.jinja_env.lstrip_blocks = True
    there = languages()
    sayings = {language: Saying(language) for language in said.languages if language in there} or {"en": Saying("en")}
    pages.add(app, Site(base, Live(cases, kept), kept, said, sayings))
    return app


def application() -> Flask:
    """The application from the environment: RULEBASE, and where they are wanted WORDS, STORE, DESCRIBE, OPA, DESK, SECURE=1."""
    said = os.environ
    return create_app(
        said["RULEBASE"], store=said.get("STORE"), words=said.get("WORDS"), describe=said.get("DESCRIBE"), is_secure=said.get("SECURE") == "1"
    )
