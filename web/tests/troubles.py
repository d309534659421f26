"""Brings a browser to each page that says what went wrong, but for those that need a busy machine or a full store."""
from __future__ import annotations

import pathlib
from collections.abc import Iterator

from browsing import EXAMPLES
from driving import Driven, Server
from people import PERMIT
from sennabasket.program import found


def troubles(folder: pathlib.Path) -> Iterator[tuple[str, str, Driven]]:
    """The name of each page, its first heading, and the browser that shows it. The folder is for what the server needs."""
    rules, stopped, opa, store = folder / "permit.txt", folder / "stopped", folder / "opa", folder / "cases.sqlite"
    text = (EXAMPLES / "permit.txt").read_text()
    rules.write_text(text)
    opa.write_text(f'#!/bin/sh\n[ -e {stopped} ] && exit 5\nexec {found("opa")} "$@"\n')
    opa.chmod(0o755)
    server = Server(rules, store, env={"OPA": str(opa)})
    driven = Driven(server.address)
    try:
        driven.open("/questions")
        yield "lost", "There is no case here", driven
        driven.start()
        driven.forge("csrf", "x")
        driven.go()
        yield "foreign", "Please send that again", driven
        driven.open("/questions")
        driven.forge("title", "x" * 600_000)
        driven.go()
        yield "large", "That was too much at once", driven
        driven.open("/questions")
        driven.answer(PERMIT)
        stopped.touch()
        driven.open("/questions")
        yield "stopped", "The program has stopped", driven
        stopped.unlink()
        server.stop()
        rules.write_text(text.replace("garage", "shed"))
        server = Server(rules, store, port=server.port)
        driven.open("/questions")
        yield "rules", "The rules have changed", driven
    finally:
        driven.quit()
        server.stop()
