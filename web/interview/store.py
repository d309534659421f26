"""Cases in SQLite: each is the lines that made it, under a random token of which only the digest is kept."""
from __future__ import annotations

import contextlib
import hashlib
import json
import os
import pathlib
import secrets
import sqlite3
import time
from collections.abc import Iterator
from dataclasses import dataclass, field

TABLES = """
create table if not exists secret (one integer primary key check (one = 1), text text not null);
create table if not exists cases (
  number integer primary key autoincrement, digest text not null unique, rulebase text not null, version integer not null,
  lines text not null, pages text not null, touched real not null
);
create index if not exists by_touched on cases (touched);
"""
MOST_CASES = 200_000
Page = list[tuple[str, str | None]]


@dataclass
class Kept:
    """A case as it is kept. `pages` are the points of each page that was sent, so that one can go back to it."""

    number: int
    version: int
    lines: list[str]
    pages: list[Page] = field(default_factory=list)


class Full(Exception):
    """No further case can be kept."""


def digest(token: str) -> str:
    return hashlib.sha256(token.encode("utf-8", "replace")).hexdigest()


class Store:
    def __init__(self, path: pathlib.Path, rulebase: str, days: float = 30) -> None:
        self.path, self.rulebase, self.seconds = path, rulebase, days * 86_400
        path.parent.mkdir(parents=True, exist_ok=True)
        os.close(os.open(path, os.O_CREAT | os.O_RDWR, 0o600))
        with self.open() as base:
            base.execute("pragma journal_mode = wal")
            base.executescript(TABLES)
            base.execute("insert or ignore into secret values (1, ?)", (secrets.token_hex(32),))
        with self.open() as base:
            self.secret: str = base.execute("select text from secret").fetchone()[0]

    @contextlib.contextmanager
    def open(self) -> Iterator[sqlite3.Connection]:
        base = sqlite3.connect(self.path, timeout=20)
        try:
            with base:
                yield base
        finally:
            base.close()

    def start(self) -> str:
        """Begins a case, and gives its token. Cases that nobody has touched for long are deleted."""
        token = secrets.token_urlsafe(32)
        with self.open() as base:
            base.execute("delete from cases where touched < ?", (time.time() - self.seconds,))
            if base.execute("select count(*) from cases").fetchone()[0] >= MOST_CASES:
                raise Full
            base.execute(
                "insert into cases (digest, rulebase, version, lines, pages, touched) values (?, ?, 0, '[]', '[]', ?)",
                (digest(token), self.rulebase, time.time()),
            )
        return token

    def find(self, token: str) -> Kept | None:
        with self.open() as base:
            row = base.execute(
                "select number, version, lines, pages, touched from cases where digest = ? and rulebase = ? and touched >= ?",
                (digest(token), self.rulebase, time.time() - self.seconds),
            ).fetchone()
            if row and row[4] < time.time() - 3_600:
                base.execute("update cases set touched = ? where number = ?", (time.time(), row[0]))
        if row is None:
            return None
        return Kept(row[0], row[1], json.loads(row[2]), [[(p, of) for p, of in page] for page in json.loads(row[3])])

    def keep(self, kept: Kept) -> bool:
        """Keeps what has changed; not where another request has changed the case in the meantime."""
        with self.open() as base:
            done = base.execute(
                "update cases set lines = ?, pages = ?, version = version + 1, touched = ? where number = ? and version = ?",
                (json.dumps(kept.lines), json.dumps(kept.pages), time.time(), kept.number, kept.version),
            )
        kept.version += 1
        return done.rowcount == 1

    def end(self, token: str) -> None:
        with self.open() as base:
            base.execute("delete from cases where digest = ?", (digest(token),))
