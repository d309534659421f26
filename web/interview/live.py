"""The cases that this process has open in its `desk cases`: taken from the store, and given back to it."""
from __future__ import annotations

import threading
from collections import OrderedDict
from collections.abc import Callable
from typing import TypeVar

from sennabasket import Case, Cases, Fault

from .store import Kept, Store

T = TypeVar("T")
MOST_OPEN = 500
TURNS = 5


class Busy(Exception):
    """Other requests changed the case again and again."""


class Gone(Exception):
    """The case isn't kept any more."""


class Live:
    """A case may be served by any process: what this one has open is used only where it is of the kept version."""

    def __init__(self, cases: Cases, store: Store) -> None:
        self.cases, self.store = cases, store
        self.open: OrderedDict[int, tuple[int, Case]] = OrderedDict()
        self.lock = threading.RLock()

    def case(self, kept: Kept) -> Case:
        """The case of these lines. The lock is held by whoever calls."""
        version, case = self.open.pop(kept.number, (-1, None))
        if case is None or version != kept.version:
            if case is not None:
                case.close()
            case = self.cases.open(kept.lines)
        self.open[kept.number] = (kept.version, case)
        while len(self.open) > MOST_OPEN:
            self.open.popitem(last=False)[1][1].close()
        return case

    def look(self, kept: Kept, what: Callable[[Case], T]) -> T:
        with self.lock:
            try:
                return what(self.case(kept))
            except Fault:
                self.open.pop(kept.number, None)
                raise

    def change(self, token: str, what: Callable[[Case, Kept], T]) -> T:
        """Changes the case, and keeps it; where another request was quicker, again on what that one left."""
        with self.lock:
            for _ in range(TURNS):
                kept = self.store.find(token)
                if kept is None:
                    raise Gone
                try:
                    case = self.case(kept)
                    told = what(case, kept)
                    kept.lines = case.lines
                except BaseException:
                    self.open.pop(kept.number, None)
                    raise
                if self.store.keep(kept):
                    self.open[kept.number] = (kept.version, case)
                    return told
                self.open.pop(kept.number, None)
            raise Busy
