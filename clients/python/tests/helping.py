"""What the tests share: where things are, and whether there are programs to test with."""
from __future__ import annotations

import pathlib
import sys
import unittest

HERE = pathlib.Path(__file__).resolve().parent
TOP = HERE.parents[2]
EXAMPLES = TOP / "examples"
DESCRIBE = TOP / "tools" / "describe"
sys.path.insert(0, str(HERE.parent))

from sennabasket import Fault, Rulebase  # noqa: E402
from sennabasket.program import found  # noqa: E402


def programs() -> str:
    """Why there are no programs; nothing, where there are."""
    try:
        found("opa"), found("desk")
    except Fault as fault:
        return str(fault)
    return ""


needs_programs = unittest.skipIf(programs(), programs())
described: dict[str, Rulebase] = {}


def base(name: str) -> Rulebase:
    """An example's rulebase."""
    if name not in described:
        described[name] = Rulebase.describe(EXAMPLES / name)
    return described[name]
