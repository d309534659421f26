"""The licences of the kit's libraries whose code the programs contain, as a text for who gets a program.

crates.txt says which libraries the crates use, and the kit which ones each of these stands on.
"""
import pathlib
import re
import subprocess
import textwrap

import proving

KINDS = re.compile(r"LICEN[CS]E|NOTICE|COPYING|UNLICENSE", re.I)


def kit_folder() -> pathlib.Path:
    """Where the kit is: `rt doc` prints the path of its first page."""
    done = subprocess.run(["rt", "doc"], capture_output=True, text=True, check=True)
    return pathlib.Path(done.stdout.strip()).parent


def filled(text: str) -> str:
    """The text in lines of at most 100 columns."""
    return textwrap.fill(text, 100)


def libraries(crates: dict[str, list[str]], programs: list[str], kit: pathlib.Path) -> list[str]:
    """The kit's libraries below the programs, by name."""
    left = {used for name in proving.below(crates, programs) for used in crates[name] if used not in crates} | {"std"}
    found: set[str] = set()
    while left:
        name = left.pop()
        found.add(name)
        under = kit / "rlibs" / f"{name}.rlib" / "below"
        left |= {path.name for path in under.iterdir()} - found if under.is_dir() else set()
    return sorted(found)


def text(crates: dict[str, list[str]], programs: list[str], kit: pathlib.Path) -> str:
    """Each licence once, below the names of the libraries that come with it."""
    names, without = {}, []
    for library in libraries(crates, programs, kit):
        folder = kit / "rattle" / library
        files = sorted(path for path in folder.iterdir() if KINDS.match(path.name)) if folder.is_dir() else []
        if not files:
            without.append(library)
        for path in files:
            names.setdefault(path.read_text(), []).append(library)
    listed = ", ".join(libraries(crates, programs, kit))
    parts = [filled(f"The programs contain code of these libraries of the kit of Rattle: {listed}.")]
    if without:
        parts.append(filled(f"The kit has no licence beside {', '.join(without)}. The others have these."))
    for licence, used in names.items():
        parts.append(f"{'-' * 72}\n{filled(', '.join(used))}:\n\n{licence.strip()}")
    return "\n\n".join(parts) + "\n"
