"""What the pages say of the tree of crates, compared with crates.txt and crates/: tools/check prints what differs.

- crates.txt has each crate below those that it uses.
- docs/ARCHITECTURE.md has a row for each crate, in the order and the layers of crates.txt, with what it uses, and below
  it one for each module that has a folder; and it says how many crates there are, and how long their longest chain is.
- What a page names as a crate or as a module of one is there, and so are the files of definitions and proofs.
- Each edit that docs/WRONG_BODIES.md names is there; each text that an edit takes stands once in its file.
"""
import pathlib
import re
from collections.abc import Iterator

import proving

# Its tables are of a run over an earlier tree of crates.
OF_BEFORE = "PERFORMANCE.md"
# These name files of definitions and of proofs, each of the crate that the text is about.
OF_PARTS = ("ARCHITECTURE.md", "DECISIONS.md", "MEANING.md", "PROOFS.md")
NAMED = re.compile(r"`((?:opa|tests)_\w+)((?:::\w+)*)`")


def used_directly(crates: dict[str, list[str]], name: str) -> list[str]:
    """The crates that a crate uses, but for those that others of them use."""
    used = [other for other in crates[name] if other in crates]
    further = {lower for other in used for lower in proving.below(crates, [other]) if lower != other}
    return [other for other in used if other not in further]


def longest_chain(crates: dict[str, list[str]]) -> int:
    """How many crates wait for one another at most. Those that a crate uses stand before it."""
    depth: dict[str, int] = {}
    for name, used in crates.items():
        depth[name] = 1 + max((depth.get(other, 0) for other in used), default=0)
    return max(depth.values())


def modules(top: pathlib.Path, crate: str) -> set[str]:
    return {f"{crate}::{path.name}" for path in (top / "crates" / crate / "src").iterdir() if path.is_dir()}


def layers(text: str) -> list[tuple[str, list[str]]]:
    """The layers of crates.txt, a comment each, with their crates."""
    found: list[tuple[str, list[str]]] = []
    for line in text.splitlines():
        if head := re.fullmatch(r"# (\w+): (.+)", line):
            found.append((f"**{head[1]}**: {head[2]}", []))
        elif (row := re.match(r"(\w+):", line)) and found:
            found[-1][1].append(row[1])
    return found


def order(crates: dict[str, list[str]]) -> Iterator[str]:
    listed: set[str] = set()
    for name, used in crates.items():
        for other in used:
            if other in crates and other not in listed:
                yield f"crates.txt: {name} uses {other}, which doesn't stand above it"
        listed.add(name)


def table(top: pathlib.Path, crates: dict[str, list[str]], page: str) -> Iterator[str]:
    rows = re.findall(r"^\| `([\w:]+)` \| (.+) \| (.*)\|$", page, re.M)
    names = [name for name, _, _ in rows if "::" not in name]
    if names != list(crates):
        differ = sorted(set(names) ^ set(crates)) or "the order of crates.txt"
        yield f"docs/ARCHITECTURE.md: the rows of crates are not those of crates.txt: {differ}"
    for name, _, uses in rows:
        if name in crates and re.findall(r"`(\w+)`", uses) != used_directly(crates, name):
            yield f"docs/ARCHITECTURE.md: {name} uses {', '.join(used_directly(crates, name))}"
    above = ""
    for name, _, _ in rows:
        above = above if "::" in name else name
        if not name.startswith(above):
            yield f"docs/ARCHITECTURE.md: the row of {name} isn't below that of its crate"
    wanted = {module for crate in crates for module in modules(top, crate)}
    for name in sorted(wanted ^ {name for name, _, _ in rows if "::" in name}):
        yield f"docs/ARCHITECTURE.md: {name} has {'no row' if name in wanted else 'a row, and no folder'}"


def architecture(top: pathlib.Path, crates: dict[str, list[str]]) -> Iterator[str]:
    page = (top / "docs" / "ARCHITECTURE.md").read_text()
    yield from table(top, crates, page)
    for head, names in layers((top / "crates.txt").read_text()):
        start = page.find(f"\n{head}\n")
        below = re.findall(r"^\| `(\w+)` \|", page[start : page.find("\n\n", start + len(head) + 3)], re.M)
        if start < 0 or below != names:
            yield f"docs/ARCHITECTURE.md: no table below {head!r} has the crates of that layer of crates.txt"
    said = f"There are {len(crates)} crates, at most {longest_chain(crates)} of them in a chain"
    if said not in page:
        yield f"docs/ARCHITECTURE.md doesn't say: {said}"


def first_lines(top: pathlib.Path, crates: dict[str, list[str]]) -> Iterator[str]:
    for name in crates:
        roots = [top / "crates" / name / "src" / file for file in ("lib.rt", "main.rt")]
        if not any(root.is_file() and root.read_text().startswith("//! ") for root in roots):
            yield f"{name}: its first line doesn't say what it is"


def is_there(source: pathlib.Path, module: str) -> bool:
    """Whether a crate has this module, or a call or type of this name."""
    if (source / f"{module}.rt").is_file():
        return True
    item = re.compile(rf"^(?:pub )?(?:fn|struct|enum|trait|const|type) {module}\b", re.M)
    return any(item.search(path.read_text()) for path in source.rglob("*.rt"))


def is_part(path: pathlib.Path) -> bool:
    return path.is_dir() or path.with_name(path.name + ".antt").is_file()


def names(top: pathlib.Path, crates: dict[str, list[str]]) -> Iterator[str]:
    """What the pages name as a crate, a part of one, or a file of definitions."""
    for page in [top / "README.md", *sorted((top / "docs").glob("*.md"))]:
        if page.name == OF_BEFORE:
            continue
        for number, line in enumerate(page.read_text().splitlines(), 1):
            where = f"{page.relative_to(top)}:{number}"
            for crate, parts in NAMED.findall(line):
                if crate not in crates:
                    yield f"{where}: there is no crate {crate}"
                elif parts and not is_there(top / "crates" / crate / "src", parts.split("::")[1]):
                    yield f"{where}: there is no {crate}{parts}"
            for path in re.findall(r"\b(?:specs|proofs)/\w+(?:/\w+)*\b", line) if page.name in OF_PARTS else ():
                if not any(is_part(top / "crates" / crate / path) for crate in crates):
                    yield f"{where}: no crate has {path}"


def wrong_bodies(top: pathlib.Path, crates: dict[str, list[str]]) -> Iterator[str]:
    page = (top / "docs" / "WRONG_BODIES.md").read_text()
    for crate, listed in re.findall(r"`(opa_\w+)`((?:, `\w+`)+)", page):
        for name in re.findall(r"`(\w+)`", listed):
            if not (top / "crates" / crate / "must-fail" / f"{name}.edit").is_file():
                yield f"docs/WRONG_BODIES.md: {crate} has no edit {name}"


def edit(path: pathlib.Path) -> Iterator[str]:
    """What an edit names and takes out: each text stands once in its file, as the pairs before it left that."""
    texts: dict[str, str] = {}
    file, old = "", ""
    for key, said in re.findall(r"^(file|old|new): ?(.*)$", path.read_text(), re.M):
        if key == "file":
            file, source = said, path.parent.parent / said
            if not source.is_file():
                yield f"there is no {said}"
            texts.setdefault(file, source.read_text() if source.is_file() else "")
        elif key == "old":
            old = said
            if texts.get(file, "").count(old) != 1:
                yield f"{old!r} doesn't stand once in {file}"
        else:
            texts[file] = texts.get(file, "").replace(old, said, 1)


def edits(top: pathlib.Path) -> Iterator[str]:
    for path in sorted((top / "crates").glob("*/must-fail/*.edit")):
        yield from (f"{path.relative_to(top)}: {why}" for why in edit(path))


def faults(top: pathlib.Path) -> Iterator[str]:
    crates = proving.crates_of(top)
    yield from order(crates)
    yield from architecture(top, crates)
    yield from first_lines(top, crates)
    yield from names(top, crates)
    yield from wrong_bodies(top, crates)
    yield from edits(top)
