"""A small checkout for tests: the tools of this repository over a few crates, with stand-ins for programs and `rt`."""
import hashlib
import os
import pathlib
import shutil
import subprocess
import sys
import tempfile

TOP = pathlib.Path(__file__).resolve().parents[2]
TOOLS = ("source", "launch", "build", "release", "proving.py", "notices.py", "unproved")
PROGRAMS = ("opa", "desk", "rules")
PROGRAM = "#!/bin/sh\necho {} \"$@\"\n"
# Stands in for the tests of `rules` that a release is to pass.
RULES = """import os, unittest


class Rules(unittest.TestCase):
    def test_programs(self) -> None:
        self.assertTrue(os.access(os.environ["RULES"], os.X_OK) and os.access(os.environ["OPA"], os.X_OK))
"""

# Does what `rt ci` does as far as tools/proving.py looks at it. A crate that has the word `wrong` isn't proved; with
# the word `differs` everything is proved and built, and the program prints something else than it should.
RT = """#!/bin/sh
case "$1" in
  version) cat "$KIT_OF_TEST" ;;
  doc) echo "$PROGRAMS_OF_TEST/kit/START-HERE.md" ;;
  ci)
    for crate in low opa desk rules; do
      [ -d crates/$crate ] || continue
      if grep -q wrong crates/$crate/src/*; then
        echo "rt: $crate NOT PROVED"; echo "1 passed, 1 failed"; exit 1
      fi
      mkdir -p crates/$crate/out
      echo "rt: $crate proved"
    done
    for crate in opa desk rules; do
      [ ! -d crates/$crate ] || cp "$PROGRAMS_OF_TEST/$crate" crates/$crate/out/$crate
    done
    if grep -q differs crates/opa/src/*; then
      echo "rt: FAILED: opa (run)"; echo "3 passed, 1 failed"; exit 1
    fi
    echo "3 passed, 0 failed"
    ;;
esac
"""


class Checkout:
    """A repository in a folder of its own, and a PATH whose `rt` is the stand-in."""

    def __init__(self) -> None:
        self.held = tempfile.TemporaryDirectory(prefix="opa-tools-")
        self.room = pathlib.Path(self.held.name)
        self.top = self.room / "a place" / "repo"
        (self.top / "tools").mkdir(parents=True)
        for name in TOOLS:
            shutil.copy(TOP / "tools" / name, self.top / "tools")
        for name in (*PROGRAMS, "KIT", "HANDLES", "VERSION"):
            shutil.copy(TOP / name, self.top)
        crates = "# a note: none\nlow: std # the lowest: it uses std\ntests_low: low\nopa: low\ndesk: low\nrules: low\n"
        self.write("crates.txt", crates)
        for name in ("low", "tests_low", *PROGRAMS):
            self.write(f"crates/{name}/src/main.rt", f"// {name}\n")
        self.write("tools/stories.py", "print('1 passed, 0 failed')\n")
        for name in ("rules", "faults"):
            self.write(f"tools/tests/test_{name}.py", RULES)
        self.write(".gitignore", "out/\n__pycache__/\n")
        self.programs = self.room / "programs"
        self.programs.mkdir()
        for name in PROGRAMS:
            self.program(name, PROGRAM.format(f"proved {name}"))
        kit = self.programs / "kit"
        (kit / "rlibs" / "std.rlib" / "below" / "os").mkdir(parents=True)
        (kit / "rattle" / "os").mkdir(parents=True)
        (kit / "rattle" / "os" / "LICENSE").write_text("the licence of os\n")
        bin = self.room / "bin"
        bin.mkdir()
        (bin / "rt").write_text(RT)
        (bin / "rt").chmod(0o755)
        # Python is that of the test, whatever stands in front of it.
        (bin / "python3").symlink_to(sys.executable)
        self.env = {
            **os.environ,
            "PATH": f"{bin}:{os.environ['PATH']}",
            "XDG_CACHE_HOME": str(self.room / "cache"),
            "KIT_OF_TEST": str(self.top / "KIT"),
            "PROGRAMS_OF_TEST": str(self.programs),
        }

    def close(self) -> None:
        self.held.cleanup()

    def write(self, name: str, text: str, mode: int = 0o644) -> None:
        path = self.top / name
        path.parent.mkdir(parents=True, exist_ok=True)
        path.write_text(text)
        path.chmod(mode)

    def program(self, name: str, text: str) -> None:
        (self.programs / name).write_text(text)
        (self.programs / name).chmod(0o755)

    def run(self, *words: str, **more: str) -> tuple[int, str, str]:
        """Runs a command at the top; gives its status, what it printed and what it said."""
        env = {**self.env, **more}
        done = subprocess.run([*words], cwd=self.top, env=env, capture_output=True, text=True, input="")
        return done.returncode, done.stdout, done.stderr

    def commit(self) -> None:
        who = ("-c", "user.name=a", "-c", "user.email=a@b")
        for words in (("init", "-q"), ("add", "-A"), (*who, "commit", "-qm", "all")):
            subprocess.run(["git", *words], cwd=self.top, check=True)

    def source(self) -> str:
        return self.run("tools/source")[1].strip()

    def release(self, needs: str = "glibc 2.0") -> None:
        """Writes a release of these sources by hand."""
        for name in PROGRAMS:
            self.write(f"release/{name}", PROGRAM.format(f"released {name}"), 0o755)
        for name in ("VERSION", "KIT"):
            self.write(f"release/{name}", (self.top / name).read_text())
        self.write("release/SOURCE", f"{self.source()}\n")
        self.write("release/NEEDS", f"{needs}\n")
        self.write("release/NOTICES", "none\n")
        names = (*PROGRAMS, "VERSION", "KIT", "SOURCE", "NEEDS", "NOTICES")
        sums = [(hashlib.sha256((self.top / "release" / name).read_bytes()).hexdigest(), name) for name in names]
        self.write("release/SHA256SUMS", "".join(f"{sum}  {name}\n" for sum, name in sums))
