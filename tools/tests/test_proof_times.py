"""tools/proof_times: how long the parts of a proof took, by the files that the checker leaves."""
import importlib.machinery
import importlib.util
import os
import pathlib
import signal
import subprocess
import sys
import tempfile
import time
import types
import unittest

PROGRAM = pathlib.Path(__file__).resolve().parents[1] / "proof_times"


def loaded() -> types.ModuleType:
    loader = importlib.machinery.SourceFileLoader("proof_times", str(PROGRAM))
    spec = importlib.util.spec_from_loader("proof_times", loader)
    assert spec is not None
    module = importlib.util.module_from_spec(spec)
    loader.exec_module(module)
    return module


def written(folder: pathlib.Path, name: str, at: float) -> None:
    path = folder / name
    path.write_bytes(b"")
    os.utime(path, (at, at))


class ProofTimes(unittest.TestCase):
    def setUp(self) -> None:
        self.room = tempfile.TemporaryDirectory()
        self.addCleanup(self.room.cleanup)
        self.folder = pathlib.Path(self.room.name) / "rattle-logic-built-locked-17-0"
        self.folder.mkdir()
        written(self.folder, "Rattle-opa_a-specs.Days.oantt", 1000.0)
        written(self.folder, "Rattle-opa_a-proofs.walk.Lts.oantt", 1040.0)
        written(self.folder, "Rattle-opa_a-proofs.walk.Proof.oantt", 1042.0)
        written(self.folder, "Rattle-opa_a-proofs.walk.step.Proof.oantt", 1049.0)
        written(self.folder, "stamp", 2000.0)

    def test_the_longest_first(self) -> None:
        tool = loaded()
        times: dict[str, float] = {}
        tool.seen(self.folder, times)
        self.assertEqual(tool.told(times, 5.0, 20), "opa_a: 4 parts in 49 s\n      40 s  walk.Lts\n       7 s  walk.step.Proof\n")
        self.assertEqual(tool.told(times, 0.0, 1), "opa_a: 4 parts in 49 s\n      40 s  walk.Lts\n")

    def test_nothing_of_nothing(self) -> None:
        tool = loaded()
        times: dict[str, float] = {}
        tool.seen(self.folder / "gone", times)
        self.assertEqual(tool.told(times, 0.0, 20), "")

    def test_a_proof_that_ends_and_one_that_goes_on(self) -> None:
        other = self.folder.with_name("rattle-logic-built-locked-18-0")
        other.mkdir()
        written(other, "Rattle-opa_b.Lemmas.oantt", 10.0)
        written(other, "Rattle-opa_b-proofs.Lemmas.oantt", 30.0)
        command = [sys.executable, str(PROGRAM), "--folder", self.room.name]
        with subprocess.Popen(command, stdout=subprocess.PIPE, text=True) as process:
            assert process.stdout is not None
            time.sleep(2.0)
            for path in self.folder.iterdir():
                path.unlink()
            self.folder.rmdir()
            self.assertEqual(process.stdout.readline(), "opa_a: 4 parts in 49 s\n")
            process.send_signal(signal.SIGINT)
            rest = process.stdout.read()
        self.assertEqual(rest, "      40 s  walk.Lts\n       7 s  walk.step.Proof\nopa_b: 2 parts in 20 s\n      20 s  Lemmas\n")
        self.assertEqual(process.returncode, 0)


if __name__ == "__main__":
    unittest.main()
