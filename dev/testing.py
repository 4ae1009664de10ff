"""Shared by the tests and the tools: counts of cases, runs of programs, and scripts as modules."""

import hashlib
import os
import subprocess
import sys
import tempfile
import threading
import time
from importlib.machinery import SourceFileLoader
from pathlib import Path
from types import ModuleType
from typing import Any, Callable, NamedTuple, Sequence

from dev import ROOT as ROOT

LENGTHS = {"1": 228, "2": 208, "4": 58, "5": 56, "6": 76, "7": 74, "8": 36, "I": 127, "P": 45}
TYPES = "".join(LENGTHS)
"""The record types of the nine files, and the length of a line of each."""


class Tally:
    """Counts the cases that passed, failed and were skipped, and prints those that failed and why others were skipped."""

    def __init__(self, what: str = "") -> None:
        """`what` begins each line that is printed."""
        self.what = what
        self.passed = self.failed = self.skipped = 0
        self.lock = threading.Lock()

    def count(self, is_so: object, message: str) -> bool:
        """Counts a case, and prints the message if it failed."""
        self.add(int(bool(is_so)), int(not is_so))
        if not is_so:
            print(f"{self.what}{message}\n", end="", flush=True)
        return bool(is_so)

    def add(self, passed: int = 0, failed: int = 0, skipped: int = 0) -> None:
        """Counts cases that were tried, or skipped, elsewhere. Threads may count at the same time."""
        with self.lock:
            self.passed, self.failed, self.skipped = self.passed + passed, self.failed + failed, self.skipped + skipped

    def holds(self, name: str, is_so: object, found: object = "it is not so") -> bool:
        """Counts a case by its name, with the value that was found if it failed."""
        return self.count(is_so, f"{name}: {found}")

    def equal(self, name: str, wanted: object, found: object) -> bool:
        """Counts a case where two values must be equal."""
        return self.count(wanted == found, f"{name}: {shown(found)} in place of {shown(wanted)}")

    def has_no_faults(self, name: str, faults: Sequence[str]) -> bool:
        """A case that may have several faults. The first three are printed."""
        more = [f"and {len(faults) - 3} more"] if len(faults) > 3 else []
        return self.count(not faults, "\n  ".join([name, *filter(None, faults[:3]), *more]))

    def skip(self, reason: str) -> None:
        """Counts a case that can't be tried here, and prints why."""
        self.add(skipped=1)
        print(f"{self.what or 'tests, '}skipped: {reason}", flush=True)

    def close(self) -> int:
        """Prints the closing line, and returns the exit status."""
        print(f"{self.passed} passed, {self.failed} failed{f', {self.skipped} skipped' if self.skipped else ''}")
        return int(self.failed > 0)


class Tests(Tally):
    """The counts of cases, the program that is tried, and a folder for files."""

    def __init__(self, what: str, program: Path, room: Path) -> None:
        super().__init__(what)
        self.program, self.room = program, room


def try_program(made: Callable[[str, Path, Path], Tests], what: str, *tests: Callable[[Any], None]) -> int:
    """Makes tests of the program that the command line names, each with Tests of the class `made`. Returns the exit status."""
    if len(sys.argv) != 2:
        sys.exit(f"usage: tests/{Path(sys.argv[0]).name} PROGRAM")
    with tempfile.TemporaryDirectory() as room:
        tally = made(what, Path(sys.argv[1]).resolve(), Path(room))
        for test in tests:
            test(tally)
    return tally.close()


def shown(value: object) -> str:
    text = repr(value)
    return text if len(text) < 600 else f"{text[:600]}.. ({len(text)} characters)"


class Answer(NamedTuple):
    """The exit status of a program, and its standard output and standard error."""

    status: int
    out: bytes
    err: bytes


def run(words: Sequence[object], **how: object) -> Answer:
    called = [word if isinstance(word, bytes) else str(word) for word in words]
    if "input" not in how:
        how = {"stdin": subprocess.DEVNULL, **how}
    done = subprocess.run(called, stdout=subprocess.PIPE, stderr=subprocess.PIPE, check=False, **how)  # type: ignore[call-overload]
    return Answer(done.returncode, done.stdout, done.stderr)


def make_county(*words: object) -> bytes:
    """Calls make-county, and returns what it prints."""
    made = subprocess.run([str(word) for word in (ROOT / "tools/make-county", *words)], stdout=subprocess.PIPE, check=True)
    return made.stdout


def await_that(holds: Callable[[], Any], seconds: float = 60.0) -> bool:
    """Waits until something holds. Returns whether it did."""
    until = time.monotonic() + seconds
    while not holds():
        if time.monotonic() > until:
            return False
        time.sleep(0.02)
    return True


def by_type(text: bytes) -> dict[str, bytes]:
    """The lines of a set by their record types."""
    lines = text.splitlines(keepends=True)
    return {kind: b"".join(line for line in lines if line.startswith(kind.encode())) for kind in TYPES}


def files_of(root: Path) -> set[str]:
    """The files of a repository; without git all that are there."""
    done = run(["git", "ls-files", "--cached", "--others", "--exclude-standard"], cwd=root)
    if done.status == 0:
        return set(done.out.decode().splitlines())
    return {str(path.relative_to(root)) for path in root.rglob("*") if path.is_file()}


def usual_program() -> str:
    """Returns the program that ./tigercanon would run. If there is none, the file of this name isn't there."""
    return os.fsdecode(run([ROOT / "scripts/find-made", "tigercanon"]).out).rstrip("\n") or str(ROOT / "out/tigercanon")


def hash_of_sources(root: Path) -> str:
    """Returns the hash that ./tigercanon makes of the sources of a tree."""
    files = [root / "crates.txt", root / "HANDLES"]
    for part in ("src", "specs"):
        files += [path for path in root.glob(f"crates/*/{part}/**/*") if path.suffix in (".rt", ".antt")]
    lines = sorted(f"{hashlib.sha256(path.read_bytes()).hexdigest()}  {path.relative_to(root)}\n" for path in files)
    return hashlib.sha256("".join(lines).encode()).hexdigest()


def script(path: str) -> Any:
    """A script of this repository as a module."""
    loader = SourceFileLoader(Path(path).name.replace("-", "_"), str(ROOT / path))
    module = ModuleType(loader.name)
    module.__file__ = loader.path
    loader.exec_module(module)
    return module
