"""What the tests of the library share: the library, the program, and compiled callers."""

import os
import re
import shutil
import sys
from pathlib import Path
from typing import Iterable

from dev import testing
from dev.testing import ROOT, TYPES, Answer, run

CALLER = Path(__file__).resolve().parent / "caller.c"
SUFFIXES = [f".RT{kind}" for kind in TYPES]
WARNINGS = ["-Wall", "-Wextra", "-pedantic", "-Werror"]
LACKING = Answer(5, b"", b"refused 9 Memory\n")


class Tests(testing.Tests):
    """The count of tests that passed, failed and were skipped, and things that all tests need."""

    def __init__(self, library: Path, program: Path, room: Path):
        super().__init__("library, ", program, room)
        self.library = library
        archive = library / "lib/libtigercanon.a"
        # A prebuilt library has no archive.
        shared = ["-L", archive.parent, f"-Wl,-rpath,{archive.parent}", "-ltigercanon"]
        self.linked = ["-I", library / "include", *([archive] if archive.exists() else shared)]
        self.callers: dict[str, list[str]] = {}

    def compile(self, name: str, compiler: str, *flags: object) -> list[str]:
        """The command for the caller that this compiler makes, with these arguments after its file; nothing if it can't."""
        made = self.room / f"by-{name}"
        # The caller uses the threads of POSIX.
        done = run([compiler, "-std=c11", "-D_GNU_SOURCE", "-O2", "-pthread", *WARNINGS, "-o", made, CALLER, *flags])
        if self.count(done.status == 0, f"{name}: {done.err.decode()[:2000]}"):
            self.callers[name] = [str(made)]
        return self.callers.get(name, [])

    def by_c(self, *words: object, **how: object) -> Answer:
        """The answer of the caller in C, as gcc compiled it."""
        return run([*self.callers["gcc"], *words], **how)

    def limit(self, command: str, county: Path, sizes: Iterable[int], **how: object) -> None:
        """A call in memory of these sizes, which ascend: if memory is short, only that is reported."""
        right, told = self.by_c(command, county), set()
        for size in sizes:
            found = run(["prlimit", f"--as={size}", *self.callers["gcc"], command, county], **how)
            # With even less memory the caller can't start or read its file.
            if told or found.status in (0, 5):
                self.count(found in (right, LACKING), f"{command} in {size >> 10} KiB: {found.status}, {found.err!r}")
                told.add(found.status)
        self.equal(f"{command} of {county.name} in little memory, its statuses", {0, 5}, told)


def tools(*names: str) -> list[str]:
    return [name for name in names if shutil.which(name)]


def run_pytest(tests: Tests) -> None:
    """The tests of the package that need the library, by the Python that has pytest."""
    environment = {**os.environ, "TIGERCANON_LIBRARY": str(tests.library / "lib/libtigercanon.so.1")}
    pythons = [python for python in (sys.executable, "/usr/bin/python3") if run([python, "-c", "import pytest"]).status == 0]
    if not pythons:
        tests.skip("pytest isn't installed: Debian's python3-pytest has it")
        return
    done = run([pythons[0], "-m", "pytest", "-q", "-m", "library"], cwd=ROOT / "python", env=environment)
    passed = re.search(rb"(\d+) passed", done.out)
    tests.add(int(passed[1]) - 1 if passed else 0)
    tests.count(done.status == 0, f"the package's tests:\n{done.out.decode()[-3000:]}")
