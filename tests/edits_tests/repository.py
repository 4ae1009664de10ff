"""A made-up repository of three crates with edits, and a kit with fakes beside it."""

import shutil
import subprocess
from pathlib import Path

from dev.testing import ROOT

SOURCES = {
    "crates.txt": "low:\nhigh: low\ntigercanon_main: low\n",
    "crates/tigercanon_main/src/main.rt": "fn main() {}\n",
    "HANDLES": "Handles allowed: none.\n",
    "crates/low/src/lib.rt": """mod table;

const MOST: u64 = 5;

fn first(a: u64) -> u64
    ensures { result ≡ a }
{
    one(a)
}

fn one(a: u64) -> u64 {
    let b = a;
    b
}

fn limited(a: u64) -> u64 {
    a.min(MOST)
}
""",
    "crates/low/src/table.rt": """pub struct Table {
    rows: u64,
}

impl Table {
    /// How many rows there are.
    pub fn count(&self) -> u64 {
        self.rows
    }
}

impl Clone for Table {
    fn clone(&self) -> Table {
        Table { rows: self.rows }
    }
}
""".replace("pub fn", "fn"),
    "crates/low/specs/Low.antt": "-- what low is\n",
    "crates/high/src/lib.rt": "fn top(a: u64) -> u64 {\n    a\n}\n",
    "crates/high/must-fail/adds.edit": "file: src/lib.rt\nold:     a\nnew:     wrong(a)\n",
    "docs/page.md": "a page\n",
}


def edit(file: str, *pairs: str) -> str:
    return f"file: src/{file}.rt\n" + "".join(f"old: {old}\nnew: {new}\n" for old, new in zip(pairs[::2], pairs[1::2]))


ONE = edit("lib", "    let b = a;", "    let b = wrong;")
ONE_AGAIN = edit("lib", "    b", "    wrong(b)")
FIRST = edit("lib", "    one(a)", "    one(a) + wrong")
COUNT = edit("table", "        self.rows", "        self.wrong")
COPY = edit("table", "rows: self.rows }", "rows: wrong }")
RIGHT = edit("lib", "    one(a)", "    (one(a))")
MOST = edit("lib", "const MOST: u64 = 5;", "const MOST: u64 = 6; // so that each user is wrong")
# The files of a kit that is whole, beside the fakes.
KIT = "KIT-ID bin/rattle-link c/any logic_built/any rattle/logic/antt-project.json rlibs/std.rlib/any toolchain/any".split()
SCRIPTS = [f"scripts/{name}" for name in ("try-edits", "gate", "made.sh", "dev.py")]
SCRIPTS += [f"dev/{name}.py" for name in ("__init__", "crates", "edits", "functions")]


class Repository:
    """The made-up repository, with a kit and a cache beside it."""

    def __init__(self, room: Path) -> None:
        self.room, self.root = room, room / "a tree"
        for place, text in SOURCES.items():
            self.write(place, text)
        for place in SCRIPTS:
            (self.root / place).parent.mkdir(exist_ok=True)
            shutil.copy(ROOT / place, self.root / place)
        self.has_memory(1 << 40)
        for place in KIT:
            self.write(f"../kit/{place}", "")
        shutil.copy(ROOT / "tests/fakes/rattle-check", room / "kit/bin/rattle")
        shutil.copy(ROOT / "tests/fakes/rt-ci", room / "kit/bin/rt")
        self.build("low")

    def write(self, place: str, text: str) -> None:
        path = self.root / place
        path.parent.mkdir(parents=True, exist_ok=True)
        path.write_text(text)

    def has_memory(self, number: int) -> None:
        """Has the gate find so many free bytes, whatever this machine has."""
        text = (ROOT / "dev/crates.py").read_text()
        self.write("dev/crates.py", text.replace("    free = 1024", f"    return {number}\n    free = 1024"))

    def build(self, crate: str) -> None:
        (self.root / f"crates/{crate}/out/rlib/{crate}.rlib").mkdir(parents=True)

    def has_edits(self, edits: dict[str, str]) -> None:
        shutil.rmtree(self.root / "crates/low/must-fail", ignore_errors=True)
        for name, text in edits.items():
            self.write(f"crates/low/must-fail/{name}.edit", text)

    def start(self, script: str, *words: str) -> "subprocess.Popen[str]":
        self.write("../calls", "")
        kept = {"ROOM": str(self.room), "HOME": str(self.room), "TMPDIR": str(self.room), "PATH": f"{self.room}/kit/bin:/usr/bin:/bin"}
        how = {"stdin": subprocess.DEVNULL, "stdout": subprocess.PIPE, "stderr": subprocess.PIPE, "text": True, "cwd": "/"}
        return subprocess.Popen([self.root / "scripts" / script, *words], env=kept, **how)  # type: ignore[call-overload]

    def run(self, script: str, *words: str) -> tuple[int, list[str]]:
        """Runs a script, and returns its exit status and the lines of its standard output."""
        process = self.start(script, *words)
        out, self.err = process.communicate()
        return process.returncode, out.splitlines()

    def ended(self, script: str, *words: str) -> tuple[int, str]:
        """Runs a script, and returns its exit status and last line."""
        status, lines = self.run(script, *words)
        return status, lines[-1]

    @property
    def calls(self) -> list[str]:
        return (self.room / "calls").read_text().splitlines()


def results(lines: list[str], crate: str = "low") -> list[str]:
    """Returns the results of the edits of a crate, without the place after a function's name."""
    prefix = f"must-fail {crate}/"
    found = [line.removeprefix(prefix) for line in lines if line.startswith(prefix)]
    bare = (line.split(": ") for line in found)
    return [": ".join(words[:2] if "refused" in words[1] or "NOT" in words[1] else words) for words in bare]
