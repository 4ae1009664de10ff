"""The crates of the repository as crates.txt lists them, and the sources that the libraries here were proved from."""

import contextlib
import hashlib
import os
import re
import shutil
from pathlib import Path
from typing import Callable, Optional

from dev import ROOT as ROOT

PARTS = ("src", "specs", "proofs")


def folder_of(crate: str) -> Path:
    return ROOT / "crates" / crate


def is_program(crate: str) -> bool:
    return (folder_of(crate) / "src" / "main.rt").exists()


def size_of(crate: str) -> int:
    """Returns the bytes of a crate's sources."""
    return sum(path.stat().st_size for part in PARTS for path in (folder_of(crate) / part).rglob("*"))


def kit_of_rt() -> Optional[Path]:
    """The folder of the kit that rt is of, if it has all that is used of it here."""
    kit = Path(shutil.which("rt") or "/").resolve().parent.parent
    parts = ("KIT-ID", "bin/rattle", "bin/rattle-link", "c", "logic_built", "rattle/logic/antt-project.json", "rlibs/std.rlib", "toolchain")
    return kit if all((kit / part).exists() for part in parts) else None


def free_memory() -> int:
    """The bytes of memory that are free in the machine, and in the control group of this process."""
    free = 1024 * int(re.findall(r"MemAvailable: *(\d+)", Path("/proc/meminfo").read_text())[0])
    group = Path("/sys/fs/cgroup")
    with contextlib.suppress(OSError, ValueError):
        held = re.findall(r"^anon (\d+)", (group / "memory.stat").read_text(), re.M)
        free = min(free, int((group / "memory.max").read_text()) - sum(map(int, held)))
    return free


class Crates:
    """The crates of crates.txt, each with its row and with those that it names."""

    def __init__(self, text: str) -> None:
        rows = filter(None, (line.partition("#")[0].strip() for line in text.splitlines()))
        self.rows: dict[str, str] = {re.split(r"[\s:]", row)[0]: row for row in rows}
        words = {name: re.split(r"[\s,]+", row.partition(":")[2].strip()) for name, row in self.rows.items()}
        self.named = {name: self.rows.keys() & set(named) for name, named in words.items()}
        self.of_kit = {name: [it for it in named if it and it not in self.rows] for name, named in words.items()}
        self.statics = {name for name, row in self.rows.items() if re.match(r"\S+\s+staticlib\b", row)}

    def below(self, *crates: str) -> set[str]:
        """All crates that these depend on."""
        found, left = set(), set().union(*map(self.named.get, crates))
        while left:
            found |= left
            left = set().union(*map(self.named.get, left)) - found
        return found

    def wrong_with(self, crate: str) -> str:
        """Says why this crate can't be proved, if that is known without rt."""
        if crate not in self.rows:
            return f"crates.txt has no line for {crate}"
        for it in sorted(self.below(crate) | {crate}):
            if it in self.below(it):
                return f"by crates.txt {it} depends on itself"
            if not (folder_of(it) / "src").is_dir():
                return f"there is no folder crates/{it}/src"
        return ""


def words_for_rattle(crates: Crates, kit: Path, crate: str, library: Callable[[str], Path], jobs: int) -> list[str]:
    """The arguments with which rattle reads and proves a crate, over the libraries in these places."""
    libraries = {it: kit / "rlibs" / f"{it}.rlib" for it in ["std", *crates.of_kit[crate]]}
    libraries.update((it, library(it)) for it in sorted(crates.named[crate]))
    folders = [kit / "rlibs", *(library(it).parent for it in sorted(crates.below(crate)))]
    words = ["--crate-name", crate, f"src/{'main' if is_program(crate) else 'lib'}.rt"]
    words += [word for it, place in libraries.items() for word in ("--extern", f"{it}={place}")]
    words += [word for folder in folders for word in ("-L", f"dependency={folder}")]
    words += ["--antt-project", f"{kit / 'rattle/logic/antt-project.json'}", "--logic-built", f"{kit / 'logic_built'}"]
    words += ["--links", f"{crate}=", "--jobs", str(jobs)]
    return words + (["--crate-type", "staticlib"] if crate in crates.statics else [])


def words_to_build(crates: Crates, kit: Path, crate: str, to: Path, toolchain: Path, *words: str) -> list[str]:
    """Returns the command that proves and compiles a program or a static library, over the libraries that are proved here. Further words
    are options for rattle."""
    whole = [str(kit / "bin/rattle"), "build", *words]
    whole += words_for_rattle(crates, kit, crate, library_of, int(os.environ.get("RT_JOBS") or 1))
    return [*whole, "--toolchain", str(toolchain), "-o", str(to)]


def library_of(crate: str) -> Path:
    """Returns the place of a library, in the folder where rt looks for it. Without rt's stamp rt doesn't take it."""
    return folder_of(crate) / "out" / "rlib" / f"{crate}.rlib"


class Notes:
    """The sources that each library here was proved from. The note is beside the library, and goes when rt makes it again."""

    def __init__(self, crates: Crates, kit: Path, root: Path = ROOT) -> None:
        self.crates, self.kit, self.root = crates, kit, root

    def proved_from(self, crate: str) -> str:
        """Returns a word that changes with the kit, and with each source of a crate and of those that it depends on."""
        whole = hashlib.sha256((self.kit / "KIT-ID").read_bytes())
        for each in sorted(self.crates.below(crate) | {crate}):
            whole.update(self.crates.rows[each].encode() + b"\n")
            parts = (self.root / "crates" / each / part for part in PARTS)
            for file in sorted(file for part in parts for file in part.rglob("*") if file.is_file()):
                whole.update(f"{file.relative_to(self.root)} {file.stat().st_size}\n".encode() + file.read_bytes())
        return whole.hexdigest()

    @staticmethod
    def note(crate: str) -> Path:
        return library_of(crate).with_name("proved-from")

    def is_current(self, crate: str) -> bool:
        """Returns whether a library was proved from the sources as they are."""
        note = self.note(crate)
        return note.exists() and library_of(crate).exists() and note.read_text() == self.proved_from(crate)

    def write(self, crate: str, proved_from: str) -> None:
        """Notes what a library was proved from, unless it or one below it was edited meanwhile."""
        if library_of(crate).exists() and proved_from == self.proved_from(crate):
            self.note(crate).write_text(proved_from)
