"""Finds the tigercanon program and makes it ready."""

from __future__ import annotations

import os
import shutil
import subprocess
import sys
import sysconfig
from pathlib import Path
from typing import Optional

from .errors import Failure, reason
from .layout import Name

VARIABLE = "TIGERCANON"
PACKAGE = Path(__file__).resolve().parent
ADVICE = "./tigercanon --prove builds it, and --program names another one"
PAGE = "the page tigercanon.html checks counties in any browser"
# Settings that make the program faster, unless the user has others: its memory is in large pages, and it keeps memory that it frees.
TUNABLES = "glibc.malloc.hugetlb=1:glibc.malloc.mmap_threshold=8589934592:glibc.malloc.trim_threshold=17179869184"


def find_program(named: Optional[Name] = None) -> str:
    """Returns the program that the option or the variable names, else that of the clone or release, else the one beside this
    package or on the PATH. In a clone it is the one that ./tigercanon runs. The current folder isn't searched. Raises Failure
    if there is none."""
    given, root = os.fspath(named) if named else os.environ.get(VARIABLE), PACKAGE.parent.parent
    if given:
        return checked(given)
    if (root / "scripts/find-made").is_file():
        return checked(program_of_clone(root))
    command = Path(sys.argv[0])
    beside = [
        PACKAGE / "bin",
        root / "bin",
        Path(sysconfig.get_path("scripts")),
        *([command.resolve().parent] if command.is_file() else []),
    ]
    path = next(filter(None, (shutil.which("tigercanon", path=str(folder)) for folder in beside)), on_path("tigercanon"))
    if not path:
        raise Failure(f"there is no program tigercanon here: {ADVICE}")
    return checked(path)


def program_of_clone(root: Path) -> str:
    """Returns the program of a clone, made from the sources as they are. Raises Failure with the reason if there is none."""
    words = [str(root / "scripts/find-made"), "tigercanon"]
    ended = subprocess.run(words, stdin=subprocess.DEVNULL, stdout=subprocess.PIPE, stderr=subprocess.PIPE)
    if ended.returncode != 0:
        why = os.fsdecode(ended.stderr).strip().removeprefix("find-made: ")
        raise Failure(f"{why}; --program names another one")
    return os.fsdecode(ended.stdout).rstrip("\n")


def on_path(name: str) -> str | None:
    """Returns a program in the folders of the PATH, or at a path. The current folder and those below it are left out of the PATH."""
    folders = os.pathsep.join(filter(os.path.isabs, os.environ.get("PATH", os.defpath).split(os.pathsep)))
    return shutil.which(name, path=folders) if "/" in name or folders else None


def checked(name: str) -> str:
    """Returns the program's path, if it runs."""
    path = on_path(name)
    if path is None:
        why = "it isn't executable" if os.path.exists(name) else "no such file"
        raise Failure(f"the program {name} can't be run: {why}")
    run_once(path)
    return os.path.abspath(path)


def run_once(path: str) -> None:
    """Runs the program on an empty set."""
    words = [path, "respell", os.devnull]
    try:
        ended = subprocess.run(words, stdin=subprocess.DEVNULL, stdout=subprocess.DEVNULL)
    except OSError as error:
        raise Failure(f"the program {path} can't be run: {reason(error)}; {PAGE}") from None
    if ended.returncode != 0:
        raise Failure(f"the program {path} can't be run: it ended with status {ended.returncode}; {PAGE}")


def is_unproved(path: str) -> bool:
    """Returns whether the program was compiled without a proof: its version ends with that word."""
    try:
        ended = subprocess.run([path, "--version"], stdin=subprocess.DEVNULL, stdout=subprocess.DEVNULL, stderr=subprocess.PIPE)
    except OSError:
        return False
    return (ended.stderr.splitlines() or [b""])[0].endswith(b"-unproved")
