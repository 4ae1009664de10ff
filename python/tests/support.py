"""Calls of the tools, their answers, and files for them."""

from __future__ import annotations

import ctypes
import hashlib
import io
import os
import re
import resource
import signal
import subprocess
import sys
import zipfile
from contextlib import suppress
from functools import lru_cache
from pathlib import Path
from typing import Any, Callable, Iterator, Mapping, NamedTuple, Sequence

import pytest
from dev.testing import ROOT, TYPES, usual_program

PACKAGE = ROOT / "python"
FAKES = PACKAGE / "tests/fakes"
TOOLS = [sys.executable, "-m", "tigercanon"]
PROGRAM = os.path.abspath(os.environ.get("TIGERCANON") or usual_program())

NAME = "tigercanon-tools: "
HEAD = "# tigercanon form 1\n"
PROGRESS = re.compile(
    r"tigercanon-tools: ((normalising|reading|comparing|finding|writing) .*|[\d,]+ of [\d,]+ (county|counties|pages?)(, .*)?)\n"
)
PR_SET_PDEATHSIG = 1

Process = subprocess.Popen[bytes]
Four = dict[str, bytes]
"""Four counties by their stems, each with the text of its first file."""


def built_program() -> str:
    """Returns the program that TIGERCANON names, or that ./tigercanon would run. The test is skipped if there is none."""
    if not os.access(PROGRAM, os.X_OK):
        pytest.skip("there is no program of these sources: TIGERCANON can name another")
    return PROGRAM


def digest(text: bytes, flags: str = "") -> str:
    """Returns the fingerprint that the fake program prints."""
    return hashlib.sha256((f"{flags} " if flags else "").encode() + text).hexdigest()


def manifest(counties: Mapping[str, bytes], flags: str = "") -> str:
    """Returns the manifest of counties with these first files that the fake program leads to."""
    lines = [f"{digest(text, flags)}  {stem}\n" for stem, text in counties.items()]
    return "".join([f"{HEAD.strip()} {flags}".strip(), "\n", *lines])


class Ended(NamedTuple):
    status: int
    out: str
    err: str

    @property
    def lines(self) -> list[str]:
        return [line[len(NAME) :] for line in self.err.splitlines() if line.startswith(NAME)]

    @property
    def reports(self) -> dict[str, str]:
        return {stem: text for stem, _, text in (line.partition(": ") for line in self.lines) if "/" in stem and text}


def die_with_the_test() -> None:
    """Has the process that starts here end with this one, however this one ends."""
    ctypes.CDLL(None).prctl(PR_SET_PDEATHSIG, signal.SIGKILL)


def limit_files(size: int) -> Callable[[], None]:
    """Has the process that starts here write at most this many bytes to each file."""
    return lambda: resource.setrlimit(resource.RLIMIT_FSIZE, (size, size))


def environment(**more: str) -> dict[str, str]:
    """Lets folders that PYTHONPATH names come before the package's."""
    path = os.pathsep.join([*filter(None, [more.get("PYTHONPATH")]), str(PACKAGE)])
    return {**os.environ, "PYTHONDONTWRITEBYTECODE": "1", **more, "PYTHONPATH": path}


@lru_cache(maxsize=None)
def server() -> str:
    """Starts a process that runs the tools in forks of itself, and returns its place."""
    command = [sys.executable, "-B", str(FAKES / "server.py")]
    process = subprocess.Popen(command, env=environment(), stdout=subprocess.PIPE, preexec_fn=die_with_the_test)
    assert process.stdout
    return process.stdout.readline().decode().rstrip("\n")


def call(*words: object, env: Mapping[str, str] = {}, **options: Any) -> Ended:
    """Calls the tools. To start Python takes longer than most calls, so one without options doesn't start it."""
    is_plain = not options and "PYTHONPATH" not in env
    start = [sys.executable, "-I", "-S", "-B", str(FAKES / "client.py"), server()] if is_plain else TOOLS
    return end(begin(*words, program=start, env=env, **options))


def shell(command: str) -> Ended:
    """Runs a command of bash, which has `tigercanon-tools`, what else fakes/commands defines, and $REAL, the program. Bash's pipes,
    further streams and other modules need a start of Python."""
    is_real = any(mark in command for mark in ("<(", "3<", "PYTHONPATH="))
    env = {"ROOT": str(ROOT), "PYTHON": sys.executable, "REAL": PROGRAM, "SERVER": "" if is_real else server()}
    return end(begin("-c", f'. "$0"\n{command}', FAKES / "commands", program=["bash"], env=env))


def begin(*words: object, program: Sequence[str] = TOOLS, env: Mapping[str, str] = {}, **options: Any) -> Process:
    streams = {"stdin": subprocess.DEVNULL, "stdout": subprocess.PIPE, "stderr": subprocess.PIPE}
    options = {"start_new_session": True, "preexec_fn": die_with_the_test, **streams, **options}
    return subprocess.Popen([*program, *map(str, words)], env=environment(**env), **options)


def end(run: Process, seconds: float = 300.0) -> Ended:
    """Waits for a call that was started. If it takes too long it is killed with all that it started. Lines of progress are left out: a
    machine at work prints more of them."""
    try:
        out, err = run.communicate(timeout=seconds)
    finally:
        kill_group(run)
    return Ended(run.returncode, os.fsdecode(out or b""), PROGRESS.sub("", os.fsdecode(err or b"")))


def kill_group(run: Process) -> None:
    with suppress(ProcessLookupError):
        os.killpg(run.pid, signal.SIGKILL)
    run.wait()


def count_of_lines(name: str) -> int:
    """Returns the whole lines of a file, which may not be there yet."""
    return Path(name).read_bytes().count(b"\n") if os.path.exists(name) else 0


def listed(name: str) -> str:
    """Returns a manifest without the comments, which have the sizes and times of files. It may not be there yet."""
    lines = Path(name).read_text().splitlines(keepends=True) if os.path.exists(name) else []
    return "".join(line for number, line in enumerate(lines) if number == 0 or not line.startswith("# "))


def put(name: str | Path, text: bytes = b"") -> Path:
    """Writes a file, and the folders that it is in."""
    path = Path(name)
    path.parent.mkdir(parents=True, exist_ok=True)
    path.write_bytes(text)
    return path


def members(name: str, first: bytes) -> dict[str, bytes]:
    """Returns the nine files of a complete county. The fake program looks at the first alone."""
    return {f"{name}.RT{kind}": first if kind == "1" else b"x\n" for kind in TYPES}


def complete(stem: str, first: bytes) -> None:
    for name, text in members(stem, first).items():
        put(name, text)


def packed(members: Mapping[str, bytes], method: int = zipfile.ZIP_DEFLATED) -> bytes:
    """Returns a zip with these files."""
    file = io.BytesIO()
    with zipfile.ZipFile(file, "w", method) as archive:
        for name, text in members.items():
            archive.writestr(name, text)
    return file.getvalue()


def zip_up(stem: str | Path, is_lower: bool = False) -> None:
    """Replaces a county's files by a zip, with all names in capitals or in lower case."""
    files = sorted(Path(stem).parent.glob(f"{Path(stem).name}.RT?"))
    texts = {file.name.lower() if is_lower else file.name: file.read_bytes() for file in files}
    put(f"{stem}{'.zip' if is_lower else '.ZIP'}", packed(texts))
    for file in files:
        file.unlink()


def processes() -> Iterator[tuple[int, int, bytes]]:
    """Yields the processes that haven't ended: the number of each, that of its parent, and its command line."""
    for status in Path("/proc").glob("[0-9]*/stat"):
        try:
            state, parent = status.read_text().rpartition(")")[2].split()[:2]
            command = (status.parent / "cmdline").read_bytes()
        except OSError:
            continue
        if state != "Z":
            yield int(status.parent.name), int(parent), command


def left_behind() -> list[str]:
    """Returns temporary folders of runs, here and in memory."""
    rooms = [Path(os.environ["TMPDIR"]), Path(os.environ["TIGERCANON_SHM"])]
    return [str(path) for room in rooms for path in room.glob("tigercanon-*")]
