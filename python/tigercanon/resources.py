"""The processes, folders and files that a call or a command starts or makes. None of them outlives it, except files that are whole."""

from __future__ import annotations

import fcntl
import os
import re
import secrets
import shutil
import signal
import stat
import subprocess
import tempfile
import threading
import time
from contextlib import ExitStack, contextmanager, suppress
from pathlib import Path
from typing import BinaryIO, ContextManager, Iterable, Iterator, Protocol, Sequence, TypeVar

from .errors import Failure, reported
from .inputs import STREAMS, Inputs, refuse_other_files
from .layout import TYPES, file_name
from .program import TUNABLES

PREFIX, SUFFIX = "tigercanon-", ".tmp"
COUNTY = "county"  # the name of a file in a folder of a run, or the stem of nine
VARIABLE = "TIGERCANON_SHM"
IN_MEMORY = "/dev/shm"  # the folder in memory, if the variable doesn't name another one; an empty variable means none
SPARE = 64 << 20  # folders are made in memory only if this many bytes stay free there
STALE = 60.0  # a folder or a part of a file that nobody holds is removed by a later run once it is this many seconds old
PATIENCE = 0.3  # a thread that is printing or writing keeps the end of the run waiting for at most this many seconds
PATIENCE_FOR_A_TOOL = 2.0  # a command of these tools that was started has this many seconds to remove what it has made
MOST_SECONDS = 2_000_000  # 23 days: the system counts a wait in milliseconds, with 31 bits
T = TypeVar("T")


class Closed(Exception):
    """Something was to be started or made after the end."""


class Resources:
    """What a call or a command, or a part of one, has started and made. It ends with the block. Each call has its own, so calls in
    several threads are independent. prints: whether standard output and standard error belong to it, as they do to a command.
    """

    def __init__(self, prints: bool = False, whole: Resources | None = None) -> None:
        self.prints, self.whole = prints, whole
        self.lock = threading.RLock()  # it is held while something is started or made, in any part
        if whole:
            self.lock = whole.lock
        self.contexts, self.is_closed = ExitStack(), False
        self.room = ""  # where the last temporary folder is
        self.parts: list[Resources] = []
        self.tools: list[subprocess.Popen[bytes]] = whole.tools if whole else []

    def part(self) -> Resources:
        """Returns the resources of a part of the work, which ends earlier."""
        return Resources(self.prints, self)

    def __enter__(self) -> Resources:
        with self.lock:
            if self.whole:
                self.whole.check()
                self.whole.parts.append(self)
        return self

    def __exit__(self, *_: object) -> None:
        with self.lock:
            self.close()
            if self.whole:
                self.whole.parts.remove(self)

    def check(self) -> None:
        """Raises Closed if the end has come."""
        if self.is_closed:
            raise Closed

    def keep(self, context: ContextManager[T]) -> T:
        """Enters a context, which is left at the end of the block, or before that if a signal comes. Raises Closed."""
        with self.lock:
            self.check()
            return self.contexts.enter_context(context)

    def close(self) -> None:
        """Leaves the contexts, the last one first. Nothing can be started or made afterwards."""
        self.is_closed = True
        for part in self.parts[::-1]:
            part.close()
        self.contexts.close()

    def end(self) -> None:
        """Closes all of it before the process ends, in any thread. The lock is taken and never returned, so that the other threads stop
        where they would start, make or write something."""
        self.lock.acquire(timeout=PATIENCE)
        for tool in self.tools:  # all of them at once
            tool.terminate()
        self.close()

    def run(
        self, words: Sequence[str], memory: int | None = None, seconds: int | None = None, is_tool: bool = False
    ) -> subprocess.CompletedProcess[bytes]:
        """Runs the program, or a command of these tools, in a separate session, so that all of it can be ended. memory limits its address
        space. Raises TimeoutExpired if it takes longer than these seconds, unless they are more than the system can count."""
        if memory is not None:
            words = ["/bin/sh", "-c", f'ulimit -v {memory // 1024} && exec "$@"', "sh", *words]
        with self.part() as part:
            child = part.keep(started(words, is_tool))
            if is_tool:
                self.tools.append(child)
            out, err = child.communicate(timeout=None if seconds is None or seconds > MOST_SECONDS else seconds)
        return subprocess.CompletedProcess(words, child.returncode, out, err)

    def place(self, size: int) -> str:
        """Returns a name in a temporary folder, which is in memory if this many bytes fit there, else where TMPDIR says."""
        room, fits = os.environ.get(VARIABLE, IN_MEMORY), False
        with suppress(OSError):
            fits = bool(room) and shutil.disk_usage(room).free >= size + SPARE
        self.room = room if fits else tempfile.gettempdir()
        return f"{self.keep(temporary_folder(self.room))}/{COUNTY}"

    def inputs(self, names: Iterable[str]) -> Inputs:
        """Notes files that are read. Raises Failure if a command prints to one of them."""
        return Inputs(names, STREAMS if self.prints else {})


@contextmanager
def started(words: Sequence[str], is_tool: bool) -> Iterator[subprocess.Popen[bytes]]:
    """Starts a process, which is ended if it still runs. A command of these tools first gets a signal, by which it ends itself."""
    pipe, nothing, environment = subprocess.PIPE, subprocess.DEVNULL, {"GLIBC_TUNABLES": TUNABLES, **os.environ}
    child = subprocess.Popen(words, stdin=nothing, stdout=pipe, stderr=pipe, env=environment, start_new_session=True)
    try:
        yield child
    finally:
        if is_tool:
            child.terminate()
            with suppress(subprocess.TimeoutExpired):
                child.wait(PATIENCE_FOR_A_TOOL)
        kill(child)


@contextmanager
def temporary_folder(room: str) -> Iterator[str]:
    """Makes a folder that this run holds, and removes it at the end."""
    folder = tempfile.mkdtemp(SUFFIX, PREFIX, room)
    try:
        with locked(folder, fcntl.LOCK_EX):
            yield folder
    finally:
        remove(folder)


def kill(child: subprocess.Popen[bytes]) -> None:
    """Ends a child that hasn't ended, with all that it has started."""
    if child.poll() is None:
        with suppress(ProcessLookupError, PermissionError):
            os.killpg(child.pid, signal.SIGKILL)


@contextmanager
def locked(path: str, how: int) -> Iterator[None]:
    """Locks a folder or a file: meanwhile no other run removes it."""
    handle = os.open(path, os.O_RDONLY | os.O_NOFOLLOW | os.O_NONBLOCK)
    try:
        fcntl.flock(handle, how)
        yield
    finally:
        os.close(handle)


def remove(path: str) -> None:
    """Removes a folder, into which another thread may still write."""
    for _ in range(20):
        shutil.rmtree(path, ignore_errors=True)
        if not os.path.lexists(path):
            return
        time.sleep(0.01)


def remove_stale_folders() -> None:
    """Removes the folders of runs that were killed. A folder with anything else in it is the user's."""
    ours = {COUNTY, *(file_name(COUNTY, kind) for kind in TYPES)}
    for room in filter(None, {os.environ.get(VARIABLE, IN_MEMORY), tempfile.gettempdir()}):
        for path in Path(room).glob(f"{PREFIX}*{SUFFIX}"):
            with suppress(OSError):  # a run may hold it
                if is_old(path) and ours.issuperset(os.listdir(path)):
                    with locked(str(path), fcntl.LOCK_EX | fcntl.LOCK_NB):
                        remove(str(path))


def remove_stale_parts(stem: str) -> None:
    """Removes what runs that were killed have left of a file."""
    folder, base = os.path.split(stem)
    part = re.compile(rf"{re.escape(base)}\.[0-9a-f]+\.part")
    for name in filter(part.fullmatch, os.listdir(folder)):
        path = Path(folder, name)
        with suppress(OSError):  # a run may hold it
            if is_old(path):
                with locked(str(path), fcntl.LOCK_EX | fcntl.LOCK_NB):
                    path.unlink()


def is_old(path: Path) -> bool:
    """Returns whether a file or folder is this user's, and was last written a minute ago."""
    status = path.lstat()
    return status.st_uid == os.geteuid() and time.time() - status.st_mtime >= STALE


class Writable(Protocol):
    """Where a page, GeoJSON or a table is written."""

    def write(self, text: bytes) -> None:
        ...


class Kept:
    """A text that is kept until all is well, and then goes to standard output."""

    def __init__(self) -> None:
        self.pieces: list[bytes] = []

    def write(self, text: bytes) -> None:
        self.pieces.append(text)


STANDARD_OUTPUT = ("-", "/dev/stdout", "/dev/fd/1", "/proc/self/fd/1")


class NewFile:
    """A file beside the file that it replaces when it is whole. If it isn't whole at the end of the block, it is removed."""

    file: BinaryIO

    def __init__(self, name: str, inputs: Inputs, is_forced: bool) -> None:
        inputs.spare_all([name])
        if not is_forced:
            refuse_other_files([name])
        self.name, self.place, self.inputs = name, os.path.realpath(name), inputs
        folder, base = os.path.split(self.place)
        self.stem = os.path.join(folder, f".{os.fsdecode(os.fsencode(base)[:200])}")
        self.path = f"{self.stem}.{secrets.token_hex(4)}.part"
        self.mode: int | None = None
        with reported(name), suppress(FileNotFoundError):
            self.mode = os.stat(self.place).st_mode
        if self.mode is not None and not (stat.S_ISREG(self.mode) and os.access(self.place, os.W_OK)):
            why = "Permission denied" if stat.S_ISREG(self.mode) else "it isn't a regular file"
            raise Failure(f"{name}: can't be written: {'it is a folder' if stat.S_ISDIR(self.mode) else why}")

    def __enter__(self) -> NewFile:
        with suppress(OSError):
            remove_stale_parts(self.stem)
        with reported(self.name):
            self.file = open(self.path, "xb")
        with suppress(OSError):  # without locks, nobody removes it
            fcntl.flock(self.file, fcntl.LOCK_EX)
        return self

    def __exit__(self, *_: object) -> None:
        with suppress(OSError):
            self.file.close()
        with suppress(FileNotFoundError):  # it has taken its place
            os.unlink(self.path)

    def write(self, text: bytes) -> None:
        with reported(self.name):
            self.file.write(text)

    def finish(self) -> None:
        """Puts all of the text on the disk."""
        with reported(self.name):
            self.file.flush()
            if self.mode is not None:
                os.fchmod(self.file.fileno(), stat.S_IMODE(self.mode))
            os.fsync(self.file.fileno())
            self.file.close()

    def take_place(self) -> None:
        """Takes the place, which may lead to another file than in the beginning."""
        self.inputs.spare(self.name, self.place)
        with reported(self.name):
            os.replace(self.path, self.place)


@contextmanager
def new_files(names: Iterable[str], inputs: Inputs, resources: Resources, is_forced: bool = False) -> Iterator[dict[str, NewFile]]:
    """Makes files to be written, by their names, which they get when all are whole, and have the modes of the files
    before them. If anything goes wrong, a signal for example, there are none of them, and what had these names is as it was. Raises
    Failure if one of them is an input, or, unless it is forced, another file than these commands write."""
    with resources.part() as part:
        files = {name: part.keep(NewFile(name, inputs, is_forced)) for name in names}
        yield files
        for file in files.values():
            file.finish()
        for file in files.values():
            file.take_place()
