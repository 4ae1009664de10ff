"""The manifest: a line with the fingerprint, two blanks and the stem for each county, in the order of the stems.

The first line names the form of the canonical texts and the flags that leave fields out, and marks the fingerprints of an unproved
program. In manifests of earlier tools it has the flags alone, or isn't there. Comments have the size and the time of each file of a
county, and counties that were refused, have failed, or aren't checked yet. One run at a time has the manifest's lock.
"""

from __future__ import annotations

import argparse
import fcntl
import os
import re
import socket
import stat
import sys
import time
from contextlib import ExitStack, contextmanager, suppress
from pathlib import Path
from typing import Iterable, Iterator, NamedTuple, Sequence

from .errors import Failure, reason, reported
from .counties import county_in
from .inputs import Inputs
from .layout import folded, kind_of
from .resources import Resources, new_files
from .storage import Entry, joined, parted, tidy

Flags = tuple[str, ...]
FORM = "# tigercanon form 1"
FLAGS = ("--no-sources", "--no-reserved")
FLAG_SETS = ((), FLAGS[:1], FLAGS[1:], FLAGS)
OTHER_FORM = re.compile(rb"# tigercanon form .*")
UNPROVED = "unproved"  # comes before the flags if the program isn't proved
LINE = re.compile(rb"([0-9a-fA-F]{64})  ([^\n]+)")
COMMENT = re.compile(
    rb"# ([0-9?]+ [^ \n]+(?:, [0-9?]+ [^ \n]+)*)  (?:(refused(?: [0-9A-Za-z]+)+|failed: (?:(?!  )[^\n])+)  )?([^\n]+)"
)
LASTING = re.compile(r"refused (?:[1-7]|1[1-9]|2[0-9]) ")  # refusals that a county gets again as long as its files are the same
TELLING = re.compile(r"[0-9]+ [^- ]\S*(?:, [0-9]+ [^- ]\S*)*")  # sizes and times of files that show a change on disk
UNKNOWN = "? -"  # the size and the time of files that nothing is known of
UNCHECKED = "failed: not checked yet"  # a county that a run has found and not reached
STARTED_LINE = re.compile(rb"[0-9a-f]{0,64}|[0-9a-f]{64} ( [^\n]*)?|#[^\n]*")
CUT_OFF = "its last line has no line ending, so it may be cut off"
LOCK_LINE = re.compile(rb"process [0-9]* on ")
PATIENCE_FOR_LOCK = 0.2


def flags_of(options: argparse.Namespace) -> Flags:
    """Returns the flags of a command line that leave fields out, in one order."""
    return tuple(flag for flag in FLAGS if getattr(options, flag[2:].replace("-", "_")))


def heading(flags: Sequence[str]) -> str:
    return " ".join([FORM, *flags])


def without_mark(flags: Flags | None) -> Flags:
    """Returns the flags that leave fields out, without the mark of an unproved program."""
    return tuple(flag for flag in flags or () if flag != UNPROVED)


MARKED_SETS = [*FLAG_SETS, *((UNPROVED, *flags) for flags in FLAG_SETS)]
HEADINGS: dict[bytes, Flags] = {heading(flags).encode(): flags for flags in MARKED_SETS}
HEADINGS.update({f"# {' '.join(flags)}".encode(): flags for flags in FLAG_SETS if flags})


class Line(NamedTuple):
    """A county of a manifest. One that was refused or has failed has the refusal, or the reason after `failed: `, and no fingerprint. The
    sources are the size and the time of each of its files, if the manifest has them. A folder that couldn't be listed has a line like
    that of a failed county, with a slash at the end of its stem."""

    fingerprint: str
    stem: str
    sources: str = ""
    refusal: str = ""

    def __str__(self) -> str:
        return f"{self.fingerprint}  {self.stem}"

    @property
    def state(self) -> str:
        """Whether the county was `accepted`, `refused`, has `failed` or is `unchecked`, as all counties in a folder are."""
        if self.refusal == UNCHECKED or self.is_folder:
            return "unchecked"
        return "accepted" if not self.refusal else "refused" if self.refusal.startswith("refused ") else "failed"

    @property
    def is_folder(self) -> bool:
        return bool(self.refusal) and self.stem.endswith("/")

    def name(self, root: str = "") -> str:
        """Returns its name as names are compared, below a folder if one is given. The name of a folder ends with a slash."""
        name = tidy(joined(root, self.stem))
        return joined(name or ".", "") if self.is_folder else name

    @property
    def is_lasting(self) -> bool:
        """Whether the county has the same answer as long as its files are the same."""
        return not self.refusal or bool(LASTING.match(self.refusal))

    @property
    def entry(self) -> str:
        """The lines of a county in a manifest. For sha256sum those that begin with # are comments. The sources are left out if the name
        would be taken for a reason and another name."""
        if self.refusal:
            return f"# {self.sources or UNKNOWN}  {self.refusal}  {self.stem}\n"
        comment = f"# {self.sources}  {self.stem}"
        return f"{comment}\n{self}\n" if parsed_line(os.fsencode(comment)) == self._replace(fingerprint="") else f"{self}\n"


def text_of(name: str, is_written: bool = False) -> bytes:
    """Returns the text of a manifest: a file, a pipe, or what is behind - on standard input. One that is written to is a file.
    Raises Failure."""
    if name == "-" and not is_written:
        return sys.stdin.buffer.read()
    try:
        mode = os.stat(name).st_mode
        if not stat.S_ISREG(mode) and (is_written or not (stat.S_ISFIFO(mode) or stat.S_ISSOCK(mode))):
            raise Failure(f"{name}: not a manifest: it isn't a regular file{'' if is_written else ' or a pipe'}")
        return Path(name).read_bytes()
    except OSError as error:
        raise Failure(f"{name}: {reason(error)}") from None


def parsed(name: str, is_written: bool = False) -> tuple[Flags | None, list[Line], bytes]:
    """Returns the flags of a manifest, or None if it has no whole line, its counties, and the part of a line that an
    interrupted run has left at its end. Raises Failure if it is another file."""
    *whole, rest = text_of(name, is_written).split(b"\n")
    if whole and all(line.endswith(b"\r") for line in whole):
        whole = [line[:-1] for line in whole]
    flags = HEADINGS.get(whole[0]) if whole else None
    if whole and flags is None and OTHER_FORM.fullmatch(whole[0]):
        raise Failure(
            f"{name}: its first line is {os.fsdecode(whole[0])!r}, and this version knows {FORM!r} with its own flags alone"
        )
    has_heading = flags is not None
    lines = [own_line(name, number, text, has_heading) for number, text in enumerate(whole[has_heading:], 1 + has_heading)]
    if not STARTED_LINE.fullmatch(rest) and not any(each.startswith(rest) for each in HEADINGS):
        raise Failure(f"{name}: not a manifest: its last line isn't a fingerprint and a name")
    return (flags or ()) if whole else None, last_of_each(lines), rest


def own_line(name: str, number: int, text: bytes, has_heading: bool) -> Line:
    """Returns a line of a manifest after its heading, if it has one. Raises Failure for a line that no command writes."""
    line = parsed_line(text)
    if text in HEADINGS:
        raise Failure(f"{name}: line {number} begins another manifest: take it out if both have the same flags")
    if line is None and text.startswith(b"#"):
        raise Failure(f"{name}: line {number} is a comment that fingerprint doesn't write and would lose: move it to another file")
    if line is None:
        raise Failure(f"{name}: not a manifest: line {number} isn't a fingerprint and a name")
    if line.fingerprint and not has_heading and is_other_file(line.stem):
        raise Failure(f"{name}: not a manifest but a list of other hashes: line {number} is of the file {line.stem}")
    return line


def last_of_each(lines: Iterable[Line]) -> list[Line]:
    """Returns the counties of these lines: of several lines for a county the last one counts, with the sources before it."""
    counties: dict[str, Line] = {}
    sources: dict[str, str] = {}
    for line in lines:
        if line.fingerprint or line.refusal:
            counties.pop(line.stem, None)
            counties[line.stem] = line._replace(sources=line.sources or sources.get(line.stem, ""))
        else:
            sources[line.stem] = line.sources
    return [*counties.values()]


def parsed_line(text: bytes) -> Line | None:
    """Returns a line of a manifest: a county, or a comment with the sources of one. Nothing for any other line."""
    line, comment = LINE.fullmatch(text), COMMENT.fullmatch(text)
    if line:
        return Line(line[1].decode().lower(), os.fsdecode(line[2]))
    return Line("", os.fsdecode(comment[3]), comment[1].decode(), os.fsdecode(comment[2] or b"")) if comment else None


def names_in(name: str) -> set[str]:
    """Returns the names of the counties that a manifest lists, folded; none if it can't be read as one."""
    with suppress(Failure):
        return {folded(line.name()) for line in parsed(name, is_written=True)[1]} if os.path.isfile(name) else set()
    return set()


def is_other_file(stem: str) -> bool:
    """Returns whether a name belongs to a file whose hash isn't a fingerprint: one of a county's nine, a zip, or one without records."""
    if kind_of(stem):
        return True
    folder, base = parted(stem)
    return os.path.isfile(stem) and county_in(folder, Entry(base, False, None)) is None


def loaded(name: str) -> tuple[Flags | None, list[Line]]:
    """Returns the flags and the counties of a whole manifest, with at least one county. Those that were refused are among them.
    Raises Failure, also if a run writes to it."""
    respect_lock(name)
    flags, lines, rest = parsed(name)
    if rest:
        why = "let the run that writes it finish first, or add the line ending if the line is whole"
        raise Failure(f"{name}: {CUT_OFF}: {why}")
    if not lines:
        raise Failure(f"{name}: the manifest is empty")
    return flags, lines


def named(flags: Flags | None) -> str:
    words = " ".join(without_mark(flags) or ["no flags"])
    return f"an unproved program and {words}" if UNPROVED in (flags or ()) else words


def agreed(name: str, flags: Flags | None, others: Flags) -> None:
    """Raises Failure if a manifest was made with other flags than these."""
    if flags is not None and flags != others:
        raise Failure(f"{name}: made with {named(flags)}, but this run has {named(others)}")


class Manifest:
    """A manifest that is written to, under its lock. One that is there already is read, and put in order. Raises Failure."""

    def __init__(self, name: str, flags: Flags, inputs: Inputs, resources: Resources) -> None:
        self.name, self.flags, self.inputs, self.resources = name, flags, inputs, resources
        self.place = os.path.realpath(name)
        self.lines: list[Line] = []
        self.is_shorter = False
        if os.path.lexists(self.place):
            before, self.lines, rest = parsed(name, is_written=True)
            last = parsed_line(rest)
            if last and (last.fingerprint or last.refusal):
                raise Failure(f"{name}: {CUT_OFF}: add the line ending if the line is whole, or remove the line")
            agreed(name, before, flags)
            with reported(name):
                open(self.place, "ab").close()
            self.put_in_order()

    def add_all(self, lines: Iterable[Line]) -> None:
        """Adds counties that it doesn't have, all of them or none."""
        self.lines += lines
        self.put_in_order()

    def add(self, line: Line) -> None:
        """Adds a county, or replaces the line that it had. The line is written at once: the whole of it or nothing."""
        with self.resources.lock, reported(self.name), open(self.place, "ab", buffering=0) as file:
            self.inputs.spare(self.name, file.fileno())  # another file may have taken its name
            before = file.tell()
            text = os.fsencode(line.entry if before else f"{heading(self.flags)}\n{line.entry}")
            try:
                while text:
                    text = text[file.write(text) :]
            except OSError:
                file.truncate(before)
                raise
            self.lines.append(line)

    def drop(self, name: str) -> None:
        """Takes a county out: its lines go when the manifest is put in order."""
        self.lines = [line for line in self.lines if folded(line.name()) != folded(name)]
        self.is_shorter = True

    def put_in_order(self) -> None:
        """Puts the counties in order by a copy, which takes the manifest's place once it is whole. Of a county the last line stays."""
        if self.lines or self.is_shorter:
            self.lines = [*{folded(line.name()): line for line in self.lines}.values()]
            self.lines.sort(key=lambda line: (os.fsencode(line.stem), line.fingerprint))
            with new_files([self.name], self.inputs, self.resources, is_forced=True) as files:
                files[self.name].write(os.fsencode("".join([f"{heading(self.flags)}\n", *(line.entry for line in self.lines)])))


@contextmanager
def written(name: str, flags: Flags, inputs: Inputs, resources: Resources) -> Iterator[Manifest]:
    """Opens a manifest to write to. No other run writes to it meanwhile. Raises Failure if it or its lock is an input."""
    inputs.spare_all([name, f"{name}.lock"])
    inputs.spare(f"{name}.lock", lock_of(name))
    resources.inputs([name])  # it is read too, so nothing is printed to it
    folder = os.path.dirname(os.path.realpath(name))
    if not os.path.isdir(folder):
        raise Failure(f"{name}: can't be written: there is no folder {folder}")
    if os.path.exists(name) and not os.path.isfile(name) and not os.path.isdir(name):  # beside a device no lock can be made
        raise Failure(f"{name}: not a manifest: it isn't a regular file")
    with resources.part() as part:
        part.keep(lock_held(name))
        manifest = Manifest(name, flags, inputs, part)
        yield manifest
        manifest.put_in_order()


# The lock of a manifest is the file MANIFEST.lock, locked, with a line that names the process that has it.


def lock_of(name: str) -> str:
    return f"{os.path.realpath(name)}.lock"


@contextmanager
def lock_held(name: str) -> Iterator[None]:
    handle = take_lock(name)
    try:
        yield
    finally:
        give_back(name, handle)


def take_lock(name: str) -> int:
    """Takes the lock, and returns its handle. It waits a little, since a verification has it for a moment."""
    while True:
        with reported(f"{name}.lock"):
            handle = os.open(lock_of(name), os.O_RDWR | os.O_CREAT | os.O_NONBLOCK | os.O_NOFOLLOW, 0o666)
        with ExitStack() as stack:
            stack.callback(os.close, handle)
            status = os.fstat(handle)
            lines = os.pread(handle, status.st_size, 0).splitlines() if stat.S_ISREG(status.st_mode) else [b""]
            if not all(map(LOCK_LINE.match, lines)):  # a file of the user's
                raise Failure(f"{name}.lock: isn't the lock of {name} but another file: move it away")
            lock(name, handle, fcntl.LOCK_EX, PATIENCE_FOR_LOCK)
            with suppress(FileNotFoundError):  # another run may have removed it meanwhile
                if os.path.samestat(os.stat(lock_of(name)), os.fstat(handle)):
                    sign_lock(name, handle)
                    stack.pop_all()
                    return handle


def sign_lock(name: str, handle: int) -> None:
    """Writes the line that names this process. A lock that can't have it, as on a full disk, is removed."""
    try:
        os.ftruncate(handle, 0)
        os.pwrite(handle, f"process {os.getpid()} on {socket.gethostname()}\n".encode(), 0)
    except OSError as error:
        os.unlink(lock_of(name))
        raise Failure(f"{name}.lock: can't be written: {reason(error)}") from None


def respect_lock(name: str) -> None:
    """Raises Failure if a run writes to the manifest."""
    with suppress(OSError), open(os.open(lock_of(name), os.O_RDONLY | os.O_NONBLOCK)) as file:
        lock(name, file.fileno(), fcntl.LOCK_SH, 0)


def give_back(name: str, handle: int) -> None:
    """Removes the file while it is locked. Another run that has opened it notices that the name no longer leads to it."""
    with suppress(OSError):
        os.unlink(lock_of(name))
    with suppress(OSError):
        os.close(handle)


def lock(name: str, handle: int, how: int, patience: float) -> None:
    until = time.monotonic() + patience
    while True:
        with reported(f"{name}.lock", "can't be locked"), suppress(BlockingIOError):
            return fcntl.flock(handle, how | fcntl.LOCK_NB)
        if time.monotonic() >= until:
            holder = os.pread(handle, 1000, 0).decode(errors="replace").strip() or "an unknown process"
            raise Failure(f"{name}: another run writes to it: {holder}")
        time.sleep(0.02)
