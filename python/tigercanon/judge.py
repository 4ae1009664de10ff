"""One county judged by one process of the program.

These functions also run on the workers of a cluster, where this package need not be installed: they are sent there by value. Classes
are dataclasses, since a NamedTuple can't be sent like this.
"""

from __future__ import annotations

import os
import re
import shutil
import subprocess
from dataclasses import astuple, dataclass, field, replace
from enum import Enum
from typing import Any, Iterable, Iterator, Mapping, Sequence

from .errors import Unreadable, printable, reason
from .faults import Fault, faults_of
from .hints import hint
from .layout import TYPES, file_name
from .resources import Resources, remove_stale_folders
from .storage import (
    NO_ROOM,
    PIECE,
    fetch,
    is_packed,
    is_url,
    joined,
    members_of,
    opened_zip,
    parted,
    pieces_of,
    real,
    stamp,
    unpacked,
)

ANSWERS = {"fingerprint": re.compile(rb"[0-9a-f]{64}\n"), "check": re.compile(b"accepted\n")}
"""What the program prints for a county that it accepts."""
NEEDED_IN_STRICT_MODE = "12I"  # types whose file may not be empty in strict mode
LARGEST = 2 * 10**9  # the bytes that a county may have after it is unpacked, by default
SECONDS = 600  # the seconds that a county may take, by default


@dataclass(frozen=True)
class File:
    """Where a file is, and how many bytes it has, if that is known."""

    place: str
    size: int | None


@dataclass(frozen=True)
class County:
    """A county in an archive: single files by their types, one file with all records, or a zip. stem is its name in a manifest. trouble
    says why it can't be judged; its files are those that are there all the same. notes are reported with its result. readable_stem is one
    that the program can read without copies of the files, if their names are in capitals. is_folder: it is no county but a folder that
    can't be listed, or couldn't be when the manifest was written, and its stem ends with a slash."""

    stem: str
    files: dict[str, File] = field(default_factory=dict)
    whole: File | None = None
    zip: File | None = None
    trouble: str = ""
    is_absent: bool = False
    notes: tuple[str, ...] = ()
    readable_stem: str | None = None
    is_folder: bool = False

    @property
    def places(self) -> list[File]:
        return [file for file in (self.zip, self.whole, *self.files.values()) if file]

    @property
    def real_places(self) -> tuple[str, ...]:
        """The names that its files have whichever links lead to them."""
        return tuple(real(file.place) for file in self.places)

    @property
    def sources(self) -> str:
        """The size and the time of each of its files, as they are now."""
        return ", ".join(stamp(file.place) for file in self.places)

    @property
    def size(self) -> int:
        """The bytes that its files take in the archive."""
        return sum(file.size or 0 for file in self.places)


@dataclass(frozen=True)
class Order:
    program: str
    flags: tuple[str, ...] = ()
    is_strict: bool = False
    largest: int = LARGEST
    memory: int | None = None
    job: str = "fingerprint"
    seconds: int = SECONDS


class Kind(Enum):
    """What an answer is, and its text: the fingerprint or `accepted`; the program's line, or what strict mode rejects; what is wrong with
    a county's files; that a county may not have fitted into memory; and why a worker can judge nothing."""

    ACCEPTED = "accepted"
    REFUSED = "refused"
    FAILED = "failed"
    MEMORY = "memory"
    LOST = "lost"


@dataclass(frozen=True)
class Answer:
    """The result for a county."""

    kind: Kind
    text: str
    notes: tuple[str, ...] = ()
    faults: tuple[Fault, ...] = ()


class Rejected(Exception):
    """Strict mode rejects a county. The text says why."""


@dataclass(frozen=True)
class Source:
    """A set as the program reads it: a file, or the stem of a county's nine files in capitals. name is the user's, and shown are
    the user's names of the nine files."""

    name: str
    place: str
    is_stem: bool
    shown: tuple[str, ...] = ()

    @property
    def files(self) -> list[str]:
        """The files that are its parts, in their order."""
        return [file_name(self.place, kind) for kind in TYPES] if self.is_stem else [self.place]

    @property
    def names(self) -> list[str]:
        """The user's names of the files."""
        return [*self.shown] if self.is_stem else [self.name]

    @property
    def is_empty(self) -> bool:
        """Whether there are files, and none of them has a byte."""
        there = [os.path.getsize(file) for file in self.files if os.path.exists(file)]
        return bool(there) and not any(there)

    def run(
        self,
        program: str,
        job: str,
        flags: Sequence[str],
        resources: Resources,
        memory: int | None = None,
        seconds: int | None = None,
    ) -> subprocess.CompletedProcess[bytes]:
        """Runs a command of the program on the set. Raises TimeoutExpired if it takes longer than these seconds."""
        return resources.run([program, job, *["--stem"] * self.is_stem, *flags, "--", self.place], memory, seconds)

    def complaint(self, ended: subprocess.CompletedProcess[bytes]) -> list[str]:
        """Returns the program's line, or how it ended; and a hint, if there is one."""
        lines = ended.stderr.decode(errors="replace").strip().splitlines()
        if ended.returncode < 0:
            line = f"the program was ended by signal {-ended.returncode}"
        elif lines:
            line = printable(lines[-1])
        elif ended.returncode == 0:
            line = "the program printed something that tigercanon doesn't print"
        else:
            line = f"the program ended with status {ended.returncode}"
        return [line, *filter(None, [hint(line, self.files)])]


def judge(county: County, order: Order, resources: Resources) -> Answer:
    """Judges a county. Whatever goes wrong is part of the answer."""
    notes = list(county.notes)
    with resources.part() as part:
        try:
            source = prepared(county, order, notes, part)
            if source.is_empty:
                return Answer(Kind.FAILED, "it is empty, so it has no records", county.notes)
            ended = source.run(order.program, order.job, order.flags, part, order.memory, order.seconds)
            look_again(county)
            return answer_of(source, ended, order, notes)
        except Rejected as rejected:
            return Answer(Kind.REFUSED, str(rejected), tuple(notes))
        except Unreadable as failure:
            return Answer(Kind.FAILED, str(failure), county.notes)
        except subprocess.TimeoutExpired:
            return Answer(Kind.FAILED, f"it takes longer than --seconds {order.seconds}", tuple(notes))
        except MemoryError:
            return Answer(Kind.MEMORY, "out of memory", tuple(notes))
        except OSError as error:
            what = f"unpacked into {part.room}" if error.errno in NO_ROOM else "read or unpacked"
            return Answer(Kind.FAILED, f"can't be {what}: {reason(error)}", tuple(notes))


def answer_of(source: Source, ended: subprocess.CompletedProcess[bytes], order: Order, notes: list[str]) -> Answer:
    """Returns the answer that the program has given."""
    if ended.returncode == 0 and ANSWERS[order.job].fullmatch(ended.stdout):
        return Answer(Kind.ACCEPTED, ended.stdout[:-1].decode(), tuple(notes))
    line, *hints = source.complaint(ended)
    faults = faults_of(line, source.files, source.names) if order.job == "check" else []
    # Signals end a program that finds no memory in one way or another; a shell between reports them as a status over 128.
    is_ended = not 0 <= ended.returncode <= 128
    if is_ended and order.memory is not None:
        line = f"it doesn't fit into --memory {order.memory}: {line}"
    lacks_memory = is_ended or line.startswith("refused 9 ")
    kind = Kind.MEMORY if lacks_memory else Kind.REFUSED if line.startswith("refused ") else Kind.FAILED
    return Answer(kind, line, (*notes, *hints), tuple(faults))


def prepared(county: County, order: Order, notes: list[str], resources: Resources) -> Source:
    """Returns the set as the program reads it: the county's own files, links to them, copies, or what was in its zip. Notes
    which of the nine files are missing, or which record types."""
    if county.whole:
        return prepared_whole(county.stem, local(county.whole, resources), order, notes, resources)
    pieces: dict[str, Iterator[bytes]] = {}
    sizes = {kind: file.size for kind, file in county.files.items()}
    if county.zip:
        archive = resources.keep(opened_zip(local(county.zip, resources)))
        members = members_of(archive)
        pieces = {kind: pieces_of(archive, member) for kind, member in members.items()}
        sizes = {kind: member.file_size for kind, member in members.items()}
    size = sum(size or 0 for size in sizes.values())
    if county.zip and size > order.largest:
        raise Unreadable(f"the zip unpacks to {size} bytes, more than --largest {order.largest}")
    if "" in pieces:
        return prepared_whole(county.stem, copied(pieces[""], size, resources, order), order, notes, resources)
    note_files(sizes, order, notes)
    if county.readable_stem is not None and is_plain(county.readable_stem) and not has_others(county, county.readable_stem):
        return Source(county.stem, county.readable_stem, True, shown_names(county))
    stem = resources.place(size)
    for kind, each in pieces.items():
        with open(file_name(stem, kind), "wb") as target:
            target.writelines(each)
    for kind, file in county.files.items():
        if is_url(file.place):
            fetch(file.place, file.size, file_name(stem, kind))
        else:
            os.symlink(file.place, file_name(stem, kind))
    return Source(county.stem, stem, True, shown_names(county))


def prepared_whole(name: str, path: str, order: Order, notes: list[str], resources: Resources) -> Source:
    """Returns a file with all records as the program reads it: itself, a link, or a copy if gzip packed it."""
    if is_packed(path):
        path = copied(unpacked(path), os.path.getsize(path), resources, order)
    note_records(path, order, notes)
    if not is_plain(path):
        link = resources.place(0)
        os.symlink(path, link)
        path = link
    return Source(name, path, is_stem=False)


def copied(pieces: Iterator[bytes], size: int, resources: Resources, order: Order) -> str:
    """Returns a temporary file with these bytes, which may be more than the size at which they are announced. Raises Unreadable
    if they are more than the order allows."""
    place, left = resources.place(size), order.largest
    with open(place, "wb") as target:
        for piece in pieces:
            left -= target.write(piece)
            if left < 0:
                raise Unreadable(f"it unpacks to more than --largest {order.largest} bytes")
    return place


def shown_names(county: County) -> tuple[str, ...]:
    """Returns the user's names of a county's nine files. A file that isn't there or is in a zip is named by its type."""
    folder = parted(county.stem)[0]
    names = {kind: joined(folder, parted(file.place)[1]) for kind, file in county.files.items()}
    return tuple(names.get(kind, file_name(county.stem, kind)) for kind in TYPES)


def has_others(county: County, stem: str) -> bool:
    """Returns whether a stem has files that the county leaves out."""
    return any(os.path.lexists(file_name(stem, kind)) for kind in TYPES if kind not in county.files)


def look_again(county: County) -> None:
    """Raises Unreadable if a single file has vanished: the program takes it for one that was never there."""
    for file in county.files.values():
        try:
            if not is_url(file.place):
                os.stat(file.place)
        except OSError as error:
            raise Unreadable(f"{os.path.basename(file.place)} can't be read: {reason(error)}") from None


def is_plain(path: str) -> bool:
    """Returns whether the program takes this name: it is UTF-8."""
    try:
        return bool(path.encode())
    except UnicodeEncodeError:
        return False


def local(file: File, resources: Resources) -> str:
    """Returns a file on this machine: itself, or a copy from a URL."""
    if not is_url(file.place):
        return file.place
    place = resources.place(file.size or 0)
    fetch(file.place, file.size, place)
    return place


def note_files(sizes: Mapping[str, int | None], order: Order, notes: list[str]) -> None:
    """Notes which of the nine files are missing or empty. Raises Rejected if strict mode doesn't allow it."""
    missing = [kind for kind in TYPES if kind not in sizes]
    empty = [kind for kind, size in sizes.items() if size == 0]
    if order.is_strict and missing:
        raise Rejected(f"rejected by --strict: no {endings(missing)}")
    if order.is_strict and any(kind in NEEDED_IN_STRICT_MODE for kind in empty):
        raise Rejected(f"rejected by --strict: empty {endings(empty)}")
    if missing:
        notes.insert(0, f"no {endings(missing)}")
    reported = empty if order.is_strict else [kind for kind in empty if kind == "1"]
    if reported:
        notes.append(f"empty {endings(reported)}")


def note_records(path: str, order: Order, notes: list[str]) -> None:
    """Notes that a file with all records is empty. In strict mode it notes which record types are missing, and raises Rejected if one of
    them is needed."""
    missing = types_missing(path) if order.is_strict else []
    if any(kind in NEEDED_IN_STRICT_MODE for kind in missing):
        raise Rejected(f"rejected by --strict: no records of type {' '.join(missing)}")
    if missing:
        notes.append(f"no records of type {' '.join(missing)}")
    elif os.path.getsize(path) == 0:
        notes.append("the file is empty")


def types_missing(path: str) -> list[str]:
    """Returns the record types that a file has no line of. The file isn't mapped, since another process may cut it off meanwhile."""
    missing, last = {*TYPES}, b"\n"
    with open(path, "rb") as file:
        while missing and (piece := file.read(PIECE)):
            text = last + piece
            missing = {kind for kind in missing if f"\n{kind}".encode() not in text}
            last = piece[-1:]
    return [kind for kind in TYPES if kind in missing]


def endings(kinds: Iterable[str]) -> str:
    return " ".join(f".RT{kind}" for kind in kinds)


def judge_on_a_worker(county: tuple[Any, ...], order: tuple[Any, ...]) -> tuple[Any, ...]:
    """Judges a county on a worker, by the program at the client's path or the one on the worker's PATH. Both come as the plain
    tuples that `astuple` makes: the client's classes aren't known to workers."""
    remove_stale_folders()
    named = Order(*order)
    program = shutil.which(named.program) or shutil.which("tigercanon")
    if program is None:
        why = f"there is no {named.program}, and no tigercanon on its PATH"
        return Kind.LOST.value, f"a worker has no program: {why}", (), ()
    stem, files, whole, packed, *rest = county
    singles = {kind: File(*file) for kind, file in files.items()}
    there = County(stem, singles, whole and File(*whole), packed and File(*packed), *rest)
    with Resources() as resources:
        answer = judge(there, replace(named, program=program), resources)
    return answer.kind.value, answer.text, answer.notes, tuple(map(astuple, answer.faults))
