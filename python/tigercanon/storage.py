"""Folders and files, on this machine or at a URL that fsspec reads, and the files in a zip."""

from __future__ import annotations

import errno
import gzip
import io
import os
import re
import time
import zipfile
import zlib
from contextlib import suppress
from dataclasses import dataclass
from datetime import datetime, timezone
from typing import Any, BinaryIO, Iterator

from .errors import Failure, Unreadable, reason
from .layout import TYPES, is_record, kind_of, stem_of

PAUSES = (0.5, 2.0)  # seconds between the three attempts to read a file at a URL
NO_ROOM = (errno.ENOSPC, errno.EDQUOT, errno.EFBIG)
END_OF_DIRECTORY = b"PK\5\6"
LARGE_END = b"PK\6\6"  # begins the end with numbers that the usual end can't hold
LONGEST_END = 65557
LARGE_END_BYTES = 76  # with what follows it, up to the usual end
PIECE = 1 << 20
GZIP = b"\x1f\x8b"
LONGEST_LINE = 240
MOST_OF_A_LINE = 400
LEFT_OUT = re.compile(r"(?:.*/)?(?:__MACOSX/|lost\+found/|\._|\.DS_Store$)")  # members of a zip


@dataclass(frozen=True)
class Entry:
    """A name in a folder, and the size of a file if the store reports it. trouble says why it can't be read as a file."""

    name: str
    is_folder: bool
    size: int | None
    trouble: str = ""


def is_url(path: str) -> bool:
    return "://" in path


def joined(folder: str, name: str) -> str:
    """Returns the path of a name in a folder. The empty folder is the current one."""
    return f"{folder}{'' if not folder or folder.endswith('/') else '/'}{name}"


def parted(path: str) -> tuple[str, str]:
    """Returns the folder of a path and the name in it: the inverse of `joined`."""
    folder, slash, name = path.rpartition("/")
    return (folder + slash if not folder or folder.endswith((":/", "://")) else folder), name


def tidy(path: str) -> str:
    """Returns the path without `.`, empty parts and a slash at the end, so that one file has one name in a manifest."""
    if is_url(path):
        return path.rstrip("/")
    parts = [part for part in path.split("/") if part not in ("", ".")]
    return ("/" if path.startswith("/") else "") + "/".join(parts)


def entries(folder: str) -> list[Entry]:
    """Returns the entries of a folder in the order of their names. Raises OSError, or what fsspec raises."""
    if is_url(folder):
        system, path = system_of(folder)
        named = [(item["name"].rstrip("/"), item) for item in system.ls(path, detail=True)]
        others = [(name.rpartition("/")[2], item) for name, item in named if name != path.rstrip("/")]
        listed = [Entry(name, item["type"] == "directory", item.get("size")) for name, item in others]
    else:
        listed = [local_entry(item) for item in os.scandir(folder or ".")]
    return sorted(listed, key=lambda entry: os.fsencode(entry.name))


def entry_of(url: str) -> Entry:
    """Returns the file at a URL. Raises what fsspec raises, or OSError if it isn't a file."""
    system, path = system_of(url)
    facts = system.info(path)
    if facts.get("type") == "directory":
        raise IsADirectoryError(url)
    return Entry(parted(url)[1], False, facts.get("size"))


def stamp(path: str) -> str:
    """Returns the size of a file and the time of its last change, with nanoseconds. A question mark or a hyphen stands for what
    isn't known."""
    size, time_of_change = "?", "-"
    with suppress(Exception):
        if is_url(path):
            system, inner = system_of(path)
            facts = system.info(path=inner)
            known = (facts.get(key) for key in ("mtime", "LastModified", "last_modified", "created"))
            size, time_of_change = str(facts.get("size", "?")), str(next(filter(None, known), "-")).replace(" ", "T")
        else:
            status = os.stat(path)
            seconds, rest = divmod(status.st_mtime_ns, 10**9)
            moment = datetime.fromtimestamp(seconds, timezone.utc).strftime("%Y-%m-%dT%H:%M:%S")
            size, time_of_change = str(status.st_size), f"{moment}.{rest:09}Z"
    return f"{size} {time_of_change}"


def first_line(path: str) -> bytes:
    """Returns the first line of a file, which may be packed by gzip: at most 240 bytes of it. Raises OSError, what fsspec
    raises, and Unreadable if the file can't be unpacked."""
    if is_url(path):
        system, inner = system_of(path)
        head = bytes(system.cat_file(inner, 0, PIECE >> 4))
    else:
        with open(path, "rb") as file:
            head = file.read(PIECE >> 4)
    is_packed = head.startswith(GZIP)
    if is_packed:
        head = beginning_of(unpacked(io.BytesIO(head), LONGEST_LINE))
    line = head[:LONGEST_LINE].partition(b"\n")[0].rstrip(b"\r")
    if path.lower().endswith(".gz") and not is_packed and not is_record(line):
        raise Unreadable("can't be unpacked: it isn't a file of gzip, as its name says")
    return line


def beginning_of(pieces: Iterator[bytes]) -> bytes:
    """Joins the first pieces until they have a line."""
    head = b""
    while len(head) < LONGEST_LINE and b"\n" not in head and (piece := next(pieces, b"")):
        head += piece
    return head


def line_at(path: str, number: int) -> tuple[bytes, int]:
    """Returns the beginning of a line of a file without its line ending, at most some hundred bytes of it, and how many bytes
    it has. Nothing is kept of the lines before, which may be very long."""
    with open(path, "rb") as file:
        while number > 1 and (piece := file.readline(PIECE)):
            number -= piece.endswith(b"\n")
        line = file.readline(MOST_OF_A_LINE) if number == 1 else b""
        rest = 0 if line.endswith(b"\n") else length_of_line(file)
    text = line if rest else line.rstrip(b"\n").removesuffix(b"\r")
    return text, len(text) + rest


def length_of_line(file: BinaryIO) -> int:
    """Returns how many bytes a line has from here, without its line ending."""
    count, last = 0, b""
    while piece := file.readline(PIECE):
        count, last = count + len(piece), last[-1:] + piece[-2:]
        if piece.endswith(b"\n"):
            break
    return count - (2 if last.endswith(b"\r\n") else last.endswith(b"\n"))


def local_entry(item: os.DirEntry[str]) -> Entry:
    is_folder = False
    try:
        is_folder = item.is_dir()
        trouble = "" if is_folder or item.is_file() else "isn't a regular file"
        return Entry(item.name, is_folder, item.stat().st_size, trouble)
    except OSError as error:  # a folder that can be listed but not entered still tells which names are folders
        return Entry(item.name, is_folder, None, f"can't be read: {reason(error)}")


def system_of(url: str) -> Any:
    """Returns the file system of a URL, and the path in it."""
    try:
        import fsspec
    except ImportError:
        raise Failure(f"{url} needs the Python package fsspec (Debian: python3-fsspec)") from None
    return fsspec.core.url_to_fs(url)


def is_folder(path: str) -> bool:
    if not is_url(path):
        return os.path.isdir(path)
    system, inner = system_of(path)
    return bool(system.isdir(inner))


def real(path: str) -> str:
    """Returns a name that a folder or file has once, whichever links lead to it."""
    return path if is_url(path) else os.path.realpath(path)


def fetch(url: str, size: int | None, target: str) -> None:
    """Copies a file from a URL, in at most three attempts. Raises Unreadable, and OSError if the copy can't be written."""
    system, path = system_of(url)
    for pause in (*PAUSES, 0.0):
        try:
            system.get_file(path, target)
            came = os.path.getsize(target)
            if size is None or came >= size:
                return
            why = f"only {came} of its {size} bytes arrived"
        except Exception as error:
            if isinstance(error, MemoryError) or getattr(error, "errno", None) in NO_ROOM:
                raise
            why = reason(error)
        time.sleep(pause)
    raise Unreadable(f"can't be read: {why} (three attempts)")


def opened_zip(path: str) -> zipfile.ZipFile:
    """Opens a zip. Raises Unreadable if it isn't one, or counts other files at its end than its directory has, and OSError if it can't be
    read."""
    try:
        archive = zipfile.ZipFile(path)
        files, counted = len(archive.infolist()), counted_at_end(path)
        if counted != files:
            archive.close()
            raise Unreadable(f"the zip is broken: its directory has {files:,} files, and its end counts {counted:,}")
        return archive
    except Exception as error:
        # Python 3.9 answers a directory before the file with EINVAL.
        if isinstance(error, (OSError, MemoryError, Unreadable)) and getattr(error, "errno", 0) != errno.EINVAL:
            raise
        with open(path, "rb") as file:
            if file.read(2) != b"PK":
                raise Unreadable("it isn't a zip") from None
            file.seek(max(0, file.seek(0, 2) - LONGEST_END))
            if END_OF_DIRECTORY not in file.read():
                raise Unreadable("the zip is cut off") from None
        raise Unreadable("the zip is broken: its directory can't be read") from None


def counted_at_end(path: str) -> int:
    """Returns how many files the end of a zip counts."""
    with open(path, "rb") as file:
        file.seek(max(0, file.seek(0, 2) - LONGEST_END - LARGE_END_BYTES))
        tail = file.read()
    at = tail.rindex(END_OF_DIRECTORY)
    large = tail[max(0, at - LARGE_END_BYTES) : at]
    return int.from_bytes(large[32:40] if large.startswith(LARGE_END) else tail[at + 10 : at + 12], "little")


def members_of(archive: zipfile.ZipFile) -> dict[str, zipfile.ZipInfo]:
    """Returns the files of the one county in a zip by their types, in either case of their names; or the one file with all
    records, by no type. Raises Unreadable."""
    counties: dict[str, dict[str, list[zipfile.ZipInfo]]] = {}
    members = [member for member in archive.infolist() if not LEFT_OUT.match(member.filename)]
    for member in members:
        kind = kind_of(member.filename)
        if kind in [*TYPES]:
            counties.setdefault(stem_of(member.filename).upper(), {}).setdefault(kind, []).append(member)
    wholes, trouble = whole_members(archive, members)
    names = [*counties, *(member.filename for member in wholes)]
    if not names:
        raise trouble
    if len(names) > 1:
        listing = ", ".join(sorted(ascii(name)[1:-1] for name in names)[:3])
        raise Unreadable(f"the zip has {len(names)} counties in it: {listing}")
    county = counties.get(names[0], {"": wholes})
    for kind, entries in county.items():
        if len(entries) > 1:
            raise Unreadable(f"the zip has {len(entries)} files .RT{kind}")
    return {kind: county[kind][0] for kind in ["", *TYPES] if kind in county}


def whole_members(archive: zipfile.ZipFile, members: list[zipfile.ZipInfo]) -> tuple[list[zipfile.ZipInfo], Unreadable]:
    """Returns the files in a zip that begin with a record, and why there may be none: the first one that can't be read, if any."""
    wholes, troubles = [], [Unreadable("the zip has no county in it")]
    for member in members:
        if not (member.is_dir() or kind_of(member.filename)):
            try:
                line = next(pieces_of(archive, member), b"")[:LONGEST_LINE].partition(b"\n")[0].rstrip(b"\r")
                wholes += [member] if is_record(line) else []
            except Unreadable as trouble:
                troubles.insert(-1, trouble)
    return wholes, troubles[0]


def pieces_of(archive: zipfile.ZipFile, member: zipfile.ZipInfo) -> Iterator[bytes]:
    """Yields the bytes of a file in a zip, and never more than the directory announces."""
    if member.flag_bits & 1:
        raise Unreadable("the zip is locked with a password")
    name = ascii(member.filename)[1:-1]
    left = member.file_size
    try:
        with archive.open(member) as source:
            while piece := source.read(PIECE):
                left -= len(piece)
                yield piece
    except (MemoryError, GeneratorExit):
        raise
    except NotImplementedError:
        raise Unreadable(f"the zip can't be unpacked: {name} is compressed by an unknown method") from None
    except Exception:
        # The archive can be read, so whatever goes wrong is wrong with these bytes.
        raise Unreadable(f"the zip is broken at {name}") from None
    if left != 0:
        raise Unreadable(f"the zip is broken at {name}")


def unpacked(source: str | io.BytesIO, most: int = PIECE) -> Iterator[bytes]:
    """Yields the bytes of a file that gzip packed, in pieces of at most this many. Raises Unreadable if they can't be unpacked."""
    try:
        with gzip.open(source) as packed:
            while piece := packed.read1(most):
                yield piece
    except (MemoryError, GeneratorExit):
        raise
    except (EOFError, OSError, zlib.error) as error:
        raise Unreadable(f"can't be unpacked: {reason(error)}") from None


def is_packed(path: str) -> bool:
    with open(path, "rb") as file:
        return file.read(2) == GZIP


def is_absent(error: Exception) -> bool:
    """Returns whether an error says that a file or folder isn't there. fsspec says so too if a server doesn't answer: then the
    error has another cause."""
    cause = error.__cause__
    is_answer = cause is None or isinstance(cause, FileNotFoundError) or getattr(cause, "status", None) in (404, 410)
    return isinstance(error, FileNotFoundError) and is_answer
