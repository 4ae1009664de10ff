"""The files that a call or a command reads, and files that it didn't make. None of them is written over."""

from __future__ import annotations

import os
import re
import stat
from contextlib import suppress
from typing import Iterable, Mapping, Optional, Union

from .errors import Failure, Unreadable
from .layout import is_record, kind_of
from .storage import first_line

Identity = tuple[int, int]
STREAMS = {1: "standard output", 2: "standard error"}  # of a command
MANIFEST = re.compile(rb"# tigercanon form .*|# --no-.*|[0-9a-fA-F]{64}  .*")  # how a manifest begins
PAGE = re.compile(rb"(?i)(\xef\xbb\xbf)?\s*<(!doctype )?html")  # how a page begins
MARK = b'<meta name="generator" content="tigercanon'  # at the beginning of a page that a command wrote
ON_THIS_MACHINE = ("file://", "local://")  # how URLs of fsspec begin that lead to files here


class Inputs:
    """Files that a command reads, or will read. They are known by their device and number there, so under each of their names and
    through each link."""

    def __init__(self, names: Iterable[str], streams: Mapping[int, str] = {}) -> None:
        """Raises Failure if a stream goes to one of the files. Then nothing more is written to it."""
        self.names: dict[Identity, str] = {}
        for name in names:
            file = identity(path_of(name))
            if file:
                self.names.setdefault(file, name)
        for stream, shown in streams.items():
            try:
                self.spare(shown, stream)
            except Failure:
                silence(stream)
                raise

    def spare(self, shown: str, output: Union[str, int]) -> None:
        """Raises Failure if an output is one of the files. It is a path, or the number of an open file."""
        name = self.names.get(identity(output) or (-1, -1))
        if name is not None:
            other = "" if os.path.abspath(name) == os.path.abspath(shown) else f" as {name}"
            raise Failure(f"{shown}: can't be written: this command reads it{other}")

    def spare_all(self, outputs: Iterable[str]) -> None:
        """Raises Failure if a command can't write to all names: one leads to a file that it reads, names a folder, or is the name of a
        county's file, as when the output's own name was forgotten."""
        for name in outputs:
            self.spare(name, name)
            if name.endswith("/"):
                raise Failure(f"{name}: can't be written: it is the name of a folder")
            if kind_of(name) or kind_of(os.path.realpath(name)):
                raise Failure(f"{name}: can't be written: it has the name of a county's file")


def refuse_other_files(names: Iterable[str]) -> None:
    """Raises Failure if a name leads to a file that no command has made, but that may be dear to somebody."""
    for name in names:
        why = "it is a symbolic link" if os.path.islink(name) else what_begins(name)
        if why:
            raise Failure(f"{name}: can't be written: {why}; --force overwrites it")


def what_begins(name: str) -> str:
    """Returns what a file is by its beginning: a county, a manifest, or a page that no command wrote. Nothing for any other file."""
    with suppress(OSError, Unreadable):
        line = first_line(name)
        if is_record(line):
            return "it is a county's file"
        if MANIFEST.fullmatch(line):
            return "it is a manifest"
        return "it is another page" if PAGE.match(beginning(name)) and not is_own_page(name) else ""
    return ""


def is_own_page(name: str) -> bool:
    return MARK in beginning(name)


def beginning(name: str) -> bytes:
    with open(name, "rb") as file:
        return file.read(1 << 16)


def path_of(name: str) -> str:
    if name == "-":
        return "/dev/stdin"
    beginning = next(filter(name.startswith, ON_THIS_MACHINE), "")
    return name[len(beginning) :]


def identity(file: Union[str, int]) -> Optional[Identity]:
    """Returns the device of a regular file and its number there. Nothing for anything else, or if the system doesn't say."""
    with suppress(OSError, ValueError):
        status = os.stat(file)
        if stat.S_ISREG(status.st_mode):
            return status.st_dev, status.st_ino
    return None


def silence(stream: int) -> None:
    """Drops everything that is printed to a stream from now on."""
    nothing = os.open(os.devnull, os.O_WRONLY)
    os.dup2(nothing, stream)
    os.close(nothing)
