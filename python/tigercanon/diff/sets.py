"""The two sets that are compared: their files, and the program's output for them."""

import hashlib
import os
import shutil
import stat
from concurrent.futures import ThreadPoolExecutor
from dataclasses import replace
from typing import NamedTuple, Sequence

from ..counties import Finder
from ..errors import Failure, Unreadable, printable, reported
from ..judge import County, File, Order, Source, prepared
from ..layout import TYPES, kind_of
from ..resources import Resources
from ..storage import tidy


class Canonical(NamedTuple):
    """The canonical text of a set, and its name on one line."""

    name: str
    text: bytes

    @property
    def fingerprint(self) -> str:
        return hashlib.sha256(self.text).hexdigest()


class Sets(NamedTuple):
    """The canonical texts of the two sets, and the flags with which they were printed."""

    first: Canonical
    second: Canonical
    masks: tuple[str, ...] = ()

    @property
    def are_one_map(self) -> bool:
        return self.first.text == self.second.text


def found(name: str, is_stem: bool) -> County:
    """Returns the set of this name: one file, a zip with a county, or the stem or a file of a county's nine files in either case of their
    endings. One that can be read only once, such as a pipe, has no place."""
    shown, mode = printable(name), 0
    if os.path.lexists(name) and not is_stem:
        with reported(shown, "can't be read"):
            mode = os.stat(name).st_mode
    if stat.S_ISDIR(mode):
        raise Failure(f"{shown}: it is a folder: name a file, a zip or the stem of a county's files")
    if mode and (not kind_of(name) or not stat.S_ISREG(mode)):
        place = os.path.realpath(name)  # for the program /dev/stdin would be another file
        return County(name, whole=File(place, None) if stat.S_ISREG(mode) and os.path.exists(place) else None)
    county = Finder().of_name(tidy(name), is_exact=True)
    if county.trouble:
        raise Failure(f"{name}: {county.trouble}")
    return county


def opened(name: str, county: County, resources: Resources) -> tuple[Source, list[str]]:
    """Returns the county of this name as the program reads it, and notes about its files. What the program can't read as it is
    gets a copy or a link, which is among the resources."""
    notes = list(county.notes)
    if kind_of(name) in [*TYPES] and len(county.files) > 1:
        notes.append(f"one of the nine files of {county.stem}, which is read")
    try:
        with reported(printable(name), "can't be read"):
            if not county.places:
                place = resources.place(0)
                with open(name, "rb") as piped, open(place, "wb") as copy:
                    shutil.copyfileobj(piped, copy)
                county = County(name, whole=File(place, None))
            return replace(prepared(county, Order(""), notes, resources), name=name), notes
    except Unreadable as error:
        raise Failure(f"{name}: {error}") from None


def printed(program: str, job: str, flags: Sequence[str], sources: Sequence[Source], resources: Resources) -> list[bytes]:
    """Returns what the program prints for each set, all at once. The first set that is rejected is reported."""

    def printed_for(source: Source) -> bytes:
        ended = source.run(program, job, flags, resources)
        if ended.returncode != 0:
            raise Failure(f"{printable(source.name)}: {'; '.join(source.complaint(ended))}")
        return ended.stdout

    with ThreadPoolExecutor() as threads:
        return list(threads.map(printed_for, sources))
