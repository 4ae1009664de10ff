"""The bytes of a county in memory, for the calls of the library."""

from __future__ import annotations

import os
import zipfile
from pathlib import Path
from typing import Iterable

from .counties import Finder
from .errors import Unreadable
from .judge import LARGEST
from .layout import TYPES, kind_of
from .storage import is_packed, members_of, opened_zip, pieces_of, tidy, unpacked


def contents(path: str) -> list[bytes | bytearray]:
    """Returns the nine parts of the county of this name (an absent file is an empty part), or the one part of a file with all records.
    Raises FileNotFoundError if there is no such county, Unreadable if it isn't clear which records are meant, or if they are more than
    a county may have, and OSError."""
    if os.path.isfile(path) and (kind_of(path) in ("", "ZIP") or zipfile.is_zipfile(path)):
        return contents_of_file(path)
    county = Finder().of_name(tidy(path), is_exact=True)
    if county.is_absent:
        raise FileNotFoundError(f"there is no file {path}, and no county's files begin with this name")
    if county.trouble:
        raise Unreadable(county.trouble)
    for file in filter(None, (county.zip, county.whole)):
        return contents_of_file(file.place)
    return [Path(county.files[kind].place).read_bytes() if kind in county.files else b"" for kind in TYPES]


def contents_of_file(path: str) -> list[bytes | bytearray]:
    """Returns the parts of a zip, or the one part of a file with all records. Raises Unreadable and OSError."""
    if kind_of(path) != "ZIP" and not zipfile.is_zipfile(path):
        return [joined(unpacked(path)) if is_packed(path) else Path(path).read_bytes()]
    with opened_zip(path) as archive:
        members = members_of(archive)
        sizes = sum(member.file_size for member in members.values())
        if sizes > LARGEST:
            raise Unreadable(f"the zip unpacks to {sizes} bytes, more than {LARGEST}")
        kinds = [""] if "" in members else TYPES
        return [joined(pieces_of(archive, members[kind])) if kind in members else b"" for kind in kinds]


def joined(pieces: Iterable[bytes]) -> bytearray:
    """Returns all of the pieces in one. Raises Unreadable if they are more than a county may have."""
    text = bytearray()
    for piece in pieces:
        text += piece
        if len(text) > LARGEST:
            raise Unreadable(f"it unpacks to more than {LARGEST} bytes")
    return text
