"""Hints beside a refusal: what the bytes of the file suggest."""

from __future__ import annotations

import os
import re
from contextlib import suppress
from pathlib import Path
from typing import Sequence

from .errors import reason
from .storage import line_at

FAULTY_LINE = re.compile(r"refused ([1-6]) \w+ (\d+) (\d+)\b.*")

BEGINNINGS = (
    (b"PK\3\4", "the file is a zip: name it with its ending .ZIP"),
    (b"\x1f\x8b", "the file is compressed by gzip: unpack it first"),
    (b"\xff\xfe", "the file is UTF-16: convert it to LATIN1 first"),
    (b"\xfe\xff", "the file is UTF-16: convert it to LATIN1 first"),
    (b"\xef\xbb\xbf", "the file begins with a byte order mark: remove its first three bytes"),
)


OLDER_LENGTHS = {"5": 52, "I": 52, "P": 44}
"""The lengths of lines before 2002, of the types that had another length then."""


def hint(line: str, files: Sequence[str | None]) -> str:
    """Tells what to look at after a refusal, if anything. files are the parts of the set in their order."""
    if line.startswith("refused 8 "):
        return hint_of_names([file for file in files if file])
    place = FAULTY_LINE.match(line)
    file = files[int(place[2]) - 1] if place and 1 <= int(place[2]) <= len(files) else None
    with suppress(OSError):
        return hint_of_bytes(file, int(place[3])) if place and file else ""
    return ""


def hint_of_names(files: Sequence[str]) -> str:
    """Tells which file has another name, or can't be opened, and why."""
    for path in map(Path, files):
        for other in (path.stem + path.suffix.lower(), path.name.lower()):
            if other != path.name and os.path.exists(path.with_name(other)) and not os.path.exists(path):
                return f"there is {other}: the program reads names in capitals only"
    for path in map(Path, files):
        named = path.suffix if len(files) > 1 else "it"
        if os.path.isdir(path):
            return f"{named} is a folder"
        try:
            os.close(os.open(path, os.O_RDONLY | os.O_NONBLOCK))
        except FileNotFoundError:
            pass
        except OSError as error:
            return f"{named} can't be read: {reason(error)}"
    return ""


def hint_of_bytes(file: str, line: int) -> str:
    """Tells what the first bytes of a file, the last ones, or the length of its faulty line suggest."""
    with open(file, "rb") as opened:
        start = opened.read(4096)
        opened.seek(max(0, opened.seek(0, os.SEEK_END) - 4))
        end = opened.read()
    for beginning, text in BEGINNINGS:
        if line == 1 and start.startswith(beginning):
            return text
    if line == 1 and b"\r" in start and b"\n" not in start:
        return "lines end in CR alone, as on an old Mac: convert them to LF or CR LF"
    if end.rstrip(b"\r\n").endswith(b"\x1a") and not line_at(file, line + 1)[1]:
        return "the file ends with a Control-Z, the end mark of an old system: remove it"
    record, length = line_at(file, line)
    kind = record[:1].decode("latin-1")
    if OLDER_LENGTHS.get(kind) == length:
        return f"lines of type {kind} have {length} bytes: an edition before 2002, which this program doesn't read"
    return ""
