"""Writes the page for browsers with two counties in it, which it compares when it is opened."""

from __future__ import annotations

import base64
import gzip
import json
import os
import re
from contextlib import suppress
from pathlib import Path
from typing import Any, NamedTuple, Sequence

from ..errors import Failure, printable, reported
from ..judge import Source
from ..layout import TYPES
from ..resources import Writable
from .matching import Comparison
from .sets import Sets
from .words import SUBJECTS

VARIABLE = "TIGERCANON_PAGE"
NAME = "tigercanon.html"
PACKAGE = Path(__file__).resolve().parent.parent
PLACES = (PACKAGE, PACKAGE.parent.parent / "out/page", PACKAGE.parent.parent / "prebuilt", PACKAGE.parent.parent)
"""Where the page is: in an installed package, built here, in a clone, and in a release."""
EMPTY = '<script type="application/json" id="counties"></script>'
CARRIED = re.compile(
    r'<script type="application/json" id="counties">\{"fingerprints": \["(\w{64})", "(\w{64})"\], "counts": (\{[^}]*\})'
)
END = b"</html>\n"
HEAD = 4096  # bytes of a page that have its fingerprints and counts in them
LARGEST_PAGE = 60_000_000


class Carried(NamedTuple):
    """The fingerprints of the two counties that a page carries, and how many things of each subject differ."""

    fingerprints: tuple[str, str]
    counts: dict[str, list[int]]


def find_page() -> Path:
    """Returns the path of the page without counties. Raises Failure if there is none, or one without a place for counties."""
    named = os.environ.get(VARIABLE)
    places = [Path(named)] if named else [place / NAME for place in PLACES if (place / NAME).exists()]
    if not places:
        raise Failure(f"there is no {NAME} here: scripts/build-page makes it, or name one with ${VARIABLE}")
    page = places[0]
    with reported(str(page), "can't be read"):
        if EMPTY.encode() not in page.read_bytes():
            raise Failure(f"{page}: it isn't the page of this version: it has no place for counties")
    return page


def packed(source: Source) -> dict[str, Any]:
    """Packs the files of a county, each under its record type, or as `whole`."""
    kinds = TYPES if source.is_stem else ["whole"]
    files = []
    for kind, place, name in zip(kinds, source.files, source.names):
        if os.path.exists(place):
            text = gzip.compress(Path(place).read_bytes(), 6, mtime=0)
            files.append({"kind": kind, "name": printable(os.path.basename(name)), "gzip": base64.b64encode(text).decode()})
    return {"name": printable(source.name), "files": files}


def write_page(
    file: Writable, page: Path, name: str, counties: Sequence[dict[str, Any]], comparison: Comparison | None, sets: Sets
) -> None:
    """Writes the page with these counties, and with the counts if they were compared. Raises Failure if it would be too large."""
    carried: dict[str, Any] = {"fingerprints": [sets.first.fingerprint, sets.second.fingerprint]}
    if comparison:
        carried["counts"] = {subject: part.counts for subject, part in zip(SUBJECTS, comparison.parts)}
    # JSON without a letter that begins a tag, whatever the input is.
    text = json.dumps({**carried, "masks": sets.masks, "counties": counties}).replace("<", "\\u003c")
    filled = page.read_text("utf-8").replace(EMPTY, EMPTY.replace("><", f">{text}<"), 1).encode()
    if len(filled) > LARGEST_PAGE:
        raise Failure(
            f"{name}: can't be written: the page would have {len(filled):,} bytes, more than {LARGEST_PAGE:,}: use --geojson"
        )
    file.write(filled)


def carried_by(page: Path) -> Carried | None:
    """Returns what a page carries, or None if there is no whole page with counties there."""
    with suppress(OSError, UnicodeDecodeError), page.open("rb") as file:
        found = CARRIED.search(file.read(HEAD).decode("utf-8", "ignore"))
        file.seek(-len(END), os.SEEK_END)
        if found and file.read() == END:
            return Carried((found[1], found[2]), json.loads(found[3]))
    return None
