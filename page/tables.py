"""The tables of the page, from where the rest of the project has them: the refusals of docs/refusals.md, the columns of docs/format.md and of the
tools' differences, the tools' hints and the form of their manifests."""

from __future__ import annotations

import base64
import gzip
import re
import sys
from dataclasses import astuple
from pathlib import Path
from typing import Any, Iterator

ROOT = Path(__file__).resolve().parent.parent
sys.path.insert(0, str(ROOT / "python"))

from tigercanon import explanations, hints, layout, manifests  # noqa: E402
from tigercanon.diff import columns, wording  # noqa: E402

SECTION = re.compile(r"(?ms)^## Record type (.): .*? \((\d+) bytes\)$(.*?)(?=^## |\Z)")
ROW = re.compile(r"(?m)^\| ([0-9][0-9, -]*) \|([^|]*)\|([^|]*)\|([^|]*)\|")
EXAMPLES = {
    "one": ("autauga/all.txt",),
    "twoAlike": ("autauga/all.txt", "autauga-renumbered/all.txt"),
    "two": ("two-maps/first.txt", "two-maps/second.txt"),
    "broken": ("broken.txt",),
}


def refusals() -> dict[int, dict[str, Any]]:
    """The refusals by their numbers: the name, the meanings of the places, and the text of the page on refusals."""
    found = {}
    text = explanations.page()
    sections = explanations.sections(text)
    for number, name, places in explanations.SECTION.findall(text):
        body = sections[int(number)].partition("\n")[2].strip()
        found[int(number)] = {"name": name, "places": places.split(), "text": body}
    return found


def spans(text: str) -> list[tuple[int, int]]:
    ends = [each.strip().split("-") for each in text.split(",")]
    return [(int(each[0]), int(each[-1])) for each in ends]


def names(text: str, count: int) -> list[str]:
    """The names of this number of fields: `FRLONG, FRLAT`, or `FEAT1 to FEAT5`."""
    first, to, last = text.partition(" to ")
    if not to:
        return [each.strip() for each in text.split(",")]
    stems = [each.strip().rstrip("0123456789") for each in first.split(",")]
    return [f"{stem}{number}" for number in range(1, count // len(stems) + 1) for stem in stems]


def each_field(record: str) -> Iterator[list[Any]]:
    """The fields of a record type: name, first and last column, kind, and contents."""
    yield from (["record type", 1, 1, "", "the type"], ["VERSION", 2, 5, "F", "the version of the files"])
    for places, name, kind, holds in ROW.findall(record):
        between = spans(places)
        if name.strip() == "LONG1, LAT1 to LONG10, LAT10":  # ten places of a longitude and a latitude, side by side
            between = [(at, to) for place in range(19, 209, 19) for at, to in ((place, place + 9), (place + 10, place + 18))]
        called = names(name.strip(), len(between)) if name.strip() else ["filler"]
        for (first, last), each in zip(between, called):
            yield [each, first, last, kind.strip(), holds.strip().replace("`", "")]


def record_types() -> dict[str, dict[str, Any]]:
    """The record types as docs/format.md has them: the length of a line, and the fields."""
    text = (ROOT / "docs/format.md").read_text("utf-8")
    made = {kind: {"length": int(length), "fields": [*each_field(body)]} for kind, length, body in SECTION.findall(text)}
    # The fields that types 1 and 6 share are described once.
    shared = {field[0]: field[4] for field in made["1"]["fields"]}
    for field in made["6"]["fields"]:
        field[4] = field[4] or shared[field[0]]
    return made


def required() -> dict[str, list[list[Any]]]:
    """The fields that a record of each type must have: the first and the last column, and whether it is a coordinate."""
    return {
        kind: [[field.first, field.last, field.is_point] for field in its if field.is_required]
        for kind, its in layout.NUMBERS.items()
    }


def contents() -> dict[str, list[dict[str, Any]]]:
    """The columns with the content of a map, which maps are compared by."""
    named = ("CHAIN", "NAME", "RANGE", "LANDMARK", "TOPOLOGY", "POLYGON")
    made = {}
    for name in named:
        its: columns.Layout = getattr(columns, name)
        made[name] = {"hasFile": bool(its.file), "columns": [astuple(column) for column in its.columns]}
    return made


def examples() -> dict[str, list[dict[str, str]]]:
    """The examples, each file packed by gzip."""

    def packed(name: str) -> dict[str, str]:
        text = gzip.compress((ROOT / "examples" / name).read_bytes(), 9, mtime=0)
        return {"name": name, "gzip": base64.b64encode(text).decode()}

    return {name: [packed(each) for each in files] for name, files in EXAMPLES.items()}


def tables() -> dict[str, Any]:
    made = {
        "TYPES": layout.TYPES,
        "REFUSALS": refusals(),
        "RECORD_TYPES": record_types(),
        "CONTENTS": contents(),
        "LENGTHS": columns.LENGTHS,
        "REQUIRED": required(),
        "HINTS": [[list(beginning), text] for beginning, text in hints.BEGINNINGS],
        "KINDS": wording.KINDS,
        "ONE_MAP": wording.ONE_MAP,
        "TIED": wording.TIED,
        "NONE": wording.NONE,
        "BLANK": wording.BLANK,
        "YES": wording.YES,
        "NO": wording.NO,
        "FIELDS": wording.FIELDS,
        "PHRASES": wording.PHRASES,
        "FORM": manifests.FORM,
        "FLAGS": manifests.FLAGS,
        "UNPROVED": manifests.UNPROVED,
        "EXAMPLES": examples(),
    }
    assert {
        kind: its["length"] for kind, its in made["RECORD_TYPES"].items()
    } == columns.LENGTHS, "docs/format.md has other lengths"
    assert [*made["RECORD_TYPES"]] == [*layout.TYPES] and 20 <= len(made["REFUSALS"]) <= 30, "a page isn't as it was"
    return made
