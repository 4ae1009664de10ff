"""The names of a county's files, and the fields of its records that are numbers or points."""

import os
import re
from dataclasses import dataclass
from typing import Union

Name = Union[str, "os.PathLike[str]"]  # of a file or a county, in a call; with | Python 3.9 can't resolve the types of public calls
TYPES = "1245678IP"  # the record types of the nine files, in the order of a set's parts
COUNTY_FILE = re.compile(r"(?ais)(.+)\.(?:RT([0-9A-Z])|ZIP)")
"""The name of a file of records, in either case of its ending, or of a zip: the stem, and the record type."""


def file_name(stem: str, kind: str) -> str:
    """Returns the name of a stem's file of a record type, as the program reads it."""
    return f"{stem}.RT{kind}"


def stem_of(path: str) -> str:
    """Returns the stem of a path: the name of a county's file or zip without its ending."""
    ending = COUNTY_FILE.fullmatch(path)
    return ending[1] if ending else path


def kind_of(path: str) -> str:
    """Returns the record type of a file of records, ZIP for a zip, and nothing for another name."""
    ending = COUNTY_FILE.fullmatch(path)
    return (ending[2] or "ZIP").upper() if ending else ""


def folded(path: str) -> str:
    """Returns a path that is the same for names that differ only in case."""
    folder, slash, name = path.rpartition("/")
    return folder + slash + name.upper()


def key_of(path: str) -> str:
    """Returns the name of a county without folder, case and ending, as another edition has it too. An ending has no blank in it."""
    name = path.rpartition("/")[2].upper()
    name = name[:-3] if name.endswith(".GZ") else name
    stem, ending = (stem_of(name), "") if kind_of(name) else os.path.splitext(name)
    return name if " " in ending else stem


@dataclass(frozen=True)
class Field:
    """A number or a coordinate of a record, in the columns from the first to the last. One that is required can't be blank."""

    name: str
    first: int
    last: int
    holds: str
    is_required: bool = True
    is_point: bool = False


def points(names: str, first: int, holds: str, is_required: bool = False) -> tuple[Field, Field]:
    """Returns a longitude of 10 columns and the latitude of 9 after it."""
    longitude, latitude = names.split()
    middle = first + 10
    return (
        Field(longitude, first, middle - 1, f"longitude {holds}", is_required, True),
        Field(latitude, middle, middle + 8, f"latitude {holds}", is_required, True),
    )


TLID = Field("TLID", 6, 15, "the chain's number")
RTSQ = Field("RTSQ", 16, 18, "which of the chain's records of this type it is")
POLYID = Field("POLYID", 16, 25, "the polygon's number")
SHAPE_POINTS = [
    field for place in range(1, 11) for field in points(f"LONG{place} LAT{place}", 19 * place, f"of shape point {place}")
]

NUMBERS: dict[str, tuple[Field, ...]] = {
    "1": (TLID, *points("FRLONG FRLAT", 191, "of the start", True), *points("TOLONG TOLAT", 210, "of the end", True)),
    "2": (TLID, RTSQ, *SHAPE_POINTS),
    "4": (TLID, RTSQ, *(Field(f"FEAT{place}", 11 + 8 * place, 18 + 8 * place, "a further name", False) for place in range(1, 6))),
    "5": (Field("FEAT", 11, 18, "the name's number"),),
    "6": (TLID, RTSQ),
    "7": (Field("LAND", 11, 20, "the landmark's number"), *points("LALONG LALAT", 55, "of the landmark")),
    "8": (POLYID, Field("LAND", 26, 35, "the landmark")),
    "I": (
        Field("TLID", 11, 20, "the chain's number"),
        Field("TZIDS", 21, 30, "the node at the start", False),
        Field("TZIDE", 31, 40, "the node at the end", False),
        Field("POLYIDL", 46, 55, "the polygon on the left", False),
        Field("POLYIDR", 61, 70, "the polygon on the right", False),
    ),
    "P": (POLYID, *points("POLYLONG POLYLAT", 26, "of a point inside")),
}
"""The fields of each record type that aren't text."""

LENGTHS = {"1": 228, "2": 208, "4": 58, "5": 56, "6": 76, "7": 74, "8": 36, "I": 127, "P": 45}
"""The length of each record type's lines, without their ends."""

FILLED = {False: re.compile(rb" *[0-9]+ *"), True: re.compile(rb" *[+-]?[0-9]+ *")}
"""A field with a number, or with a coordinate."""


def is_record(line: bytes) -> bool:
    """Returns whether a line has the form of a record: a record type, and what that type requires in its numbers and coordinates."""
    required = [field for field in NUMBERS.get(line[:1].decode("latin-1"), ()) if field.is_required]
    return bool(required) and all(FILLED[field.is_point].fullmatch(line[field.first - 1 : field.last]) for field in required)
