"""The place of a refusal in a county's files: the line, its field, its fault, and an example of a right one."""

from __future__ import annotations

import re
from dataclasses import dataclass
from itertools import islice
from typing import Iterator, Sequence

from .diff.columns import CHAIN, LANDMARK, NAME, POLYGON, RANGE, TOPOLOGY
from .errors import reason
from .layout import FILLED, LENGTHS, NUMBERS, TYPES, Field
from .storage import line_at

REFUSAL = re.compile(r"refused (\d+) (\w+)((?: [0-9A-Za-z]+)*?)(?: in set [12])?")
TEXTS = {each.record_type: each.columns for each in (CHAIN, LANDMARK, NAME, POLYGON, RANGE, TOPOLOGY)}
RECORDS = {11: "1", 14: "1", 15: "I", 16: "5", 17: "4", 18: "P", 19: "8", 20: "8", 23: "P"}
"""The record type with the numbers that a refusal names, if it isn't named itself."""
MOST_LINES = 2  # of a refusal of a county at most these are shown
WIDTH = 76  # columns of a line that are shown


@dataclass(frozen=True)
class Fault:
    """A place in a county's files. The columns are counted from 1. There is no line if a file can't be read."""

    file: str
    line: int = 0
    text: str = ""
    first: int = 0
    last: int = 0
    record_type: str = ""
    field: str = ""
    wrong: str = ""
    example: str = ""

    def shown(self) -> list[str]:
        """Returns the place in words, the line with a mark below the field, and the fault."""
        if not self.line:
            return [f"{self.file}: {self.wrong}"]
        columns = f"columns {self.first} to {self.last}" if self.last > self.first else f"column {self.first}"
        what = ", ".join(filter(None, [columns, self.field, f"record type {self.record_type}" if self.record_type else ""]))
        begin = 0 if self.last <= WIDTH else max(0, self.first - 21)
        cut, dots = self.text[begin : begin + WIDTH], ".." if begin else ""
        mark = " " * (self.first - 1 - begin + len(dots)) + "^" * max(1, min(self.last - self.first + 1, WIDTH))
        ending = ".." if len(self.text) > begin + WIDTH else ""
        right = f"; right is for example {self.example}" if self.example else ""
        return [
            f"{self.file}, line {self.line:,}, {what}:",
            f"    {dots}{cut}{ending}".rstrip(),
            f"    {mark}",
            f"    {self.wrong}{right}",
        ]


def faults_of(refusal: str, files: Sequence[str], names: Sequence[str]) -> list[Fault]:
    """Returns the places of a refusal in the files of a set, which are shown under these names."""
    words = REFUSAL.fullmatch(refusal)
    if not words:
        return []
    number, places = int(words[1]), words[3].split()
    try:
        if number <= 6:
            part, line, *column = map(int, places)
            return [in_line(number, files[part - 1], names[part - 1], line, *column)]
        if number == 8:
            return [
                Fault(name, wrong=why)
                for file, name in zip(files, names)
                for why in [unreadable(file, is_first=file == files[0])]
                if why
            ]
        if number in RECORDS or number in (12, 13):
            return list(islice(in_county(number, places, files, names), MOST_LINES))
    except (OSError, ValueError, IndexError, KeyError):
        pass
    return []


def unreadable(file: str, is_first: bool) -> str:
    """Returns why a file can't be read, if it can't. Only the first file of a set must exist."""
    try:
        with open(file, "rb") as opened:
            while opened.read(1 << 20):
                pass
    except FileNotFoundError as error:
        return reason(error) if is_first else ""
    except OSError as error:
        return reason(error)
    return ""


def in_line(number: int, file: str, name: str, line: int, column: int = 1) -> Fault:
    """Returns the fault in a line: of its type, its length, a byte or a field."""
    text, length = line_at(file, line)
    kind = text[:1].decode("latin-1")
    field = next((each for each in NUMBERS.get(kind, ()) if each.first == column), None) if number > 3 else None
    if number == 1:
        wrong = f"no record type is {kind!r}" if kind else "the line is empty"
        return fault(name, line, text, 1, 1, "", "", wrong, f"one of {' '.join(TYPES)}")
    if number == 2:
        most = LENGTHS[kind]
        return fault(name, line, text, most + 1, length, kind, "", f"the line has {length:,} bytes, and may have {most}", "")
    if field is None:
        wrong = f"the byte 0x{text[column - 1]:02X} isn't allowed"
        return fault(name, line, text, column, column, kind, named(kind, column), wrong, "a blank")
    value = text[field.first - 1 : field.last].ljust(field.last - field.first + 1)
    wrong, example = ("it is used, and a place to its left isn't", "blanks") if number == 6 else wrong_in(field, value)
    return fault(name, line, text, field.first, field.last, kind, f"{field.name} ({field.holds})", wrong, example)


def fault(name: str, line: int, text: bytes, first: int, last: int, kind: str, field: str, wrong: str, example: str) -> Fault:
    plain = "".join(each if each.isprintable() else "?" for each in text.decode("latin-1"))
    return Fault(name, line, plain, first, last, kind, field, wrong, example)


def named(kind: str, column: int) -> str:
    """Returns the field of a column, if it has one."""
    fields = [(field.first, field.last, f"{field.name} ({field.holds})") for field in NUMBERS.get(kind, ())]
    fields += [(field.first, field.last, f"{field.name} ({field.holds})") for field in TEXTS.get(kind, ())]
    return next((shown for first, last, shown in fields if first <= column <= last), "")


def wrong_in(field: Field, value: bytes) -> tuple[str, str]:
    """Tells what is wrong with a number or a coordinate, and an example of a right one."""
    width = field.last - field.first + 1
    example = f'"{("-086468600" if width == 10 else "+32424900") if field.is_point else str(12345)[: width - 1].rjust(width)}"'
    if not value.strip():
        half = "its other half isn't" if not field.is_required else "a point has to be there"
        return f"it is blank, and {half if field.is_point else 'has to have a number'}", example
    if not FILLED[field.is_point].fullmatch(value):
        if re.search(rb"[0-9] +[0-9]", value):
            return "it has a blank between digits", example
        letter = next((chr(each) for each in value if chr(each) not in " 0123456789+-"), "")
        sign = "a sign in the wrong place" if field.is_point else "a sign"
        return f"it has {repr(letter) if letter else sign}", example
    if not int(value):
        return "it is zero, which is for none", example
    return (
        "it is too large"
        if field.is_point and len(value.strip().lstrip(b"+-")) >= width
        else "the other half of its point is blank",
        example,
    )


def in_county(number: int, places: list[str], files: Sequence[str], names: Sequence[str]) -> Iterator[Fault]:
    """Yields the lines with the numbers that a refusal of a county names."""
    kind = RECORDS.get(number) or places[0]
    polygon = number in (18, 20, 23)
    name = "POLYID" if polygon else "LAND" if number == 19 else "FEAT" if number == 16 else "TLID"
    value = int(places[1] if polygon or number in (12, 13) else places[0])
    office = bytes.fromhex(places[0]) if polygon else b""
    (field,) = (field for field in NUMBERS[kind] if field.name == name)
    for file, shown in zip(files, names):
        for line, text in lines_of(file, kind):
            digits = text[field.first - 1 : field.last].strip()
            if digits.isdigit() and int(digits) == value and (not polygon or text[10:15].ljust(5) == office):
                yield fault(
                    shown, line, text, field.first, field.last, kind, f"{name} ({field.holds})", "the record with this number", ""
                )


def lines_of(file: str, kind: str) -> Iterator[tuple[int, bytes]]:
    """Yields the lines of a record type with their numbers. A file that isn't there has none."""
    try:
        with open(file, "rb") as opened:
            for number, text in enumerate(opened, 1):
                if text[:1] == kind.encode():
                    yield number, text.rstrip(b"\r\n")
    except FileNotFoundError:
        return
