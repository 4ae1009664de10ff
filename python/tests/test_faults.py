"""The places of refusals in a county's files: the line as the file has it, its part, and the fault there."""

from __future__ import annotations

from pathlib import Path

import pytest
from dev.testing import ROOT, TYPES
from support import put

import tigercanon
from tigercanon.faults import Fault, faults_of
from tigercanon.layout import file_name

COUNTY = (ROOT / "examples/autauga/canonical.txt").read_bytes()
FILES = [file_name("in/a", kind) for kind in TYPES]
SHOWN = [file_name("the county", kind) for kind in TYPES]


@pytest.fixture(autouse=True)
def county(room: Path) -> Path:
    """Returns nine files, whose lines end with CR and LF."""
    for kind, file in zip(TYPES, FILES):
        put(file, b"".join(line + b"\r\n" for line in COUNTY.splitlines() if line[:1] == kind.encode()))
    return room


def places(refusal: str, files: list[str] = FILES) -> list[tuple[str, int, int, int, str]]:
    found = faults_of(refusal, files, SHOWN[: len(files)])
    return [(fault.file, fault.line, fault.first, fault.last, fault.wrong) for fault in found]


def test_a_line_of_another_part() -> None:
    """The second part of a set is its file of type 2; the line and the column are the file's own."""
    assert places("refused 3 BadByte 2 4 7") == [("the county.RT2", 4, 7, 7, "the byte 0x20 isn't allowed")]
    (fault,) = faults_of("refused 4 BadNumber 9 2 16", FILES, SHOWN)
    assert (fault.file, fault.line, fault.first, fault.last, fault.record_type) == ("the county.RTP", 2, 16, 25, "P")
    assert fault.text == COUNTY.splitlines()[-2].decode()


@pytest.mark.parametrize("line", [b"7 2006\t", b"7 2006\t\r\n", b"7 2006\t   \r\n7"])
def test_a_line_as_it_is(line: bytes) -> None:
    """Blanks that were cut, or aren't, and the line ending move no column."""
    put("x", b"1\r\n" + line)
    (fault,) = faults_of("refused 3 BadByte 1 2 7", ["x"], ["x"])
    assert (fault.first, fault.text.rstrip(), fault.wrong) == (7, "7 2006?", "the byte 0x09 isn't allowed")
    assert fault.shown()[2] == "    " + " " * 6 + "^"


def test_the_office_of_a_polygon() -> None:
    """Polygons of two offices have one number. Only the polygon of the office is shown, and at most two lines of it."""
    put(
        "in/a.RTP",
        b"P200601001060010000000012\r\nP200601001060030000000012\r\nP20060100106003        12\r\nP200601001060030000000012\r\n",
    )
    place = "the record with this number"
    assert places("refused 18 PolygonTwice 3036303033 12") == [
        ("the county.RTP", 2, 16, 25, place),
        ("the county.RTP", 3, 16, 25, place),
    ]
    assert places("refused 18 PolygonTwice 3036303031 12") == [("the county.RTP", 1, 16, 25, place)]
    assert places("refused 18 PolygonTwice 3036303031 13") == []


@pytest.mark.parametrize(
    "refusal, lines",
    [
        ("refused 11 ChainTwice 3", [("the county.RT1", 3)]),
        ("refused 12 NoChain 6 2", [("the county.RT6", 1)]),
        ("refused 13 SequenceBroken 2 7", [("the county.RT2", 4), ("the county.RT2", 5)]),
        ("refused 14 LinkMissing 6", [("the county.RT1", 6)]),
        ("refused 15 LinkTwice 6", [("the county.RTI", 6)]),
        ("refused 16 NameTwice 2", [("the county.RT5", 2)]),
        ("refused 17 NameUnknown 5 1", [("the county.RT4", 3)]),
        ("refused 19 LandUnknown 2", [("the county.RT8", 1)]),
        ("refused 20 PolygonUnknown 3036303031 3", [("the county.RT8", 1)]),
        ("refused 23 PolygonWithoutChain 3036303031 1", [("the county.RTP", 1)]),
        ("refused 24 TooSymmetric", []),
        ("refused 9 Memory", []),
        ("refused 3 BadByte 1 999 1", []),
        ("refused 3 BadByte 12 1 1", []),
        ("something else", []),
    ],
)
def test_records_with_a_number(refusal: str, lines: list[tuple[str, int]]) -> None:
    assert [(file, line) for file, line, *_ in places(refusal)] == lines


@pytest.mark.parametrize(
    "column, value, wrong",
    [
        (6, b"          ", "it is blank, and has to have a number"),
        (6, b"     1 2  ", "it has a blank between digits"),
        (6, b"     1x2  ", "it has 'x'"),
        (6, b"        -1", "it has a sign"),
        (6, b"         0", "it is zero, which is for none"),
        (191, b"          ", "it is blank, and a point has to be there"),
        (191, b" 12-345678", "it has a sign in the wrong place"),
        (191, b"-999999999", "the other half of its point is blank"),
        (191, b"9999999999", "it is too large"),
    ],
)
def test_what_is_wrong_with_a_field(column: int, value: bytes, wrong: str) -> None:
    line = COUNTY.splitlines()[0]
    put("x", line[: column - 1] + value + line[column + 9 :])
    (fault,) = faults_of(f"refused {4 if column == 6 else 5} Bad 1 1 {column}", ["x"], ["x"])
    example = '"     12345"' if column == 6 else '"-086468600"'
    assert (fault.wrong, fault.example, fault.first, fault.last) == (wrong, example, column, column + 9)


def test_types_and_lengths() -> None:
    put("x", b"  1 2006\n")
    (fault,) = faults_of("refused 1 UnknownType 1 1", ["x"], ["x"])
    assert (fault.text, fault.first, fault.wrong) == ("  1 2006", 1, "no record type is ' '")
    put("x", b"A 1\n\n" + COUNTY.splitlines()[0] + b"!\n")
    assert places("refused 1 UnknownType 1 1", ["x"])[0][4] == "no record type is 'A'"
    assert places("refused 1 UnknownType 1 2", ["x"])[0][4] == "the line is empty"
    assert places("refused 2 LineTooLong 1 3", ["x"])[0][2:] == (229, 229, "the line has 229 bytes, and may have 228")
    gap = faults_of("refused 6 GapInRecord 2 1 38", FILES, SHOWN)[0]
    assert (gap.field, gap.wrong, gap.example) == (
        "LONG2 (longitude of shape point 2)",
        "it is used, and a place to its left isn't",
        "blanks",
    )


def test_files_that_cannot_be_read(room: Path) -> None:
    """Only the first file of a set has to be there."""
    Path("in/a.RT1").unlink()
    Path("in/a.RT4").unlink()
    Path("in/a.RT2").unlink()
    Path("in/a.RT2").mkdir()
    assert places("refused 8 Device") == [
        ("the county.RT1", 0, 0, 0, "No such file or directory"),
        ("the county.RT2", 0, 0, 0, "Is a directory"),
    ]
    assert Fault("x", wrong="No such file").shown() == ["x: No such file"]


def test_the_program_and_its_places_agree(program: str) -> None:
    """The first fault of a changed county is shown where it was made, in the files as they are."""
    lines = Path("in/a.RTI").read_bytes().splitlines(keepends=True)
    put("in/a.RTI", b"".join([*lines[:4], lines[4][:20] + b"       1x " + lines[4][30:], *lines[5:]]))
    (checked,) = tigercanon.checks("in")
    assert checked.reason == "refused 4 BadNumber 8 5 21"
    assert [(fault.file, fault.line, fault.first, fault.wrong) for fault in checked.faults] == [("in/a.RTI", 5, 21, "it has 'x'")]


def test_long_lines_are_shown_in_part() -> None:
    line = COUNTY.splitlines()[0]
    put("x", line[:210] + b"\t" + line[211:])
    assert faults_of("refused 3 BadByte 1 1 211", ["x"], ["x"])[0].shown() == [
        "x, line 1, column 211, TOLONG (longitude of the end), record type 1:",
        f"    ..{(line[:210] + b'?' + line[211:]).decode()[190:]}",
        "    " + " " * 22 + "^",
        "    the byte 0x09 isn't allowed; right is for example a blank",
    ]
