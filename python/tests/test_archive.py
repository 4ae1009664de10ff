"""The calls for archives, and the examples of docs/python.md, which are run as they are."""

import os
import re
import shutil
import sys
from pathlib import Path

import pytest
from dev.testing import ROOT, run
from support import built_program, environment, put

import tigercanon
from tigercanon import _library
from tigercanon.errors import Failure

BLOCK = r"((?:    .*\n|\n)+?)"
EXAMPLES = re.findall(
    rf"(?m)^\*\*(\d+)\. .*\*\*\n\n{BLOCK}prints\n\n{BLOCK}(?=\n\*\*|\Z)", (ROOT / "docs/python.md").read_text("utf-8") + "\n"
)


@pytest.fixture(autouse=True)
def archive(room: Path, program: str) -> Path:
    county = (ROOT / "examples/autauga/canonical.txt").read_text()
    for edition in ("2004", "2006"):
        os.mkdir(edition)
        Path(edition, "TGR01001.txt").write_text(county)
        Path(edition, "TGR01003.txt").write_text(county.replace("Washington", "Changed   ") if edition == "2006" else county)
    return room


def test_there_are_ten_examples() -> None:
    assert [int(number) for number, _, _ in EXAMPLES] == [*range(1, 11)]


@pytest.mark.parametrize("number, code, printed", EXAMPLES)
def test_examples(number: str, code: str, printed: str) -> None:
    if int(number) <= 4 and not Path(os.environ.get(_library.VARIABLE, ROOT / "out/library/lib" / _library.NAME)).exists():
        pytest.skip("the library isn't built")
    ended = run([sys.executable, "-B", "-c", re.sub("(?m)^    ", "", code)], env=environment(TIGERCANON=built_program()))
    assert (ended.err, ended.out.decode()) == (b"", re.sub("(?m)^    ", "", printed).rstrip("\n") + "\n")


def test_failures() -> None:
    """What the command line reports is raised."""
    with pytest.raises(Failure, match="nothing: no such file, folder or county"):
        list(tigercanon.differences("nothing", "2004/TGR01001"))
    with pytest.raises(Failure, match="nothing: No such file or directory"):
        tigercanon.changes("nothing", "nothing")
    with pytest.raises(Failure, match="can't be run"):
        list(tigercanon.manifest("2004", program="./nothing"))
    assert list(tigercanon.differences("2004/TGR01001", "2006/TGR01001")) == []
    with pytest.raises(AttributeError):
        tigercanon.nothing


def test_canonical_numbers_are_those_of_chains() -> None:
    """In a canonical text a chain has its canonical number. Whatever numbers the polygons of an office 1.... have, the chains keep it."""
    places, others = {"8": [10], "I": [40, 55], "P": [10]}, {1: 3, 2: 1, 3: 2}
    lines = (ROOT / "examples/autauga/canonical.txt").read_text().splitlines(keepends=True)
    for number, line in enumerate(lines):
        for at in places.get(line[0], []):
            polygon = line[at + 5 : at + 15].strip()
            side = f"16001{others[int(polygon)]:10}" if polygon else line[at : at + 15]
            lines[number] = line = line[:at] + side + line[at + 15 :]
    put("16001.txt", "".join(lines).encode())
    assert [(chain.tlid, chain.canonical_tlid) for chain in tigercanon.chains("16001.txt")] == [
        (tlid, tlid) for tlid in range(1, 8)
    ]


def test_a_table_for_gdal() -> None:
    """GDAL reads both forms of a table, with the chains as lines."""
    if not shutil.which("ogrinfo"):
        pytest.skip("gdal-bin isn't installed")
    tools = [sys.executable, "-B", "-m", "tigercanon", "table", "2004/TGR01001.txt"]
    for name, words in {"csv": "", "geojson": "--geojson"}.items():
        assert run([*tools, *words.split(), "-o", f"table.{name}"], env=environment(TIGERCANON=built_program())).status == 0
        told = run(["ogrinfo", "-q", "-al", f"table.{name}"]).out.decode()
        assert told.count("LINESTRING (-86.477532 32.464118,-86.47748 32.460872)") == 1
        assert told.count("OGRFeature") == 7 and "TLID" in told
