"""The page for browsers with two counties in it: what it carries, and when it isn't written. page/tests open such pages in a browser."""

import base64
import gzip
import json
import os
import shutil
from pathlib import Path
from typing import Any

import pytest
from dev.testing import ROOT, TYPES
from support import FAKES, packed, shell

from tigercanon import commands
from tigercanon.diff import page as pages
from tigercanon.diff.page import carried_by
from tigercanon.errors import Failure
from tigercanon.layout import file_name
from tigercanon.progress import Console
from tigercanon.resources import Resources

from .reports import EXAMPLE, diff

TEMPLATE = FAKES / "page.html"
FIRST, SECOND = EXAMPLE / "first.txt", EXAMPLE / "second.txt"
EDGES = TEMPLATE.read_text().split("></script>")


def carried(path: Path) -> dict[str, Any]:
    """Returns what a page carries. Before and after it the page is as without counties, and nothing in it ends the element."""
    before, after = (edge.encode() for edge in (f"{EDGES[0]}>", f"</script>{EDGES[1]}"))
    text = path.read_bytes()
    assert text.startswith(before) and text.endswith(after)
    inside = text[len(before) : -len(after)]
    assert b"<" not in inside
    found: dict[str, Any] = json.loads(inside)
    return found


def files_of(county: dict[str, Any]) -> dict[tuple[str, str], bytes]:
    return {(file["kind"], file["name"]): gzip.decompress(base64.b64decode(file["gzip"])) for file in county["files"]}


def nine(folder: Path, name: str = "autauga") -> dict[str, bytes]:
    """Returns the nine files of an example, put into a folder."""
    texts = {kind: (ROOT / f"examples/{name}/TGR01001.RT{kind}").read_bytes() for kind in TYPES}
    folder.mkdir()
    for kind, text in texts.items():
        (folder / file_name("TGR01001", kind)).write_bytes(text)
    return texts


def test_whole_files(room: Path) -> None:
    ended = diff("--summary", "--page", "page.html", "--no-sources", FIRST, SECOND)
    assert (ended.status, ended.err) == (1, "")
    found = carried(room / "page.html")
    fingerprints = [line.split()[2] for line in ended.out.splitlines()[:2]]
    assert (found["masks"], found["fingerprints"]) == (["--no-sources"], fingerprints)
    assert [county["name"] for county in found["counties"]] == [str(FIRST), str(SECOND)]
    for path, county in zip((FIRST, SECOND), found["counties"]):
        assert files_of(county) == {("whole", path.name): path.read_bytes()}
    rows = [line[20:].replace("-", "0").split() for line in ended.out.splitlines()[5:]]
    assert [[*map(str, counts)] for counts in zip(*found["counts"].values())] == rows


def test_only_the_page(room: Path) -> None:
    """Without another option nothing is printed, and the page has no counts: it finds what differs itself."""
    for second, status in ((SECOND, 1), (FIRST, 0)):
        ended = diff("--force", "--page", "page.html", FIRST, second)
        assert (ended.status, ended.out, ended.err) == (status, "", "")
        assert sorted(carried(room / "page.html")) == ["counties", "fingerprints", "masks"]
    ended = diff("--force", "--page", "page.html", "--geojson", "map.geojson", FIRST, SECOND)
    assert (ended.status, ended.out) == (1, "")
    assert "counts" in carried(room / "page.html") and (room / "map.geojson").exists()
    counted = json.loads(diff("--force", "--page", "page.html", "--summary", "--json", FIRST, SECOND).out)
    assert counted["verdict"] == "different"


def test_nine_files_and_a_zip(room: Path) -> None:
    """The files are the user's own, each under its record type. One that is missing isn't there."""
    texts = nine(room / "in")
    (room / "in/TGR01001.RT8").unlink()
    (room / "in/TGR01001.RT7").unlink()
    names = {kind: f"TGR01001.RT{kind}" for kind in TYPES}
    (room / "<b>.zip").write_bytes(packed({names[kind]: text for kind, text in texts.items()}))
    diff("--page", "page.html", "in/TGR01001", "<b>.zip")
    first, second = carried(room / "page.html")["counties"]
    assert (first["name"], second["name"]) == ("in/TGR01001", "<b>.zip")
    assert files_of(first) == {(kind, names[kind]): text for kind, text in texts.items() if kind not in "78"}
    assert [kind for kind, _ in files_of(second)] == [*TYPES]
    assert [*files_of(second).values()] == [*texts.values()]


def test_a_pipe(room: Path, program: str) -> None:
    """What can be read only once is in the page too."""
    shell(f"cat '{FIRST}' | tigercanon-tools diff --page page.html /dev/stdin '{SECOND}'")
    assert [*files_of(carried(room / "page.html")["counties"][0]).values()] == [FIRST.read_bytes()]


def test_a_page_that_would_be_too_large(room: Path, program: str, monkeypatch: pytest.MonkeyPatch) -> None:
    """Neither the page nor the other output is written."""
    words = ["diff", "--summary", "--page", "page.html", "--geojson", "map.geojson", str(FIRST), str(SECOND)]
    options = commands.parser().parse_args(words)
    assert commands.perform(options, Console(), Resources(prints=True)) == 1
    size = os.path.getsize("page.html")
    for name in ("page.html", "map.geojson"):
        os.unlink(name)
    monkeypatch.setattr(pages, "LARGEST_PAGE", size - 1)
    with pytest.raises(Failure) as failed:
        commands.perform(options, Console(), Resources(prints=True))
    assert (
        str(failed.value)
        == f"page.html: can't be written: the page would have {size:,} bytes, more than {size - 1:,}: use --geojson"
    )
    assert not os.path.exists("page.html") and not os.path.exists("map.geojson")
    monkeypatch.setattr(pages, "LARGEST_PAGE", size)
    assert commands.perform(options, Console(), Resources(prints=True)) == 1


def test_which_page(room: Path, monkeypatch: pytest.MonkeyPatch) -> None:
    """The page is the file that the variable names, else the installed package's, the built one, the clone's, the release's."""
    assert pages.find_page() == TEMPLATE
    monkeypatch.delenv("TIGERCANON_PAGE")
    places = ["package", "out/page", "prebuilt", "release"]
    monkeypatch.setattr(pages, "PLACES", [room / place for place in places])
    with pytest.raises(Failure, match="there is no tigercanon.html here: scripts/build-page makes it"):
        pages.find_page()
    for place in reversed(places):
        (room / place).mkdir(parents=True)
        shutil.copy(TEMPLATE, room / place / "tigercanon.html")
        assert pages.find_page() == room / place / "tigercanon.html"
    package = ROOT / "python/tigercanon"
    monkeypatch.undo()
    assert pages.PLACES == (package, ROOT / "out/page", ROOT / "prebuilt", ROOT)


def test_carried(room: Path) -> None:
    """A page that isn't whole, one without counties or counts, and another file carry nothing."""
    diff("--page", "page.html", FIRST, SECOND)
    assert carried_by(room / "page.html") is None
    diff("--force", "--summary", "--page", "page.html", FIRST, SECOND)
    page, found = room / "page.html", carried(room / "page.html")
    read = carried_by(page)
    assert read and (list(read.fingerprints), read.counts) == (found["fingerprints"], found["counts"])
    text = page.read_bytes()
    for other in (text[:-1], text + b"\n", text.replace(b'"counts"', b'"others"'), TEMPLATE.read_bytes(), b"", b"\xff" * 100):
        page.write_bytes(other)
        assert carried_by(page) is None
    assert carried_by(room / "nowhere.html") is None
    assert carried_by(room) is None
