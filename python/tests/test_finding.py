"""How counties are found: in folders, by globs and by names, on disks and in stores."""

import os
from itertools import product
from pathlib import Path
from typing import Callable

import pytest
from support import packed, put

from tigercanon.counties import Finder
from tigercanon.judge import County, File
from tigercanon.layout import TYPES, key_of, stem_of
from tigercanon.storage import joined, members_of, opened_zip, parted, tidy

ENDINGS = [f".RT{kind}" for kind in TYPES]
FILES = "in/b.RT1 in/b.RT2 in/b.RTA in/a.ZIP in/read.me in/deep/er/c.zip in/deep/d.RT7 in/.e.zip in/small.rt1 in/[f].RT1"
ALL = ["in/.e", "in/[f]", "in/a", "in/all", "in/b", "in/deep/d", "in/deep/er/c", "in/small"]


@pytest.fixture(autouse=True)
def archive(room: Path) -> Path:
    for name in FILES.split():
        put(name, b"12345")
    for ending in ENDINGS:
        put(f"in/all{ending}", b"123")
    return room


def found(*sources: str) -> list[County]:
    return Finder().counties(sources)[0]


def stems(*sources: str) -> list[str]:
    return sorted(county.stem for county in found(*sources) if not county.trouble)


@pytest.mark.parametrize(
    "sources, wanted",
    [
        ("in", ALL),
        ("in/", ALL),
        ("./in//", ALL),
        ("in in/deep", ALL),
        ("in/*.zip", []),
        ("in/*.ZIP", ["in/a"]),
        ("in/?.*", ["in/a", "in/b"]),
        ("in/[ab].*", ["in/a", "in/b"]),
        ("*/d*", ["in/deep/d", "in/deep/er/c"]),
        ("in/**/*.[zZ][iI][pP]", ["in/a", "in/deep/er/c"]),
        ("in/b in/b.RT2 in/a.ZIP in/[f].RT1", ["in/[f]", "in/a", "in/b"]),
        ("in/b.RT?", ["in/b"]),
        ("in/small.rt1", ["in/small"]),
    ],
)
def test_sources(sources: str, wanted: list[str]) -> None:
    assert stems(*sources.split()) == wanted


def test_known_counties_are_left_out() -> None:
    counties, known = Finder().counties(["in", "in/b.RT1"], lambda county: county.stem in ("in/a", "in/b", "in/z"))
    assert sorted(county.stem for county in counties) == [stem for stem in ALL if stem not in ("in/a", "in/b")]
    assert known == 2


def test_the_current_folder(monkeypatch: pytest.MonkeyPatch) -> None:
    monkeypatch.chdir("in/deep")
    assert stems(".") == ["d", "er/c"]


def test_links() -> None:
    """Those to folders are followed, a ring of them once; and a county that is there under two names is counted once. Hard links
    are separate counties."""
    os.symlink("..", "in/deep/up")
    assert stems("in") == ALL
    os.unlink("in/deep/up")
    os.mkdir("links")
    os.symlink("../in/deep", "links/to")
    assert stems("links") == ["links/to/d", "links/to/er/c"]
    finder = Finder()
    counties, _ = finder.counties(["in", "links"])
    assert sorted(county.stem for county in counties) == ALL
    assert finder.same == [("links/to/d", "in/deep/d"), ("links/to/er/c", "in/deep/er/c")]
    os.mkdir("second")
    os.link("in/a.ZIP", "second/a.ZIP")
    assert stems("in/a", "second") == ["in/a", "second/a"]


def test_one_file_of_two_counties() -> None:
    """Counties of which only some files are the same are two counties."""
    put("second/b.RT2", b"another")
    os.symlink("../in/b.RT1", "second/b.RT1")
    assert stems("in/b", "second/b") == ["in/b", "second/b"]


def test_files(archive: Path) -> None:
    """What is known about a county: one of single files, even if a zip of it is there too, a zip, and one file with all records."""

    def at(name: str, size: int = 5) -> File:
        return File(f"{archive}/in/{name}", size)

    assert found("in/a") == [County("in/a", zip=at("a.ZIP"))]
    put("in/a.rt1", b"1")
    files = {kind: at(f"all.RT{kind}", 3) for kind in TYPES}
    assert found("in/all", "in/b", "in/small", "in/a", "in/read.me") == [
        County("in/all", files, readable_stem=f"{archive}/in/all"),
        County("in/b", {"1": at("b.RT1"), "2": at("b.RT2")}, readable_stem=f"{archive}/in/b"),
        County("in/small", {"1": at("small.rt1")}),
        County("in/a", {"1": at("a.rt1", 1)}, notes=("its single files are read, and not a.ZIP",)),
        County("in/read.me", whole=at("read.me")),
    ]
    assert found("in/all")[0].size == 27


def test_globs_without_a_county_and_names_twice() -> None:
    (absent,) = found("in/*.nothing")
    assert (absent.trouble, absent.is_absent) == ("no county matches this pattern", True)
    assert [county.trouble for county in found("in/*.ZIP")] == [""]
    put("in/B.RT1")
    put("in/A.zip")
    troubles = [county.trouble for county in found("in/b", "in/a")]
    assert troubles == ["there are 2 files of type 1: B.RT1, b.RT1", "there are 2 zips: A.zip, a.ZIP"]


def test_skipped_files() -> None:
    """They are counted once, whichever sources lead to them."""
    for name in ("in/a.tar", "in/c.RT1.gz", "in/d.RT2.gz", "in/deep/README"):
        put(name)
    finder = Finder()
    finder.counties(["in", "in", "in/*.gz", "in/../in"])
    assert [*finder.skipped.values()] == ["in/a.tar", "in/b.RTA", "in/c.RT1.gz", "in/d.RT2.gz", "in/read.me", "in/deep/README"]


def test_what_is_left_out() -> None:
    """What a Mac leaves, hidden folders, lost+found and files that globs exclude. A hidden file may be a county."""
    for name in ("in/._a.ZIP", "in/.DS_Store", "in/__MACOSX/a.ZIP", "in/.git/x.ZIP", "in/deep/.x/y/z.ZIP", "in/lost+found/a.ZIP"):
        put(name)
    finder = Finder(excluded=["*.RT7", "in/deep/er", "read.*"])
    assert sorted(county.stem for county in finder.all(["in"])) == [stem for stem in ALL if not stem.startswith("in/deep")]
    assert [*finder.skipped.values()] == ["in/b.RTA"]
    assert stems("in/**/*.ZIP", "in/.git/*") == ["in/.git/x", "in/a"]
    put(
        "in/deep/mac.ZIP",
        packed({"__MACOSX/._TGR01001.RT1": b"", "lost+found/TGR01001.RT2": b"", "TGR01001.RT1": b"1\n", "._TGR01001.RT2": b""}),
    )
    with opened_zip("in/deep/mac.ZIP") as archive:
        assert {kind: member.filename for kind, member in members_of(archive).items()} == {"1": "TGR01001.RT1"}


@pytest.mark.parametrize("folder, name", [("", "a"), ("a", "b"), ("/", "a"), ("s3://a", "b"), ("s3://", "a"), ("file:///", "a")])
def test_paths(folder: str, name: str) -> None:
    path = f"{folder}/{name}" if folder in ("a", "s3://a") else f"{folder}{name}"
    assert (parted(path), joined(folder, name)) == ((folder, name), path)


TIDY = "./a a", "a//b/ a/b", ". ", "/ /", "/./a/. /a", "a/../b a/../b", "s3://a//b/ s3://a//b"
STEMS = "a.RT1 a", "a.rtZ a", "a.b.ZiP a.b", "a.txt a.txt", ".RT1 .RT1", "x/a.RT12 x/a.RT12"
KEYS = {
    "x/tgr01001": "TGR01001",
    "a.txt": "A",
    "a.txt.gz": "A",
    ".b": ".B",
    "a.b.c": "A.B",
    "St. Clair": "ST. CLAIR",
    "St. Clair.rt1": "ST. CLAIR",
}


@pytest.mark.parametrize("function, row", [*product([tidy], TIDY), *product([stem_of], STEMS)])
def test_tidy_paths_and_stems(function: Callable[[str], str], row: str) -> None:
    path, wanted = row.split(" ")
    assert function(path) == wanted


def test_names_that_two_editions_have() -> None:
    assert {path: key_of(path) for path in KEYS} == KEYS


@pytest.mark.cluster
def test_urls(archive: Path) -> None:
    """The same behind URLs, by the file systems that fsspec has without a further package."""
    fsspec = pytest.importorskip("fsspec")
    store, url = fsspec.filesystem("memory"), "memory://tiger"
    for name in ("/tiger/AL/TGR01001.ZIP", "/tiger/AL/TGR01003.RT1", "/tiger/GA/tgr13001.zip", "/tiger/read.me"):
        store.pipe_file(name, b"12345")
    assert found(url) == [
        County(f"{url}/AL/TGR01001", zip=File(f"{url}/AL/TGR01001.ZIP", 5)),
        County(f"{url}/AL/TGR01003", {"1": File(f"{url}/AL/TGR01003.RT1", 5)}),
        County(f"{url}/GA/tgr13001", zip=File(f"{url}/GA/tgr13001.zip", 5)),
    ]
    assert stems(f"{url}/*/*.zip", f"{url}/AL/TGR01003") == [f"{url}/AL/TGR01003", f"{url}/GA/tgr13001"]
    store.rm("/tiger", recursive=True)
    put("files/a.ZIP", b"123")
    url = f"file://{archive}/files"
    assert found(url) == found(f"{url}/a") == [County(f"{url}/a", zip=File(f"{url}/a.ZIP", 3))]
    assert "can't be read: " in found("nothing://a/b")[0].trouble
