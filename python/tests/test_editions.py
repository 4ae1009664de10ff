"""Counties through editions, and the index of the pages about their changes. Manifests are written here by hand."""

from __future__ import annotations

from pathlib import Path

import pytest
from support import put

import tigercanon
from tigercanon.errors import Failure
from tigercanon.listing import table
from tigercanon.manifests import Line
from tigercanon.pages import Change, changed, index

REFUSED = "refused 14 LinkMissing 7"
FAILED = "failed: the zip is cut off"
UNCHECKED = "failed: not checked yet"


def edition(name: str, *counties: tuple[str, object], flags: str = "") -> str:
    """Returns a manifest: of each county the number of its map, or why it has none."""
    lines = [f"# tigercanon form 1 {flags}".strip()]
    for stem, state in counties:
        lines.append(f"{state:064}  {stem}" if isinstance(state, int) else f"# 1 2006-01-01T00:00:00Z  {state}  {stem}")
    return str(put(name, "".join(f"{line}\n" for line in lines).encode()))


def histories(*states: dict[str, object]) -> dict[str, list[str]]:
    """Returns the steps of each county through editions 1, 2 and so on."""
    names = [
        edition(str(place), *((f"{place}/{name}", state) for name, state in each.items())) for place, each in enumerate(states, 1)
    ]
    return {each.county: each.steps for each in tigercanon.changes(*names)}


@pytest.fixture(autouse=True)
def folder(room: Path) -> Path:
    return room


# Each way for a county to go through three editions: its states, how it changed in the second and the third, in one word and in a sentence,
# and its row in the table.
THREE: dict[str, tuple[tuple[object, object, object], list[str], str, str]] = {
    "AGAIN": ((4, None, 44), ["removed", "added"], "removed in 2, added again in 3", "1 - 2"),
    "BACK": ((2, 22, 2), ["changed", "changed"], "changed in 2, back in 3 as in 1", "1 2 1"),
    "GONE": ((3, None, None), ["removed", ""], "removed in 2", "1 - -"),
    "LATE": ((6, 6, 66), ["same", "changed"], "changed in 3", "1 1 2"),
    "LEFT": ((9, 9, UNCHECKED), ["same", "unchecked"], "unchecked in 3", "1 1 unchecked"),
    "MENDED": ((FAILED, 7, 7), ["accepted", "same"], "accepted in 2", "failed 1 1"),
    "NEW": ((None, 8, 88), ["added", "changed"], "added in 2, changed in 3", "- 1 2"),
    "REACHED": (
        (UNCHECKED, UNCHECKED, 5),
        ["unchecked", "accepted"],
        "still unchecked in 2, accepted in 3",
        "unchecked unchecked 1",
    ),
    "REFUSED": ((REFUSED,) * 3, ["refused", "refused"], "still refused in 2, still refused in 3", "refused refused refused"),
    "SAME": ((1, 1, 1), ["same", "same"], "same since 1", "1 1 1"),
    "WORSE": ((5, REFUSED, FAILED), ["refused", "failed"], "refused in 2, failed in 3", "1 refused failed"),
}


def test_three_editions() -> None:
    editions = [{name: states[place] for name, (states, *_) in THREE.items() if states[place]} for place in range(3)]
    assert histories(*editions) == {name: steps for name, (_, steps, *_) in THREE.items()}
    counties = tigercanon.changes("1", "2", "3")
    assert {each.county: each.verdict for each in counties} == {name: verdict for name, (*_, verdict, _) in THREE.items()}
    assert [line.split()[:4] for line in table(counties)] == [
        ["county", "1", "2", "3"],
        *([name, *row.split()] for name, (*_, row) in THREE.items()),
    ]


def test_renamed_counties() -> None:
    """A county is renamed if its old name is gone and its map is under a new one. Each old name is renamed once, and refused ones never."""
    assert histories({"A": 1, "B": 1}, {"A": 1, "C": 1}) == {"A": ["same"], "C": ["renamed"]}
    assert histories({"A": 1}, {"A": 1, "B": 1}) == {"A": ["same"], "B": ["added"]}
    assert histories({"A": 1, "B": 1, "C": 1}, {"D": 1}) == {"D": ["renamed"], "B": ["removed"], "C": ["removed"]}
    assert histories({"A": 1}, {"B": 1, "C": 1}) == {"B": ["renamed"], "C": ["added"]}
    assert histories({"A": 1}, {"C": 2}, {"B": 1, "C": 2}) == {"A": ["removed", ""], "B": ["", "added"], "C": ["added", "same"]}
    assert histories({"A": REFUSED}, {"B": REFUSED}) == {"A": ["removed"], "B": ["added"]}
    assert histories({"A": 1}, {"B": 1}, {"A": 1}) == {"A": ["renamed", "renamed"]}


def test_folders_that_could_not_be_listed() -> None:
    """A county that an edition doesn't list may be in such a folder: it is unchecked there, and neither removed, added nor renamed."""
    folder: dict[str, object] = {"x/": "failed: can't be listed: Permission denied"}
    assert histories({"A": 1, "X": 2}, folder) == {"A": ["unchecked"], "X": ["unchecked"]}
    assert histories(folder, {"A": 1, "X": REFUSED}) == {"A": ["accepted"], "X": ["refused"]}
    assert histories({"A": 1}, {"B": 1, **folder}) == {"A": ["unchecked"], "B": ["added"]}
    assert histories({"A": 1, **folder}, {"B": 1}) == {"A": ["removed"], "B": ["accepted"]}
    assert histories({"A": 1, "B": 2}, {"B": 2, **folder}, {"C": 1, "B": 2}) == {
        "A": ["unchecked", "removed"],
        "B": ["same", "same"],
        "C": ["unchecked", "accepted"],
    }
    assert histories(folder, {"B": 1}, {"A": 1, "B": 1}) == {"A": ["", "added"], "B": ["accepted", "same"]}
    assert {each.county: each.verdict for each in tigercanon.changes("1", "2", "3")}["A"] == "added in 3"
    assert histories({"A": 1}, {"B": 1}, {"B": 1, **folder}, {"B": 1}) == {"B": ["renamed", "same", "same"]}
    assert histories({"A": 1, "B": 1}, {"B": 1}, {"B": 1, **folder}, {"B": 1})["A"] == ["removed", "unchecked", ""]
    assert histories({"X": 1, **folder}, {"X": 1}) == {"X": ["same"]}


def test_a_name_twice() -> None:
    """Of two counties of one name the one with a fingerprint counts; two with one can't be matched."""
    edition("1", ("in/A", 1))
    edition("2", ("in/A", 1), ("in/A.txt", FAILED))
    edition("3", ("in/A.txt", FAILED), ("in/A", 1), ("in/a.txt", REFUSED))
    assert [each.verdict for each in tigercanon.changes("1", "2", "3")] == ["same since 1"]
    edition("4", ("in/A", 1), ("in/A.txt", 1))
    with pytest.raises(Failure, match="4: in/A and in/A.txt have the same name"):
        tigercanon.changes("1", "4")


@pytest.mark.parametrize("place", range(3))
def test_flags_of_each_manifest(place: int) -> None:
    """They are the same in all manifests, even in the third; the mark of an unproved program doesn't matter."""
    for number in range(3):
        edition(str(number), ("in/A", 1), flags="--no-sources" if number == place else "")
    words = ["no flags", "--no-sources"] if place else ["--no-sources", "no flags"]
    why = f"0 was made with {words[0]} and {max(place, 1)} with {words[1]}: their fingerprints can't be compared"
    with pytest.raises(Failure, match=f"^{why}$"):
        tigercanon.changes("0", "1", "2")
    for number in range(3):
        edition(str(number), ("in/A", 1), flags="unproved --no-sources" if number == place else "--no-sources")
    assert tigercanon.changes("0", "1", "2")[0].is_same


def test_one_manifest_with_all_editions() -> None:
    name = edition("all", *((f"x/{folder}/TGR{county}", folder) for folder in (1, 2) for county in (1, 2)))
    assert [each.editions for each in tigercanon.changes(name)] == [("1", "2")] * 2
    assert [each.steps for each in tigercanon.changes(name, editions=["x/2", "x/1/"])] == [["changed"]] * 2
    with pytest.raises(Failure, match="all: has no county below x/3"):
        tigercanon.changes(name, editions=["x/1", "x/3"])
    with pytest.raises(Failure, match="one: has one edition"):
        tigercanon.changes(edition("one", ("x/1/TGR1", 1), ("x/1/TGR2", 1)))
    with pytest.raises(Failure, match="mixed: has one edition"):
        tigercanon.changes(edition("mixed", ("x/1/TGR1", 1), ("x/TGR2", 1)))


def test_duplicates() -> None:
    """Counties with one map, in the order of the manifest; those without a map are in no group."""
    name = edition("m", ("a/A", 1), ("a/B", 2), ("b/A", 1), ("b/C", 2), ("b/D", REFUSED), ("b/E", REFUSED), ("b/F", 3))
    groups = [(group.fingerprint[-1], group.counties, group.is_different) for group in tigercanon.duplicates(name)]
    assert groups == [("1", ("a/A", "b/A"), False), ("2", ("a/B", "b/C"), True)]


def changes_of(*states: dict[str, object]) -> list[Change]:
    histories(*states)
    return [*changed(tigercanon.changes(*map(str, range(1, 1 + len(states)))))]


def test_names_of_pages() -> None:
    """Of two editions a page has the county's name, of several the change's too. A county without a map in both has none. Editions
    with one name in several folders have their paths."""
    assert [change.page for change in changes_of({"A": 1, "B": 1, "C": REFUSED}, {"A": 2, "B": 1, "C": 3})] == ["A.html"]
    three = changes_of({"A": 1, "B": 5}, {"A": 2, "B": REFUSED}, {"A": 1, "B": 6})
    assert [(change.page, change.editions, change.old, change.new) for change in three] == [
        ("A.1-2.html", ("1", "2"), Line(f"{1:064}", "1/A"), Line(f"{2:064}", "2/A")),
        ("A.2-3.html", ("2", "3"), Line(f"{2:064}", "2/A"), Line(f"{1:064}", "3/A")),
    ]
    folders = [edition(f"{folder}/m", ("A", state)) for folder, state in (("x", 1), ("y", 1), ("z", 2))]
    assert [change.page for change in changed(tigercanon.changes(*folders))] == ["A.y_m-z_m.html"]


COUNTS = '{"chain": [1, 2, 3000], "landmark": [4, 5, 6], "polygon": [7, 8, 9], "feature name": [0, 0, 0]}'


def page(old: int, new: int, end: str = "</html>\n") -> bytes:
    """Returns a page that shows two maps, as far as the index looks at it."""
    fingerprints = f'"fingerprints": ["{old:064}", "{new:064}"], "counts": {COUNTS}'
    script = f'<script type="application/json" id="counties">{{{fingerprints}}}</script>'
    return f'<!DOCTYPE html><meta name="generator" content="tigercanon">{script}{end}'.encode()


def test_the_index_of_pages() -> None:
    """It links to pages that show these maps, with escaped names, and has the reason of each that isn't there. Other pages come last."""
    changes = changes_of({"A&B": 1, "C": 3, "D": 5, "E": 7}, {"A&B": 2, "C": 4, "D": 6, "E": 8})
    changes[0] = changes[0]._replace(editions=("1&", "2"))
    put("A&B.html", page(1, 2))
    put("C.html", page(3, 5))
    put("E.html", page(7, 8, end=""))
    put("OLD.html", page(1, 2))
    put("MINE.html", b"<!DOCTYPE html>")
    text = "".join(index(Path("."), changes, {"D.html": "why & how"}))
    rows = [line for line in text.splitlines() if line.startswith("<tr><td>")]
    assert rows == [
        '<tr><td><a href="A%26B.html">A&amp;B</a></td><td>1&amp; to 2</td>'
        "<td>1 / 2 / 3,000</td><td>4 / 5 / 6</td><td>7 / 8 / 9</td><td>0 / 0 / 0</td></tr>",
        '<tr><td>C</td><td>1 to 2</td><td class="why" colspan="4">no page</td></tr>',
        '<tr><td>D</td><td>1 to 2</td><td class="why" colspan="4">why &amp; how</td></tr>',
        '<tr><td>E</td><td>1 to 2</td><td class="why" colspan="4">no page</td></tr>',
    ]
    assert '<p>Of other manifests: <a href="OLD.html">OLD.html</a></p>' in text and "MINE" not in text
    assert "<p>4 changes." in text and 'content="tigercanon' in text
