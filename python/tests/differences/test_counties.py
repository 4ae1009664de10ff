"""Counties of 5,000 chains by two hands: as the same map, and with differences at known places. The numbers in GeoJSON agree with the
records of the user's files. And the example of two maps."""

import re
import shutil
from collections import Counter
from copy import deepcopy
from itertools import product
from pathlib import Path

import pytest
from dev.maps import FILE, Landmark, Point, written
from dev.testing import run
from support import NAME, packed, put

from tigercanon import commands
from tigercanon.diff.command import Steps
from tigercanon.diff.words import TIED
from tigercanon.progress import Console
from tigercanon.resources import Resources

from .changes import SUBJECTS, Changing, made_county, much_changed, split_maps
from .reports import EXAMPLE, KINDS, Feature, diff, differing, example_differences, features_in, in_words
from .reports import micro, told_in_geojson, told_in_words

SIDES = ("first", "second")

Files = tuple[Path, Path]


@pytest.fixture(scope="module")
def changing() -> Changing:
    county = made_county(5_000, 1)
    for kind in range(60, 68):  # landmarks with one name, which differ only in SOURCE and CFCC
        fields = {"FILE": FILE, "SOURCE": "ABC"[kind % 3], "CFCC": f"D{kind}", "LANAME": "Fair Ground"}
        county.landmarks.append(Landmark(fields, (-86_470_001, 32_460_001)))
    made = much_changed(county, 7)
    assert (len(made.before.chains), len(made.differences) > 110) == (5_000, True)
    return made


@pytest.fixture(scope="module")
def files(changing: Changing, tmp_path_factory: pytest.TempPathFactory) -> Files:
    return changing.files(tmp_path_factory.mktemp("counties"))


@pytest.fixture(scope="module")
def all_features(files: Files, tmp_path_factory: pytest.TempPathFactory) -> Path:
    """Returns a GeoJSON file with a feature for each chain, landmark and polygon of both maps."""
    path = tmp_path_factory.mktemp("all") / "geojson"
    differing("--geojson", path, "--all", *files)
    return path


def test_example(room: Path) -> None:
    text, wanted = differing("--geojson", "geojson", EXAMPLE / "first.txt", EXAMPLE / "second.txt"), example_differences()
    assert told_in_geojson(room / "geojson") == wanted
    assert told_in_words(text) == set(map(in_words, wanted))


def test_steps(room: Path, program: str, monkeypatch: pytest.MonkeyPatch, capsys: pytest.CaptureFixture[str]) -> None:
    """If a comparison takes a while, each step is reported when it begins."""
    monkeypatch.setattr(Steps, "start", lambda steps: steps.finished.set())
    words = ["diff", "--page", "page", "--geojson", "geojson", str(EXAMPLE / "first.txt"), str(EXAMPLE / "second.txt")]
    assert commands.perform(commands.parser().parse_args(words), Console(), Resources(prints=True)) == 1
    assert capsys.readouterr().err.splitlines() == [
        f"{NAME}{step}"
        for step in (
            "normalising both sets",
            "reading the canonical texts",
            "comparing 222 chains with 222",
            "finding the sets' own numbers",
            "writing the page",
            "writing GeoJSON",
        )
    ]


def test_another_hand(changing: Changing, files: Files, room: Path) -> None:
    """Renumbered, turned, shuffled and packed otherwise: nothing differs."""
    ended = diff("--geojson", "geojson", files[0], put("copy", written(changing.before, 4)))
    assert (ended.status, ended.err, ended.out.splitlines()[3:]) == (0, "", ["No differences: the two are one map."])
    assert told_in_geojson(room / "geojson") == set()


def test_changed(changing: Changing, files: Files, room: Path) -> None:
    """The text and the file have all changes and no others, and the text has their numbers."""
    text, names, counts = differing("--geojson", "geojson", *files), changing.names, changing.counts()
    assert told_in_geojson(room / "geojson") == changing.differences
    assert told_in_words(text) == set(map(in_words, changing.differences))
    for kind, name in names:
        assert f"feature names {kind}: {len(names)}" in text
        assert re.search(rf"\n  {re.escape(name)}, FILE 01001, a further name of (4|no) chains\n", text)
    of_names = dict(zip((*KINDS, "alike"), ("0", str(len(names)), "-", str(len(changing.before.names)))))
    table = {kind: [*(f"{counts[what, kind]:,}" for what in SUBJECTS), count] for kind, count in of_names.items()}
    rows = {line[:19].strip(): line[19:].split() for line in text.splitlines()[3:8]}
    assert rows == {"": ["chains", "landmarks", "polygons", "feature", "names"], **table}


@pytest.mark.parametrize("flags, status", [((), 1), (("--no-reserved",), 1), (("--no-sources",), 0)])
def test_masks(room: Path, flags: tuple[str, ...], status: int) -> None:
    """A flag hides the differences in the fields that it leaves out, and no others."""
    county = made_county(200, 1)
    other = deepcopy(county)
    other.chains[0].fields["SOURCE"] = "Z"
    assert diff(*flags, put("first", written(county, 3)), put("second", written(other, 8))).status == status


def point_at(line: str, column: int) -> Point:
    """Returns the point that begins in this column, counted from 1."""
    return int(line[column - 1 : column + 9]), int(line[column + 9 : column + 18])


def records(path: Path) -> dict[tuple[str, int], str]:
    """Returns the records of types 1, 7 and P in a file, by their type and their TLID, LAND or POLYID."""
    columns = {"1": slice(5, 15), "7": slice(10, 20), "P": slice(15, 25)}
    lines = path.read_text("latin-1").splitlines()
    return {(line[0], int(line[columns[line[0]]])): line for line in lines if line[0] in columns}


def is_of(line: str, feature: Feature, side: str) -> bool:
    """Returns whether a record belongs to a feature, by its place and its name."""
    properties, coordinates = feature["properties"], (feature["geometry"] or {"coordinates": []})["coordinates"]
    if line[0] == "1":
        ends = {point_at(line, 191), point_at(line, 210)}
        name = line[19:49].strip() or None
        return ends == {micro(coordinates[0]), micro(coordinates[-1])} and properties.get(f"{side}_FENAME") == name
    if line[0] == "7":
        found = properties.get(f"{side}_LANAME"), properties.get(f"{side}_CFCC")
        return found == (line[24:54].strip() or None, line[21:24].strip() or None)
    return micro([properties[f"{side}_POLYLONG"], properties[f"{side}_POLYLAT"]]) == point_at(line, 26)


def seen(path: Path, files: Files) -> set[tuple[str, str, int]]:
    """Returns the records that the features in a file have the numbers of. Each feature has the number of its record in each map."""
    numbered = {"chain": ("1", "TLID"), "landmark": ("7", "LAND"), "polygon": ("P", "POLYID")}
    found, lines = set(), dict(zip(SIDES, map(records, files)))
    for feature, side in product(features_in(path), SIDES):
        properties = feature["properties"]
        record_type, word = numbered.get(properties["what"], ("", ""))
        number = properties.get(f"{side}_{word}")
        assert (f"canonical_{side}_{word}" in properties) == (number is not None)
        if number is not None:
            assert is_of(lines[side][record_type, number], feature, side), properties
            found.add((side, record_type, number))
    return found


def test_numbers(files: Files, all_features: Path, room: Path) -> None:
    """Each record of both files has its feature, under any mask and from a zip."""
    wanted = {(side, *key) for side, path in zip(SIDES, files) for key in records(path)}
    assert seen(all_features, files) == wanted
    differing("--geojson", "geojson", "--all", "--no-sources", "--no-reserved", *files)
    assert seen(room / "geojson", files) == wanted
    put("first.zip", packed({"TGR01001.RT1": files[0].read_bytes()}))
    assert diff("--geojson", "geojson", "--all", "first.zip", files[1]).lines == [
        "first.zip: no .RT2 .RT4 .RT5 .RT6 .RT7 .RT8 .RTI .RTP"
    ]
    assert seen(room / "geojson", files) == wanted


def test_all(changing: Changing, files: Files, all_features: Path) -> None:
    """With --all there is a feature for each chain, landmark and polygon of both maps. It also has the number in the canonical text,
    where chains are numbered from 1. Points are numbers, and a field that says whether something is there is true or false."""
    found = [feature["properties"] for feature in features_in(all_features)]
    assert Counter((each["what"], each["kind"]) for each in found if each["what"] in SUBJECTS) == changing.counts()
    numbers = sorted(each["canonical_first_TLID"] for each in found if "canonical_first_TLID" in each)
    assert numbers == list(range(1, len(changing.before.chains) + 1))
    assert {each.get("first_start_node", True) for each in found if each["what"] == "chain"} == {True}
    assert {each.get("first_type_P", True) for each in found if each["what"] == "polygon"} == {True}
    values = {value for each in found for value in each.values() if isinstance(value, str)}
    assert not values & {"yes", "no", "there is one", "(none)", "(blank)"}


def test_ties(room: Path) -> None:
    """A difference that is only a tie is named, and has a feature at each of its places."""
    split, one, tied = split_maps(room, 144, 44)
    text = differing("--geojson", "geojson", one, tied)
    assert f"{split[1] / 1e6:.6f}° N, {-split[0] / 1e6:.6f}° W" in text.partition(TIED)[2]
    (tie,) = features_in(room / "geojson")
    assert [tie["properties"][name] for name in ("what", "differs", "first_count", "second_count")] == ["tie", "node", 1, 2]
    positions = tie["geometry"]["coordinates"]
    assert micro(positions if tie["geometry"]["type"] == "Point" else positions[0]) == split
    lines = records(one)
    for tlid in tie["properties"]["first_TLIDs"].replace(" | ", "; ").split("; "):
        assert split in (point_at(lines["1", int(tlid)], 191), point_at(lines["1", int(tlid)], 210))


@pytest.mark.skipif(not shutil.which("ogrinfo"), reason="gdal-bin isn't installed")
def test_ogrinfo(changing: Changing, files: Files, room: Path) -> None:
    """GeoJSON as another reader sees it, GDAL."""

    def found(where: str) -> tuple[int, str]:
        """Returns how many features there are for which this holds, and all that is reported."""
        ended = run(["ogrinfo", "-ro", "-so", "-al", "-where", where, "geojson"])
        assert (ended.status, ended.err) == (0, b"")
        (count,) = re.findall(r"Feature Count: (\d+)", ended.out.decode())
        return int(count), ended.out.decode()

    differing("--geojson", "geojson", *files)
    count, text = found("what <> ''")
    assert (count, "WGS 84" in text) == (len(changing.differences) + len(changing.names), True)
    for kind in KINDS:
        wanted = sum(difference.kind == kind for difference in changing.differences)
        assert found(f"what <> 'feature name' AND kind = '{kind}'")[0] == wanted
    assert found("differs = 'FENAME' AND second_FENAME = 'Changed'")[0] == 25
    count, text = found("what = 'polygon' AND first_POLYLONG <> second_POLYLONG")
    assert (count, "first_POLYLAT: Real" in text, "first_TLID: Integer" in text) == (2, True, True)
