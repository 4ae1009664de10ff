"""How small counties are matched and reported. They are read as they are written, without the program. And the columns of the records
agree with docs/format.md."""

import copy
import re
from typing import Any, Callable, Optional

import pytest
from dev.maps import Chain, County, Landmark, Polygon, turned, written
from dev.testing import ROOT

from tigercanon.diff.columns import CHAIN, LANDMARK, LENGTHS, NAME, POLYGON, RANGE, TOPOLOGY
from tigercanon.diff.fields import Pair, decimal, degrees
from tigercanon.diff.geojson import features
from tigercanon.diff.matching import Comparison, compare
from tigercanon.diff.reading import NotCanonical, read_county
from tigercanon.diff.sets import Canonical, Sets
from tigercanon.diff.words import Thing, things
from tigercanon.diff.words import ONE_MAP, TIED, told

from .changes import made_county

Told = tuple[str, Optional[str], Optional[str]]
"""The label of a field that differs, and its values in both maps."""

EMPTY = County([], [], [], [])
WEST, EAST, NEAR_ZERO = "32.000000° N, 86.000000° W", "32.000000° N, 85.999999° W", "0.000002° N, 0.000001° E"
NO_RECORD = [("type P", "yes", "no"), ("FILE", "01001", "(none)"), ("POLYLONG, POLYLAT", WEST, "(none)")]

TABLE = re.compile(r"^## Record type (\w): [^\n]* \((\d+) bytes\)\n(.*?)(?=^## |\Z)", re.M | re.S)
FIELD = re.compile(r"^\| (\d+)(?:[^|]*-(\d+))? \| (?!CENID)([^|]*) \| [Bp] \|[^|]*\|(?: ([^|]*) ?\|)?$", re.M)
"""A field of text, or a point: its first and last column, its name, and its partner."""


def test_columns() -> None:
    tables = TABLE.findall((ROOT / "docs/format.md").read_text("utf-8"))
    assert LENGTHS == {kind: int(length) for kind, length, _ in tables}
    fields = {kind: FIELD.findall(table) for kind, _, table in tables}
    for layout in (CHAIN, NAME, RANGE, LANDMARK, TOPOLOGY, POLYGON):
        wanted = [
            (name, int(first), int(last or first), partner.strip()) for first, last, name, partner in fields[layout.record_type]
        ]
        assert [(column.name, column.first, column.last, column.partner) for column in layout.columns] == wanted


def compared(first: County, second: County) -> Comparison:
    return compare(read_county(written(first)), read_county(written(second)))


def after(first: County, change: Callable[[County], object]) -> County:
    """Returns a copy of a county, with a change."""
    second = copy.deepcopy(first)
    change(second)
    return second


def sets_of(first: County, second: County) -> Sets:
    return Sets(Canonical("one", written(first)), Canonical("other", written(second)))


def words_of(first: County, second: County) -> str:
    return "\n".join(told(compared(first, second), sets_of(first, second)))


def chain_between(points: list[tuple[int, int]], **values: Any) -> Chain:
    """Returns a chain through these points, between the polygons 0 and 1."""
    return Chain({"FENAME": "Main", "CFCC": "A41"}, points, 1, 2, 0, 1, **values)


def two_sided(*chains: Chain) -> County:
    """Returns a county with these chains and two polygons."""
    polygons = [Polygon({"FILE": "01001"}, (-86_000_000 + place, 32_000_000)) for place in range(2)]
    return County(list(chains), [{"FENAME": "Old Rd"}, {"FENAME": "Old Rd"}], polygons, [])


@pytest.mark.parametrize(
    "what, change, wanted",
    [
        ("chain", lambda chain: chain.fields.update(FENAME="Maple"), [("FENAME", "Main", "Maple")]),
        ("chain", lambda chain: chain.fields.update(FENAME=""), [("FENAME", "Main", "(blank)")]),
        ("chain", lambda chain: chain.fields.update(FENAME=" Main"), [("FENAME", f'"{"Main":30}"', f'"{" Main":30}"')]),
        ("chain", lambda chain: chain.fields.update(SOURCE="A"), [("SOURCE", "(blank)", "A")]),
        ("chain", lambda chain: chain.topology.update(SOURCE="A"), [("SOURCE of type I", "(blank)", "A")]),
        ("chain", lambda chain: chain.names.append(0), [("further name 1", "(none)", "Old Rd")]),
        ("chain", lambda chain: chain.ranges.append({}), [("range 1", "no", "yes")]),
        (
            "chain",
            lambda chain: chain.ranges.append({"ZIPL": "36067"}),
            [("range 1", "no", "yes"), ("ZIPL of range 1", "(none)", "36067")],
        ),
        ("chain", lambda chain: setattr(chain, "start", None), [("start node", "yes", "no")]),
        ("chain", lambda chain: setattr(chain, "end", None), [("end node", "yes", "no")]),
        ("chain", lambda chain: setattr(chain, "left", None), [("left polygon", f"at {WEST}", "(none)")]),
        (
            "chain",
            lambda chain: chain.__dict__.update(left=None, outside=("06003", "06005")),
            [("CENIDL", "06001", "06003"), ("left polygon", f"at {WEST}", "(none)")],
        ),
        ("chain", lambda chain: setattr(chain, "right", 0), [("right polygon", f"at {EAST}", f"at {WEST}")]),
        ("polygon", lambda polygon: polygon.fields.update(WATER="9"), [("WATER", "(blank)", "9")]),
        ("polygon", lambda polygon: setattr(polygon, "point", (1, 2)), [("POLYLONG, POLYLAT", WEST, NEAR_ZERO)]),
        ("polygon", lambda polygon: setattr(polygon, "point", None), [("POLYLONG, POLYLAT", WEST, "(blank)")]),
        ("polygon", lambda polygon: setattr(polygon, "has_record", False), NO_RECORD),
        ("landmark", lambda landmark: landmark.polygons.remove(1), [("polygon 3", f"at {EAST} (06001)", "(none)")]),
        ("landmark", lambda landmark: landmark.fields.update(LANAME="Short Park"), [("LANAME", "Long Park", "Short Park")]),
        ("landmark", lambda landmark: landmark.fields.update(CFCC="D84"), [("CFCC", "D85", "D84")]),
        ("landmark", lambda landmark: setattr(landmark, "point", (1, 2)), [("LALONG, LALAT", "(blank)", NEAR_ZERO)]),
    ],
)
def test_a_change(what: str, change: Callable[[Any], object], wanted: list[Told]) -> None:
    """What changed is reported alone, with the fields that differ: a polygon, for example, not again at the chain beside it."""
    first = two_sided(chain_between([(1, 1), (2, 5), (9, 9)]))
    first.landmarks.append(Landmark({"FILE": "01001", "CFCC": "D85", "LANAME": "Long Park"}, None, [0, 1, 2]))
    first.polygons.append(Polygon({"FILE": "01001"}, (-85_000_000, 32_000_000)))
    (thing,) = things(compared(first, after(first, lambda county: change(getattr(county, f"{what}s")[0]))))
    assert (thing.what, thing.kind, differing_fields(thing)) == (what, "changed", wanted)


def differing_fields(thing: Thing) -> list[Told]:
    return [(row.name.label, row.first, row.second) for row in thing.rows() if row.differs]


def test_chains_of_one_shape() -> None:
    """They are matched as a multiset, by their fields."""
    one, other, third = (chain_between([(1, 1), (2, 5), (9, 9)]) for _ in range(3))
    other.fields["FENAME"] = "Upper Main"
    third.fields.update(FENAME="Upper Main", CFCC="A31")
    assert compared(two_sided(one, other), two_sided(other, one)).chains.counts == (0, 0, 0, 2)
    assert compared(two_sided(one, other), two_sided(third, one)).chains.counts == (0, 0, 1, 1)
    assert compared(two_sided(one, one), two_sided(one)).chains.counts == (1, 0, 0, 1)
    comparison = compared(two_sided(one, other), two_sided(third, other, one))
    assert (comparison.chains.counts, comparison.ties) == ((0, 1, 0, 2), [])


def test_places_of_a_landmark() -> None:
    """Those of its polygons, if it has none of its own: the first, and how many more."""
    county = two_sided(chain_between([(1, 1), (2, 5), (9, 9)]))
    parks = [Landmark({"LANAME": "Park"}, None, [0, 1]), Landmark({"LANAME": "Inn"}, (-86_000_000, 32_000_000))]
    other = after(county, lambda county: county.landmarks.extend(parks))
    assert f"  Park, at {EAST} and 1 more" in words_of(county, other).splitlines()
    assert {found["title"]: shape for shape, found in features(compared(county, other))} == {
        "Park": '{"type":"MultiPoint","coordinates":[[-85.999999,32.000000],[-86.000000,32.000000]]}',
        "Inn": '{"type":"Point","coordinates":[-86.000000,32.000000]}',
    }
    about: dict[str, object] = {"what": "landmark", "kind": "only in the second", "title": "Inn", "differs": None}
    fields = {"second_LANAME": "Inn", "second_LALONG": -86.0, "second_LALAT": 32.0}
    assert [found for _, found in features(compared(county, other)) if found["title"] == "Inn"] == [{**about, **fields}]


def test_own_reverse() -> None:
    """A chain whose points are the same from both ends may be seen from either."""
    chain = chain_between([(1, 1), (2, 5), (1, 1)])
    chain.fields.update(FRADDL="1", TOADDR="9")
    other = turned(chain)
    assert compared(two_sided(chain), two_sided(other)).chains.counts == (0, 0, 0, 1)
    other.fields["FENAME"] = "Maple"
    (thing,) = things(compared(two_sided(chain), two_sided(other)))
    assert differing_fields(thing) == [("FENAME", "Main", "Maple")]


def test_a_ring() -> None:
    """It isn't its own reverse: with its sides exchanged it is another chain."""
    ring = chain_between([(1, 1), (2, 5), (5, 2), (1, 1)])
    other = turned(ring)
    other.points = ring.points
    assert compared(two_sided(ring), two_sided(other)).chains.counts == (0, 0, 1, 0)


@pytest.mark.parametrize(
    "change, wanted",
    [
        (lambda chain: setattr(chain, "start", None), {"start_node": (True, False)}),
        (lambda chain: setattr(chain, "right", None), {"right_polygon": (f"at {EAST}", None)}),
        (lambda chain: chain.ranges.append({"ZIPL": "36067"}), {"range_1": (False, True), "ZIPL_of_range_1": (None, "36067")}),
        (lambda chain: chain.fields.update(FENAME=""), {"FENAME": ("Main", None)}),
    ],
)
def test_values_in_geojson(change: Callable[[Chain], object], wanted: dict[str, Pair[object]]) -> None:
    """Whether something is there is true or false, and a field that is blank or isn't there is null."""
    first = two_sided(chain_between([(1, 1), (2, 5), (9, 9)]))
    ((_, found),) = features(compared(first, after(first, lambda county: change(county.chains[0]))))
    for name, (one, other) in wanted.items():
        assert (repr(found.get(f"first_{name}")), repr(found[f"second_{name}"])) == (repr(one), repr(other))


def test_names() -> None:
    county = made_county(40, 1)
    other = after(county, lambda county: county.names.append({"FENAME": "Unused"}))
    comparison = compared(county, other)
    assert (comparison.names.counts, comparison.is_alike) == ((0, 1, 0, len(county.names)), False)
    assert "  Unused, FILE (blank), a further name of no chains" in words_of(county, other).splitlines()


def test_nothing() -> None:
    assert ONE_MAP in words_of(EMPTY, EMPTY)
    county = made_county(12, 1)
    assert compared(EMPTY, county).chains.counts == (0, len(county.chains), 0, 0)


def test_what_is_no_canonical_text() -> None:
    good = written(made_county(12, 1))
    for text in (b"x\n", good[:-1], good + b"\n", good.replace(b"I2006", b"Z2006")):
        with pytest.raises(NotCanonical):
            read_county(text)


@pytest.mark.parametrize(
    "point, words, longitude, latitude",
    [
        ("-086477532+32464118", "32.464118° N, 86.477532° W", "-86.477532", "32.464118"),
        ("+179000001-05000020", "5.000020° S, 179.000001° E", "179.000001", "-5.000020"),
        ("-000000001+00000000", "0.000000° N, 0.000001° W", "-0.000001", "0.000000"),
        ("+999999999-99999999", "99.999999° S, 999.999999° E", "999.999999", "-99.999999"),
    ],
)
def test_degrees(point: str, words: str, longitude: str, latitude: str) -> None:
    assert (degrees(point), decimal(point[:10]), decimal(point[10:])) == (words, longitude, latitude)


@pytest.mark.parametrize(
    "what, name, value, told, place",
    [
        ("chains", "start", 7, "one node in the one, 2 in the other:", "start of Main (A41), 0.000001° N, 0.000001° E"),
        ("chains", "end", 7, "one node in the one, 2 in the other:", "end of Main (A41), 0.000006° N, 0.000006° E"),
        ("chains", "right", 2, "one polygon in the one, 2 in the other:", "right side of Main (A41)"),
        ("chains", "names", [0], "one feature name in the other, 2 in the one:", "further name 1 of Main (A41)"),
        ("landmarks", "polygons", [1], "one polygon in the one, 2 in the other:", "polygon 1 of Park"),
    ],
)
def test_ties(what: str, name: str, value: Any, told: str, place: str) -> None:
    """Polygons without records differ only in the sides that they are on; and landmarks, like names, have the same content."""
    one = two_sided(chain_between([(1, 1), (5, 5)], names=[0]), chain_between([(1, 1), (6, 6)], names=[1]))
    one.chains.append(chain_between([(3, 3), (4, 4)]))
    one.chains[2].right = 2
    one.polygons = [Polygon({}, None, False) for _ in range(3)]
    one.landmarks = [Landmark({"LANAME": "Park"}, None, [0]) for _ in range(2)]
    other = after(one, lambda county: setattr(getattr(county, what)[1], name, value))
    for first, second, names in ((one, other, ("first", "second")), (other, one, ("second", "first"))):
        text, line = words_of(first, second), told.replace("the one", f"the {names[0]}").replace("the other", f"the {names[1]}")
        comparison = compared(first, second)
        assert comparison.is_alike
        assert [each for each in (TIED, line, place) if each not in text] == []
        comparison.own = ({}, {})
        (found,) = [found for _, found in features(comparison) if found["title"] == line.rstrip(":")]
        assert (found["first_count"], found["second_count"]) == ((1, 2) if " in the first, 2" in line else (2, 1))
