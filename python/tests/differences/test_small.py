"""Small counties and changes of them, made at random: diff lists something exactly if the library's compare says that the maps differ, and
only what differs. They are compared in this process."""

import pickle
from typing import Iterator

import pytest
from dev.maps import County, turned, written

import tigercanon
from tigercanon import _library
from tigercanon.diff.fields import landmark_rows, polygon_fields, rows
from tigercanon.diff.matching import Comparison, compare
from tigercanon.diff.reading import read_county

from .small import Contents, Maker

PAIRS, BLOCKS = 100, 5

pytestmark = pytest.mark.library


@pytest.fixture(scope="module", autouse=True)
def library() -> None:
    _library.library.cache_clear()
    try:
        _library.library()
    except ImportError as error:
        pytest.skip(str(error))


def pairs(block: int) -> Iterator[tuple[int, County, County]]:
    """Yields counties that are accepted, each with a changed copy that is accepted, by the numbers with which they are made."""
    found, seed = 0, 10**6 * block
    while found < PAIRS:
        seed += 1
        maker = Maker(seed)
        one = maker.county()
        other = maker.changed(one)
        try:
            tigercanon.check(written(one))
            tigercanon.check(written(other))
        except tigercanon.Refusal:
            continue
        found += 1
        yield seed, one, other


def compared(first: bytes, second: bytes) -> Comparison:
    return compare(read_county(tigercanon.normalise(first)), read_county(tigercanon.normalise(second)))


def differing(found: Comparison) -> Iterator[bool]:
    """Yields, for each thing that changed, whether a field differs."""
    tables = [rows(found.first.chain(one), found.second.chain(other)) for one, other in found.chains.changed]
    tables += [landmark_rows(found.first, found.second, *pair) for pair in found.landmarks.changed]
    tables += [rows(polygon_fields(one), polygon_fields(other)) for one, other in found.polygons.changed]
    yield from (any(row.differs for row in table) for table in tables)


@pytest.mark.parametrize("block", range(BLOCKS))
def test_changes(block: int) -> None:
    """The counts of what isn't alike are at most those of what the counties say in other ways, and if nothing says anything else, what
    differs is how it is tied."""
    told = set()
    for seed, one, other in pairs(block):
        first, second = written(one, seed), written(other, seed + 1)
        found, contents = compared(first, second), list(zip(Contents(one).parts, Contents(other).parts))
        is_same = tigercanon.compare(first, second)
        assert (found.is_alike and not found.ties) == is_same, seed
        assert found.is_alike == all(ones == others for ones, others in contents), seed
        for part, (ones, others) in zip(found.parts, contents):
            alone, also_alone, changed, _ = part.counts
            assert alone + changed <= sum((ones - others).values()), seed
            assert also_alone + changed <= sum((others - ones).values()), seed
        assert all(differing(found)), seed
        told.add((is_same, found.is_alike))
    assert told == {(True, True), (False, True), (False, False)}


def test_another_hand() -> None:
    """Of a set and the same set under other numbers, turned, shuffled and packed otherwise nothing is listed."""
    for seed, one, _ in pairs(BLOCKS):
        found = compared(written(one, seed), written(one, seed + 1))
        assert (found.is_alike, found.ties) == (True, []), seed


def test_turned_by_hand() -> None:
    """Nor if only the chains are turned that are their own reverse, and a landmark's records are in another order. The records are
    compared as they are."""
    count = 0
    for seed, one, _ in pairs(BLOCKS):
        other: County = pickle.loads(pickle.dumps(one))
        for place, chain in enumerate(other.chains):
            if chain.points == chain.points[::-1]:
                other.chains[place] = turned(chain)
                count += turned(chain) != chain
        for landmark in other.landmarks:
            landmark.fields, *landmark.more = [landmark.fields, *landmark.more][::-1]
        assert compare(read_county(written(one)), read_county(written(other))).is_alike, seed
    assert count > PAIRS / 2
