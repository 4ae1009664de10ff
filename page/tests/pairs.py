"""Pairs of small random counties, and where they differ as the tools find it."""

from __future__ import annotations

import copy
import json
import random
from pathlib import Path
from typing import Any, Callable, Iterator, NamedTuple, Sequence

from dev import maps
from dev.random_counties import Maker
from tigercanon.diff.differing import compared as comparison_of
from tigercanon.diff.differing import open_sets
from tigercanon.diff.geojson import write_geojson
from tigercanon.diff.matching import Comparison
from tigercanon.diff.page import find_page, write_page
from tigercanon.diff.sets import Sets, found
from tigercanon.errors import Failure
from tigercanon.resources import Kept, Resources

FLAGS: Sequence[list[str]] = ([], ["--all"], ["--no-sources", "--all"], ["--no-reserved"], ["--no-sources", "--no-reserved"])
Edit = Callable[[Maker, maps.County], None]


def lose(maker: Maker, county: maps.County) -> None:
    """Loses a chain or a landmark."""
    things: list[Any] = maker.some([county.chains, county.landmarks])
    if len(things) > (things is county.chains):
        things.pop(maker.chance.randrange(len(things)))


def add(maker: Maker, county: maps.County) -> None:
    maker.add_chain(county, 0.7)


def move(maker: Maker, county: maps.County) -> None:
    """Moves an end of a chain, the place of a landmark or of a polygon."""
    chain = maker.some(county.chains)
    chain.points = [maker.some(maker.places), *chain.points[1:]]
    for thing in (county.landmarks, county.polygons):
        if thing and maker.is_so(0.5):
            maker.some(thing).point = maker.some(maker.places)


def rename(maker: Maker, county: maps.County) -> None:
    """Gives a chain, a landmark or a feature name other fields."""
    maker.some(county.chains).fields["FENAME"] = maker.some(["Main", "O'Brien", '"Q"', "B|C"])
    if county.names:
        maker.some(county.names)["FENAME"] = maker.some(["Main", "Elm"])
    if county.landmarks:
        maker.some(county.landmarks).fields["LANAME"] = maker.some(["St. Mary's", "Hall"])


def join(maker: Maker, county: maps.County) -> None:
    """Joins a chain to other nodes, polygons or names."""
    chain, other = maker.some(county.chains), maker.chain(county)
    for name in maker.some(["start", "end", "left", "right", "names", "ranges", "start end"]).split():
        setattr(chain, name, getattr(other, name))


def mask(maker: Maker, county: maps.County) -> None:
    """Changes fields that a flag leaves out."""
    chain = maker.some(county.chains)
    chain.fields["SOURCE"], chain.fields["CENSUS1"] = maker.some("AB"), maker.some("12")
    if county.landmarks:
        maker.some(county.landmarks).fields["SOURCE"] = maker.some("AB")


def wet(maker: Maker, county: maps.County) -> None:
    if county.polygons:
        maker.some(county.polygons).fields["WATER"] = maker.some(" 01")


EDITS: Sequence[Edit] = (lose, add, move, rename, join, mask, wet)


class Differing(NamedTuple):
    """Two sets, where they differ, and their files, packed for a page."""

    sets: Sets
    comparison: Comparison
    packed: list[dict[str, Any]]


class Pair(NamedTuple):
    """Two counties in files, the flags to compare them with, and where the tools find that they differ."""

    files: list[Path]
    flags: list[str]
    differing: Differing

    @property
    def geojson(self) -> dict[str, Any]:
        kept = Kept()
        write_geojson(kept, self.differing.comparison, self.differing.sets, "--all" in self.flags)
        made: dict[str, Any] = json.loads(b"".join(kept.pieces))
        return made

    @property
    def page(self) -> bytes:
        """The page with both counties, as diff --page writes it."""
        kept = Kept()
        write_page(kept, find_page(), "page", self.differing.packed, self.differing.comparison, self.differing.sets)
        return b"".join(kept.pieces)


def edited(maker: Maker, county: maps.County) -> maps.County:
    """A county after up to five changes. Nothing is in a polygon that no chain has on a side any more."""
    other = copy.deepcopy(county)
    for _ in range(maker.some([0, 1, 1, 2, 3, 5])):
        maker.some(EDITS)(maker, other)
    used = {side for chain in other.chains for side in (chain.left, chain.right)}
    for number, polygon in enumerate(other.polygons):
        polygon.has_record = polygon.has_record and number in used
    for landmark in other.landmarks:
        kept = [(each, file) for each, file in zip(landmark.polygons, landmark.files) if each in used]
        landmark.polygons, landmark.files = [each for each, _ in kept], [file for _, file in kept]
    return other


def written(folder: Path, seed: str) -> list[Path]:
    """Two counties in files."""
    maker = Maker(random.Random(seed))
    county = maker.county()
    files = [folder / f"{name}-{seed}.txt" for name in ("first", "second")]
    for file, each in zip(files, (county, edited(maker, county))):
        file.write_bytes(maps.written(each, maker.chance.randrange(1000)))
    return files


def compared(program: Path, files: Sequence[Path], flags: Sequence[str]) -> Differing:
    """Where the tools find that two sets differ. Raises Failure if one is refused."""
    names, masks = list(map(str, files)), tuple(flag for flag in flags if flag.startswith("--no-"))
    with Resources() as resources:
        both = open_sets([found(name, False) for name in names], names, str(program), masks, resources)
        return Differing(both.sets, comparison_of(both, str(program), resources), both.packed)


def pairs(program: Path, folder: Path, seed: int) -> Iterator[Pair]:
    """Pairs of counties that are accepted, without an end."""
    number = 0
    while True:
        number += 1
        files, flags = written(folder, f"{seed}-{number}"), FLAGS[number % len(FLAGS)]
        try:
            yield Pair(files, flags, compared(program, files, flags))
        except Failure:
            continue
