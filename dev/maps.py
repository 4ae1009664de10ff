"""Maps as values whose parts can be changed, and hands, which are ways to write one: under other numbers, with chains turned, and with
records in another order and packing. The map stays the same."""

from __future__ import annotations

import random
from dataclasses import dataclass, field, replace
from typing import Any, Iterator, Optional, Sequence

from tigercanon.diff.columns import CHAIN, LANDMARK, NAME, POLYGON, RANGE, TOPOLOGY, Layout

FILE = "01001"

Point = tuple[int, int]
"""Longitude and latitude in millionths of a degree."""

Values = dict[str, str]
"""Fields of a record by their names. A field that isn't there is blank."""

# How many slots the program's tables have for each item, and for each of few items.
SLOTS, SLOTS_OF_FEW, FEW = 2, 8, 1 << 13


@dataclass
class Chain:
    """A chain: the fields of types 1 and I, all its points, its further names and ranges, and the nodes and polygons at it. A side without
    a polygon has its CENID, if there is one here, or else the county's."""

    fields: Values
    points: list[Point]
    start: int | None
    end: int | None
    left: int | None
    right: int | None
    names: list[int] = field(default_factory=list)
    ranges: list[Values] = field(default_factory=list)
    topology: Values = field(default_factory=dict)
    outside: tuple[Optional[str], Optional[str]] = (None, None)


@dataclass
class Polygon:
    fields: Values
    point: Point | None
    has_record: bool = True
    cenid: str = "06001"


@dataclass
class Landmark:
    """The fields of a record of type 7, and of more records under the same number. They are at its point, if none is among them.
    Its links to polygons have the county's FILE, if there is none here."""

    fields: Values
    point: Point | None = None
    polygons: list[int] = field(default_factory=list)
    more: list[Values] = field(default_factory=list)
    files: list[str] = field(default_factory=list)


@dataclass
class County:
    """A map. Nodes, polygons and names have their places in these lists as numbers; a node is its point."""

    chains: list[Chain]
    names: list[Values]
    polygons: list[Polygon]
    landmarks: list[Landmark]
    outside: str = f"06001{'':10}"
    """The CENID and POLYID on a side without a polygon."""

    def nodes(self) -> list[int]:
        """The numbers of all nodes, in their order."""
        return sorted({node for chain in self.chains for node in (chain.start, chain.end) if node is not None})


def content(layout: Layout, fields: Values) -> str:
    return "".join(fields.get(column.name, "").ljust(column.width) for column in layout.columns)


def spelt(point: Point | None) -> str:
    return " " * 19 if point is None else f"{point[0]:+010d}{point[1]:+09d}"


@dataclass
class Hand:
    """A way to write a county: how everything is numbered, which chains are turned, and how records are packed and ordered."""

    chance: random.Random | None = None

    def numbers(self, count: int, most: int) -> list[int]:
        """A number for each of count things, less than the most."""
        return list(range(1, count + 1)) if self.chance is None else self.chance.sample(range(1, most), count)

    def polyids(self, cenids: Sequence[str]) -> list[int]:
        """A number for each polygon, given their CENIDs."""
        return self.numbers(len(cenids), 10**10)

    def turns(self) -> bool:
        return self.chance is not None and self.chance.random() < 0.5

    def packs(self, items: Sequence[str], most: int) -> Iterator[tuple[int, Sequence[str]]]:
        """The items record by record, with a number for each record."""
        number, begin = 0, 0
        while begin < len(items):
            size = most if self.chance is None else self.chance.randint(1, most)
            number += 1 if self.chance is None else self.chance.randint(1, 3)
            yield number, items[begin : begin + size]
            begin += size

    def orders(self, lines: list[str]) -> list[str]:
        if self.chance is not None:
            self.chance.shuffle(lines)
        return lines


def written(county: County, seed: int | None = None) -> bytes:
    """The records of a county in one file, by a hand with this seed, or as it is."""
    hand = Hand(random.Random(seed) if seed is not None else None)
    return "".join(line + "\n" for line in hand.orders(list(lines(county, hand)))).encode("latin-1")


@dataclass
class Numbers:
    """The numbers that a hand gives to what is in a county, in the order of its lists. Those of nodes are by their places."""

    county: County
    tlids: list[int]
    feats: list[int]
    lands: list[int]
    polyids: list[int]
    nodes: dict[int | None, Any]

    def side(self, polygon: int | None, outside: str | None = None) -> str:
        """The CENID and POLYID on a side of a chain, or in a link."""
        if polygon is None:
            return self.county.outside if outside is None else f"{outside:15}"
        return f"{self.county.polygons[polygon].cenid:5}{self.polyids[polygon]:>10}"


def numbered(county: County, hand: Hand) -> Numbers:
    nodes = county.nodes()
    lists: list[Sequence[object]] = [county.chains, county.names, county.landmarks]
    tlids, feats, lands = map(hand.numbers, map(len, lists), (10**10, 10**8, 10**10))
    polyids = hand.polyids([polygon.cenid for polygon in county.polygons])
    return Numbers(county, tlids, feats, lands, polyids, {None: "", **dict(zip(nodes, hand.numbers(len(nodes), 10**10)))})


def lines(county: County, hand: Hand) -> Iterator[str]:
    """The records of a county, in the order of its lists."""
    numbers = numbered(county, hand)
    for chain, tlid in zip(county.chains, numbers.tlids):
        yield from lines_of_chain(turned(chain) if hand.turns() else chain, tlid, numbers, hand)
    for name, feat in zip(county.names, numbers.feats):
        body = content(NAME, name)
        yield f"52006{body[:5]}{feat:>8}{body[5:]}"
    for landmark, land in zip(county.landmarks, numbers.lands):
        yield from lines_of_landmark(landmark, land, numbers)
    for number, polygon in enumerate(county.polygons):
        if polygon.has_record:
            body = content(POLYGON, polygon.fields)
            yield f"P2006{body[:5]}{numbers.side(number)}{spelt(polygon.point)}{body[-1]}"


def lines_of_chain(chain: Chain, tlid: int, numbers: Numbers, hand: Hand) -> Iterator[str]:
    """The records with a chain's TLID: of type 1, 2, 4, 6 and I."""
    yield f"12006{tlid:>10}{content(CHAIN, chain.fields)}{spelt(chain.points[0])}{spelt(chain.points[-1])}"
    for number, points in hand.packs([spelt(point) for point in chain.points[1:-1]], 10):
        yield f"22006{tlid:>10}{number:>3}" + "".join(points).ljust(190, "\0").replace("\0" * 19, "+000000000+00000000")
    for number, names in hand.packs([f"{numbers.feats[name]:>8}" for name in chain.names], 5):
        yield f"42006{tlid:>10}{number:>3}" + "".join(names).ljust(40)
    for number, fields in enumerate(chain.ranges, 1):
        yield f"62006{tlid:>10}{number:>3}{content(RANGE, fields)}"
    topology = content(TOPOLOGY, chain.topology)
    ends = f"{numbers.nodes[chain.start]:>10}{numbers.nodes[chain.end]:>10}"
    sides = f"{numbers.side(chain.left, chain.outside[0])}{numbers.side(chain.right, chain.outside[1])}"
    yield f"I2006{topology[:5]}{tlid:>10}{ends}{sides}{topology[5:]}"


def lines_of_landmark(landmark: Landmark, land: int, numbers: Numbers) -> Iterator[str]:
    """The records with a landmark's LAND: of type 7 and 8."""
    for fields in (landmark.fields, *landmark.more):
        body = content(LANDMARK, {"LALONG, LALAT": spelt(landmark.point), **fields})
        yield f"72006{body[:5]}{land:>10}{body[5:]} "
    for polygon, file in zip(landmark.polygons, [*landmark.files, *[FILE] * len(landmark.polygons)]):
        yield f"82006{file:5}{numbers.side(polygon)}{land:>10} "


def turned(chain: Chain) -> Chain:
    """The chain as seen from its other end."""

    def fields(layout: Layout, had: Values) -> Values:
        return {column.name: had.get(column.partner or column.name, "") for column in layout.columns}

    ends = {"start": chain.end, "end": chain.start, "left": chain.right, "right": chain.left, "outside": chain.outside[::-1]}
    ranges = [fields(RANGE, each) for each in chain.ranges]
    return replace(chain, fields=fields(CHAIN, chain.fields), points=chain.points[::-1], ranges=ranges, **ends)


def slots_for(items: int) -> int:
    """Returns how many slots the program's table for this many items has."""
    return max(items * (SLOTS_OF_FEW if items < FEW else SLOTS), 1)


def sharing_slots(count: int, slots: int, most: int) -> list[int]:
    """Returns this many numbers up to the greatest one that share as few slots as possible: a number has the slot of its remainder."""
    rounds = max(most // slots - 1, 1)
    return [slots * (1 + place % rounds) + place // rounds for place in range(count)]
