"""Reads the records that the program prints: a county's chains, feature names, polygons and landmarks.

The content of a record is kept as one string (see `columns`). A point is kept as it is spelled: 19 columns of longitude and
latitude in millionths of a degree. A chain's points are one string of these. The program spells each number and point in one way.
"""

import re
from collections import defaultdict
from dataclasses import dataclass, field
from sys import intern

from ..errors import Failure
from .columns import CHAIN, LANDMARK, LENGTHS, NAME, POLYGON, RANGE, TOPOLOGY

POINT_WIDTH = 19
NO_POINT = " " * POINT_WIDTH
UNUSED_PLACES = re.compile(r"(\+000000000\+00000000)+$")  # the unused places at the end of a record of type 2
Records = dict[str, list[str]]  # the lines of each record type
PolygonKey = str
"""The office that numbers a polygon, in 5 columns, and its number there, in 10. On a side the number may be blank: no polygon."""


class NotCanonical(Failure):
    """The text isn't one that the program prints. The text of the error says why."""

    def __init__(self, why: str) -> None:
        super().__init__(f"the program doesn't print a canonical text: {why}")


@dataclass(eq=False)
class Chain:
    """The content of the records of one TLID. The key is the TLID as it follows the record type. The nodes are those at the start and
    the end, and the sides the left and the right one."""

    key: str
    body: str
    points: str
    feats: tuple[str, ...]
    ranges: tuple[str, ...]
    topology_body: str
    nodes: tuple[str, str]
    sides: tuple[PolygonKey, PolygonKey]


@dataclass(eq=False)
class Name:
    """A feature name, and how many chains have it as a further name."""

    body: str
    uses: int = 0


@dataclass(eq=False)
class Polygon:
    """A polygon on a side of a chain or of type P. Its body is empty if no record of type P has it."""

    key: PolygonKey
    body: str = ""

    @property
    def cenid(self) -> str:
        return self.key[:5]

    @property
    def point(self) -> str:
        return POLYGON.value(self.body, "POLYLONG, POLYLAT") if self.body else NO_POINT

    @property
    def content(self) -> str:
        return self.cenid + self.body


@dataclass(eq=False)
class Landmark:
    """The records of type 7 of one LAND, and the FILE and the polygon of each of type 8."""

    key: str
    bodies: list[str] = field(default_factory=list)
    places: list[tuple[str, PolygonKey]] = field(default_factory=list)


@dataclass(eq=False)
class County:
    chains: list[Chain]
    names: dict[str, Name]
    polygons: dict[PolygonKey, Polygon]
    landmarks: list[Landmark]

    def name_bodies(self, chain: Chain) -> tuple[str, ...]:
        """Returns the chain's further names, spelled out."""
        return tuple([self.names[feat].body for feat in chain.feats])


def read_county(text: bytes) -> County:
    """Returns the county of a canonical text, or of respelled records."""
    lines = text.decode("latin-1").split("\n")
    if lines.pop():
        raise NotCanonical("the last line has no line ending")
    records: Records = {record_type: [] for record_type in LENGTHS}
    for number, line in enumerate(lines, 1):
        if LENGTHS.get(line[:1]) != len(line):
            raise NotCanonical(f"line {number} isn't a record")
        records[line[0]].append(line)
    names = {line[10:18]: Name(NAME.content(line)) for line in records["5"]}
    polygons = {line[10:25]: Polygon(line[10:25], POLYGON.content(line)) for line in records["P"]}
    try:
        landmarks, chains = read_landmarks(records), read_chains(records)
        for feat in (feat for chain in chains for feat in chain.feats):
            names[feat].uses += 1
    except KeyError as missing:
        raise NotCanonical(f"there is no record under {missing}") from None
    for side in (side for chain in chains for side in chain.sides):
        if side not in polygons and not side[5:].isspace():
            polygons[side] = Polygon(side)
    return County(chains, names, polygons, landmarks)


def read_chains(records: Records) -> list[Chain]:
    """Returns the chains, in the order of their records of type 1."""
    inner, names, ranges = (by_chain(records[record_type]) for record_type in "246")
    topologies, chains = {line[10:20]: line for line in records["I"]}, []
    for line in records["1"]:
        tlid = line[5:15]
        topology = topologies[tlid]
        feats = [each[at : at + 8] for each in names.get(tlid, ()) for at in range(18, 58, 8)]
        chain = Chain(
            key=f"1{tlid}",
            body=CHAIN.content(line),
            points=line[190:209] + "".join([UNUSED_PLACES.sub("", each[18:]) for each in inner.get(tlid, ())]) + line[209:],
            feats=tuple([feat for feat in feats if not feat.isspace()]),
            ranges=tuple([RANGE.content(each) for each in ranges.get(tlid, ())]),
            topology_body=TOPOLOGY.content(topology),
            nodes=(topology[20:30], topology[30:40]),
            sides=(intern(topology[40:55]), intern(topology[55:70])),  # most polygons are on several sides, and share one key
        )
        chains.append(chain)
    return chains


def by_chain(lines: list[str]) -> dict[str, list[str]]:
    """Returns the records of each chain, by its TLID, in the order of their RTSQs."""
    found: dict[str, list[str]] = defaultdict(list)
    for line in sorted(lines, key=lambda line: line[5:18]):
        found[line[5:15]].append(line)
    return found


def read_landmarks(records: Records) -> list[Landmark]:
    """Returns the landmarks, in the order of their first records."""
    landmarks: dict[str, Landmark] = {}
    for line in records["7"]:
        landmarks.setdefault(line[10:20], Landmark(line[10:20])).bodies.append(LANDMARK.content(line))
    for line in records["8"]:
        landmarks[line[25:35]].places.append((line[5:10], line[10:25]))
    return list(landmarks.values())


def number_of(key: str) -> int:
    return int(key[-10:])


def each_point(points: str) -> list[str]:
    return [points[at : at + POINT_WIDTH] for at in range(0, len(points), POINT_WIDTH)]


def position(point: str) -> tuple[int, int]:
    return int(point[:10]), int(point[10:])


def reversed_points(points: str) -> str:
    return "".join(each_point(points)[::-1])


def comes_after_its_reverse(points: str) -> bool:
    """Returns whether a canonical text has these points from the other end: there they come before their reverse."""
    listed = list(map(position, each_point(points)))
    return listed > listed[::-1]
