"""Made-up counties that are large in many ways. Each is made twice: as its canonical text, with everything in the order that it is made
in, and as other records of the same map, with other numbers, half of the chains turned, points and names packed otherwise, and the
lines in another order.

In each the chains are a street from west to east, so that their points put them in order and no chain is turned. The longest street is
written by pieces of many lines at a time, which is as fast as Python gets.
"""

import itertools
import math
import random
from pathlib import Path
from typing import Any, Callable, Iterable, Iterator, NamedTuple, Optional, Sequence

from dev import maps
from dev.testing import LENGTHS

LINES_A_PIECE = 10_000
FILE = b"01001"
WEST, STEP, LATITUDE = -86_700_000, 9, b"+32300000"
# The contents of the fields that a mask leaves out; no other field has them.
SOURCE, RESERVED = b"\xb1", b"\xb2"
MASKS = {"--no-sources": SOURCE, "--no-reserved": RESERVED}

Pieces = Iterator[bytes]
Numbering = Callable[[int], int]
"""A number for each place of the street."""


def masked(text: bytes, flags: Sequence[str]) -> bytes:
    """A piece of a text with blanks in the fields that these flags leave out."""
    return text.translate(bytes.maketrans(b"".join(MASKS[flag] for flag in flags), b" " * len(flags)))


def laid_out(rtype: str, fields: dict[int, bytes], is_cut: bool = False) -> bytes:
    """A line with these contents at their columns and with numbers left open; its trailing blanks may be cut."""
    line, column = rtype.encode() + b"2006", 6
    for first, content in sorted(fields.items()):
        line += b" " * (first - column) + content
        column = first + len(content % ((0,) * content.count(b"%")))
    return line + b" " * (0 if is_cut else LENGTHS[rtype] + 1 - column) + b"\n"


def lines(line: bytes, places: Iterable[int], *columns: Numbering) -> Pieces:
    """The line once for each place, with the numbers of the place in it."""
    left = iter(places)
    while some := list(itertools.islice(left, LINES_A_PIECE)):
        yield line * len(some) % tuple(column(place) for place in some for column in columns)


def write(path: Path, pieces: Pieces) -> None:
    with open(path, "wb") as file:
        file.writelines(pieces)


def numbering(factor: int, most: int) -> Numbering:
    """Other numbers for 0, 1, 2 and so on, spread up to a prime and none twice."""
    return lambda place: (place * factor + 7) % most + 1


TLID, POLYID, NODE = (numbering(factor, 9_999_999_967) for factor in (7_368_787_001, 3_267_000_013, 1_500_450_271))


def strewn(count: int) -> list[int]:
    """The numbers below this one in another order."""
    step = next(step for step in range(count * 5 // 8, 2 * count + 2) if math.gcd(step, count) == 1)
    return [place * step % count for place in range(count)]


def longitude(place: int) -> int:
    return WEST + STEP * place


def next_of(column: Numbering) -> Numbering:
    return lambda place: column(place + 1)


class County(NamedTuple):
    """A county's canonical text, and other records of the map."""

    text: Callable[[], Pieces]
    other: Callable[[], Pieces]


def street(count: int) -> County:
    """Very many chains, each between two nodes and with a polygon on its left."""
    topology = {6: FILE, 11: b"%10d%10d%10d01001%10d"}
    number = next_of(int)

    def text() -> Pieces:
        yield from lines(chain_line(), range(count), number, longitude, next_of(longitude))
        yield from lines(laid_out("I", topology), range(count), number, number, next_of(number), number)

    def otherwise() -> Pieces:
        """Every second chain is turned, and all have another order."""
        kept, turned = ([place for place in strewn(count) if place % 2 == remainder] for remainder in (0, 1))
        from_east = laid_out("I", {6: FILE, 11: b"%10d%10d%10d", 56: b"01001%10d"}, is_cut=True)
        yield from lines(from_east, turned, TLID, next_of(NODE), NODE, POLYID)
        yield from lines(chain_line(), kept, TLID, longitude, next_of(longitude))
        yield from lines(chain_line(), turned, TLID, next_of(longitude), longitude)
        yield from lines(laid_out("I", topology, is_cut=True), kept, TLID, NODE, next_of(NODE), POLYID)

    return County(text, otherwise)


def chain_line() -> bytes:
    """A line of type 1 with its TLID and two longitudes left open."""
    points = b"%+010d" + LATITUDE + b"%+010d" + LATITUDE
    return laid_out("1", {6: b"%10d", 17: SOURCE, 20: b"Main", 56: b"A41", 129: RESERVED * 2, 191: points})


POINTS, FURTHER_NAMES, RANGES = 9_900, 4_900, 900
TWINS = {500: ("Ash", "Birch", "Cedar"), 1_500: ("Main", "Main", "Main", "Main")}
TIED_PLACE, TIED = 500, 7
EACH = 999  # Further names or ranges of each chain made to be slow.
OF_CHAIN = {"SOURCE": SOURCE.decode("latin-1"), "CFCC": "A41", **dict.fromkeys(("CENSUS1", "CENSUS2"), RESERVED.decode("latin-1"))}
OF_TOPOLOGY = {"FILE": maps.FILE, "SOURCE": OF_CHAIN["SOURCE"], "RS_I1": OF_CHAIN["CENSUS1"]}


class Hand(maps.Hand):
    """A chain has up to 999 records of a type."""

    def packs(self, items: Sequence[str], most: int) -> Iterator[tuple[int, Sequence[str]]]:
        """Of many items the first ten records aren't full, and all others are."""
        if len(items) <= 333:
            yield from super().packs(items, most)
            return
        few = 10 * (most - 1)
        yield from enumerate((items[at : at + most - 1] for at in range(0, few, most - 1)), 9)
        yield from enumerate((items[at : at + most] for at in range(few, len(items), most)), 19)


class SlotHand(Hand):
    """Numbers that share few slots of the program's tables."""

    def numbers(self, count: int, most: int) -> list[int]:
        return random.Random("wide").sample(maps.sharing_slots(count, maps.slots_for(count), most), count)


def spelled(county: maps.County, share_slots: bool = False) -> County:
    """A county whose parts have the order and the directions of the canonical text, and the same county as somebody else spells it."""
    hand = SlotHand if share_slots else Hand
    # By this seed the long chain is turned.
    return County(lambda: canonical_lines(county), lambda: other_lines(county, hand(random.Random("wide"))))


def canonical_lines(county: maps.County) -> Pieces:
    """By record type, and else in the order of the county."""
    for line in sorted(maps.lines(county, maps.Hand()), key=lambda line: line[0]):
        yield f"{line}\n".encode("latin-1")


def other_lines(county: maps.County, hand: Hand) -> Pieces:
    """Every second line is cut at its end."""
    for number, line in enumerate(hand.orders(list(maps.lines(county, hand)))):
        yield f"{line.rstrip(' ') if number % 2 else line}\n".encode("latin-1")


def street_chain(place: int, start: Optional[int], end: Optional[int], name: str = "Main", **more: Any) -> maps.Chain:
    """The chain at a place of the street, between two nodes."""
    points = [(longitude(it), int(LATITUDE)) for it in (place, place + 1)]
    return maps.Chain({**OF_CHAIN, "FENAME": name}, points, start, end, **{"left": None, "right": None, "topology": OF_TOPOLOGY, **more})


class Crowded(NamedTuple):
    """How many chains a crowded county has, and contents of its large landmark. It has twice as many polygons, and as many further names
    and small landmarks as these."""

    chains: int

    @property
    def polygons(self) -> int:
        return 2 * self.chains

    @property
    def long(self) -> int:
        """The place of the long chain."""
        return self.chains * 7 // 20

    def county(self) -> County:
        """Many names, landmarks, polygons and CENIDs, one long chain with many names and ranges, and one large landmark."""
        topology = {**OF_TOPOLOGY, **dict.fromkeys(("RS_I2", "RS_I3"), OF_TOPOLOGY["RS_I1"])}
        chains = [
            street_chain(place, place, place + 1, left=2 * place, right=2 * place + 1, names=[2 * place, 2 * place + 1], topology=topology)
            for place in range(self.chains)
        ]
        long = chains[self.long]
        long.points[1:1] = ((WEST + STEP * self.long + place % 5, 32_300_000 + place) for place in range(POINTS))
        long.names = [place * 37 % self.polygons for place in range(FURTHER_NAMES)]  # some of them twice
        long.ranges = [{"FRADDL": f"{number:>11}", "FRIADDL": "1"} for number in range(1, RANGES + 1)]
        names = [{"FILE": maps.FILE, "FENAME": f"Way {number:06}"} for number in range(self.polygons)]
        polygons = [
            maps.Polygon({"FILE": maps.FILE, "WATER": "0"}, (longitude(number), int(LATITUDE)), cenid=f"{number + 0x10000:05X}")
            for number in range(self.polygons)
        ]
        large = maps.Landmark(landmark_fields("Content", 0), polygons=list(range(self.chains)))
        large.more = [landmark_fields("Content", number) for number in range(1, self.chains)]
        parks = [maps.Landmark(landmark_fields("Park", number), polygons=[number]) for number in range(self.polygons)]
        return spelled(maps.County(chains, names, polygons, [large, *parks]))


def landmark_fields(name: str, number: int) -> maps.Values:
    return {"FILE": maps.FILE, "SOURCE": OF_CHAIN["SOURCE"], "CFCC": "D43", "LANAME": f"{name} {number:06}"}


def twins(count: int = 2_000, groups: Optional[dict[int, Sequence[str]]] = None) -> County:
    """A street with groups of chains of one shape. In each group the names by type 1 decide which comes first or, if these are alike, the
    further names."""
    groups = TWINS if groups is None else groups
    placed = [(place, name, twin) for place in range(count) for twin, name in enumerate(groups.get(place, ("Main",)))]
    alike = [place for place, names in groups.items() if len(set(names)) == 1]
    chains = [street_chain(place, place, place + 1, name, names=[twin] * (place in alike)) for place, name, twin in placed]
    names = [{"FILE": maps.FILE, "FENAME": f"Way {number:06}"} for number in range(4)]
    return spelled(maps.County(chains, names, [], [], outside=" " * 15))


def tied(count: int) -> Iterator[tuple[str, County]]:
    """Counties with chains of one shape: none, pairs, and seven that differ only in their nodes, names, addresses or polygons, or in
    the landmarks on these."""
    yield "none", twins(count, {})
    yield "one pair", twins(count, {TIED_PLACE: ("Ash", "Birch")})
    yield "twelve pairs", twins(count, dict.fromkeys(range(100, 1_300, 100), ("Ash", "Birch")))
    yield "twelve pairs, one alike", twins(count, {100: ("Main", "Main"), **dict.fromkeys(range(200, 1_300, 100), ("Ash", "Birch"))})
    yield "four pairs alike", twins(count, dict.fromkeys(range(100, 500, 100), ("Main", "Main")))
    # One has no start node, and is the first, since a blank comes before any number. Each order of all others has the same text.
    yield "nodes", spelled(ties(count, [{"start": None}, *({} for _ in range(TIED - 1))]))
    # Names of one content are numbered by their first use, so the chains with the first four can change places. All others can't.
    further_names = [{"FILE": maps.FILE, "FENAME": name} for name in ("Ash", "Ash", "Ash", "Ash", "Birch", "Cedar", "Elm")]
    yield "names", spelled(ties(count, [{"names": [number]} for number in range(TIED)], further_names))
    # These are in the order of the addresses, and of the points of the polygons on their left.
    yield "addresses", spelled(ties(count, [with_ranges(number) for number in range(1, TIED + 1)]))
    yield "sides", spelled(ties(count, [{"left": polygon} for polygon in range(TIED)], [], beside(TIED)))
    yield "landmarks", landmarks_along(count, 0)


def landmarks_along(count: int, further: int) -> County:
    """Seven chains of one shape, each with a polygon and a landmark, and further landmarks on the polygons of the chains after them. The
    polygons are in the order of their landmarks, which is decided before the order of their points."""
    polygons = beside(TIED)[::-1] + beside(further)
    parks = [maps.Landmark(landmark_fields("Park", number), polygons=[number]) for number in range(TIED + further)]
    county = ties(count, [{"left": polygon} for polygon in range(TIED)], [], polygons, parks)
    for number in range(TIED, TIED + further):
        county.chains[TIED_PLACE + number].left = number
    return spelled(county)


def beside(count: int) -> list[maps.Polygon]:
    return [maps.Polygon({"FILE": maps.FILE, "WATER": "0"}, (WEST - place, int(LATITUDE))) for place in range(count)]


def with_ranges(*numbers: int) -> dict[str, Any]:
    return {"ranges": [{"FRADDL": f"{number:>11}", "FRIADDL": "1"} for number in numbers]}


def with_parks(count: int, times: int) -> County:
    """A street with a polygon and a landmark beside every tenth chain. One of these chains is there this many times."""
    sides: list[dict[str, Any]] = [{"left": place // 10} if place % 10 == 0 else {} for place in range(count)]
    places = [place for place in range(count) for _ in range(times if place == TIED_PLACE else 1)]
    chains = [street_chain(place, place, place + 1, **sides[place], topology={"FILE": maps.FILE}) for place in places]
    polygons = [maps.Polygon({"FILE": maps.FILE, "WATER": "0"}, (longitude(10 * it), int(LATITUDE))) for it in range(count // 10)]
    parks = [maps.Landmark(landmark_fields("Park", it), polygons=[it]) for it in range(count // 10)]
    return spelled(maps.County(chains, [], polygons, parks, outside=" " * 15))


def hostile(count: int) -> dict[str, County]:
    """Counties made to be slow: seven chains of one shape, as above, with hundreds of names or ranges each, or with hundreds of landmarks
    beside them. Each of the 5,040 orders is compared by these."""

    def parks(number: int, links: int) -> County:
        """Landmarks, each on this many of the polygons beside the seven chains."""
        sides: list[dict[str, Any]] = [{"left": 2 * place, "right": 2 * place + 1} for place in range(TIED)]
        linked = [sorted((first + link) % (2 * TIED) for link in range(links)) for first in range(number)]
        landmarks = [maps.Landmark(landmark_fields("Park", at), polygons=on) for at, on in enumerate(linked)]
        return spelled(ties(count, sides, [], beside(2 * TIED), landmarks))

    return {
        "500 names that share a slot": spelled(further_names(count, 500, 500 * TIED), share_slots=True),
        "999 further names": spelled(further_names(count, EACH, TIED * EACH)),
        "999 names in pairs": spelled(further_names(count, EACH, 2)),
        "999 ranges": spelled(ties(count, [with_ranges(*range(1, EACH + 1)) for _ in range(TIED)])),
        "999 ranges with other last ones": spelled(ties(count, [with_ranges(*range(1, EACH), EACH + place) for place in range(TIED)])),
        "1,000 landmarks": parks(1_000, 1),
        "300 landmarks of 14 links": parks(300, 2 * TIED),
        "1,000 landmarks of 14 links": parks(1_000, 2 * TIED),
        "400 landmarks on fixed chains": landmarks_along(count, 400),
        "2 fixed chains with 4,900 names": spelled(named_chains(2), share_slots=True),
        "20 fixed chains with 4,900 names": spelled(named_chains(20), share_slots=True),
    }


def slowest() -> dict[str, County]:
    """Counties of a few megabytes that take longer than a test may."""
    found = {"2,000 names that share a slot": further_names(1_000, 2_000, 2_000 * TIED)}
    found.update({f"{fixed} fixed chains with 4,900 names of the seven": named_chains(fixed, of_all=True) for fixed in (2, 20)})
    return {name: spelled(county, share_slots=True) for name, county in found.items()}


def further_names(count: int, each: int, alike: int) -> maps.County:
    """Seven chains of one shape, each with other names, some with the same content. Only the names of the last chain tell the orders
    apart."""
    named = [{"names": list(range(first, first + each))} for first in range(0, TIED * each, each)]
    return ties(count, named, [{"FILE": maps.FILE, "FENAME": f"Ash {number // alike:04}"} for number in range(TIED * each)])


def named_chains(fixed: int, of_all: bool = False) -> maps.County:
    """Seven chains of one shape with a few names. Each name first appears on another chain, which has many more names. The seven have
    these too, if they are of all."""
    more = list(range(1, FURTHER_NAMES))
    own = [0, *range(FURTHER_NAMES, FURTHER_NAMES + fixed - 1)]
    names = [{"FILE": maps.FILE, "FENAME": "Ash"} for _ in range(FURTHER_NAMES + fixed - 1)]
    county = ties(1_000, [{"names": own + more if of_all else own} for _ in range(TIED)], names)
    for chain, name in zip(county.chains, own):
        chain.names = [name, *more]
    return county


def ties(
    count: int,
    seven: list[dict[str, Any]],
    names: Sequence[maps.Values] = (),
    polygons: Sequence[maps.Polygon] = (),
    landmarks: Sequence[maps.Landmark] = (),
) -> maps.County:
    """A street with seven chains of one shape, each between other nodes unless it says otherwise: all 5,040 orders of them have the same
    records of type 1. The last chain has all names, or as many as its records hold."""
    nodes, topology = itertools.count(TIED_PLACE + 1), {"FILE": maps.FILE}
    same = [street_chain(TIED_PLACE, **{"start": next(nodes), "end": next(nodes), **more}, topology=topology) for more in seven]
    further = next(nodes) - TIED_PLACE - 1
    chains = [street_chain(place, place, place + 1, topology=topology) for place in range(TIED_PLACE)] + same
    chains += [street_chain(place, place + further, place + further + 1, topology=topology) for place in range(TIED_PLACE + 1, count)]
    chains[-1].names = list(range(min(len(names), FURTHER_NAMES)))
    return maps.County(chains, list(names), list(polygons), list(landmarks), outside=" " * 15)
