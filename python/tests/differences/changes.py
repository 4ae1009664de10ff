"""Changes a county at places that are kept in mind: what two maps then differ in is known without comparing them."""

from __future__ import annotations

import pickle
import random
from collections import Counter
from pathlib import Path
from typing import Iterator, NamedTuple, Sequence, TypeVar

from dev.maps import FILE, Chain, County, Landmark, Point, Polygon, written
from dev.testing import script
from support import put

from tigercanon.diff.columns import CHAIN

SUBJECTS = ("chain", "landmark", "polygon")
MAKER = script("tools/make-county")

T = TypeVar("T")
Place = tuple[Point, ...]
"""The points of something, in the direction of canonical texts: a chain runs so that its points come before their reverse."""


class Difference(NamedTuple):
    """A chain, landmark or polygon that isn't alike: its kind, where it lies, and the fields that differ."""

    what: str
    kind: str
    place: Place
    fields: frozenset[str] = frozenset()


def made_county(chains: int, seed: int) -> County:
    """Returns a county with this many chains, and with a church for each fifty of them, or eight, to the south of its streets."""
    made, step = MAKER.County(chains, str(seed)), MAKER.SPACING
    rows = [divmod(number, 20) for number in range(max(8, chains // 50))]
    places = [(MAKER.WEST + step * column, MAKER.SOUTH - step * (row + 4)) for row, column in rows]
    fields = {"FILE": FILE, "SOURCE": "A", "CFCC": "D44"}
    churches = [Landmark({**fields, "LANAME": f"Church {number}"}, place) for number, place in enumerate(places, 1)]
    return County(list(made.chains), made.names, made.polygons, [*made.landmarks, *churches], made.outside)


class Changing:
    """A county that is being changed, and its differences from the county that it was before."""

    def __init__(self, before: County, seed: int) -> None:
        self.before, self.county = before, pickle.loads(pickle.dumps(before))
        self.chance = random.Random(seed)
        self.differences: set[Difference] = set()
        self.names: list[tuple[str, str]] = []
        self.touched: set[int] = set()

    def files(self, folder: Path) -> tuple[Path, Path]:
        """Returns both maps in files, each by another hand."""
        return put(folder / "first", written(self.before, 1)), put(folder / "second", written(self.county, 2))

    def tell(self, kind: str, thing: Chain | Landmark | Polygon, *fields: str) -> None:
        points = thing.points if isinstance(thing, Chain) else [place_of(thing)]
        what = type(thing).__name__.lower()
        self.differences.add(Difference(what, kind, tuple(min(points, points[::-1])), frozenset(fields)))

    def counts(self) -> dict[tuple[str, str], int]:
        """Returns how many chains, landmarks and polygons there are of each kind."""
        told = Counter((difference.what, difference.kind) for difference in self.differences)
        for what in SUBJECTS:
            things: Sequence[object] = getattr(self.before, f"{what}s")
            told[what, "alike"] = len(things) - told[what, "only in the first"] - told[what, "changed"]
        return told

    def some(self, things: list[T], count: int) -> list[T]:
        """Returns some of the things that no change has touched."""
        chosen = self.chance.sample([thing for thing in things if id(thing) not in self.touched], count)
        self.touched.update(map(id, chosen))
        return chosen

    def chains(self, count: int) -> Iterator[Chain]:
        """Streets that no change has touched yet. Each polygon beside them has enough other chains."""
        sides = Counter(side for chain in self.county.chains for side in (chain.left, chain.right))
        free = [chain for chain in self.county.chains if chain.fields["CFCC"] == "A41" and id(chain) not in self.touched]
        shuffled = iter(self.chance.sample(free, len(free)))
        for _ in range(count):
            chain = next(chain for chain in shuffled if sides[chain.left] > 3 and sides[chain.right] > 3)
            sides.subtract((chain.left, chain.right))
            self.touched.add(id(chain))
            yield chain

    def landmarks(self, count: int) -> list[Landmark]:
        return self.some([landmark for landmark in self.county.landmarks if landmark.point], count)

    def change_field(self, count: int, name: str, value: str) -> None:
        """Sets a field of one side, which may be in its partner's columns in the canonical text."""
        partner = next(column.partner or name for column in CHAIN.columns if column.name == name)
        for chain in self.chains(count):
            chain.fields[name] = value
            self.tell("changed", chain, partner if is_turned(chain) else name)

    def add_name(self, name: str) -> int:
        """Returns a name that only the second map has."""
        self.county.names.append({"FILE": FILE, "FENAME": name})
        self.names.append(("only in the second", name))
        return len(self.county.names) - 1


def is_turned(chain: Chain) -> bool:
    """Returns whether a chain runs the other way in the canonical text."""
    return chain.points > chain.points[::-1]


def place_of(thing: Landmark | Polygon) -> Point:
    assert thing.point
    return thing.point


def split_maps(folder: Path, chains: int, seed: int) -> tuple[Point, Path, Path]:
    """Returns a county where the start of a chain gets another node, so that nothing differs but a tie: its place, and both
    maps in files."""
    changing = Changing(made_county(chains, seed), seed)
    nodes = Counter(node for chain in changing.county.chains for node in (chain.start, chain.end))
    (chain,) = changing.chains(1)
    assert nodes[chain.start] > 1
    chain.start = 10**7
    return chain.points[0], *changing.files(folder)


def much_changed(county: County, seed: int) -> Changing:
    """Returns the county changed in every way, at some hundred places."""
    changing = Changing(county, seed)
    change_chains(changing)
    add_courts(changing)
    change_polygons(changing)
    change_landmarks(changing)
    changing.add_name("Unused Name")
    return changing


def change_chains(changing: Changing) -> None:
    """Makes chains between other polygons, chains that are gone or end elsewhere, and other fields, names and ranges."""
    for chain in changing.chains(5):
        others = {*range(len(changing.county.polygons))} - {chain.left, chain.right}
        chain.left = changing.chance.choice(sorted(others))
        changing.tell("changed", chain, "right polygon" if is_turned(chain) else "left polygon")
    for chain in changing.chains(15):
        changing.tell("only in the first", chain)
        changing.county.chains.remove(chain)
    for chain in changing.chains(20):
        changing.tell("only in the first", chain)
        longitude, latitude = chain.points[-1]
        chain.points[-1] = (longitude + 131, latitude - 57)
        changing.tell("only in the second", chain)
    for count, name, value in ((25, "FENAME", "Changed"), (6, "ZIPL", "36111"), (4, "BLOCKR", "9876")):
        changing.change_field(count, name, value)
    further = changing.add_name("Chang\xe9d Name")
    for chain in changing.chains(4):
        chain.names.append(further)
        changing.tell("changed", chain, f"further name {len(chain.names)}")
    fields = {"FRADDL": "9001", "TOADDL": "9099", "FRADDR": "9002", "TOADDR": "9100", "ZIPL": "36999", "ZIPR": "36999"}
    for chain in changing.chains(3):
        chain.ranges.append(fields)
        number = len(chain.ranges)
        changing.tell("changed", chain, f"range {number}", *(f"{name} of range {number}" for name in fields))


def add_courts(changing: Changing) -> None:
    """Streets that end within a polygon, on both sides of them."""
    for chain in changing.chains(2):
        begin, inside = chain.points[0], place_of(changing.county.polygons[chain.left or 0])
        points = [begin, (begin[0] + (inside[0] - begin[0]) // 3 + 7, begin[1] + (inside[1] - begin[1]) // 3 + 9)]
        fields = {"SOURCE": "L", "FENAME": changing.chance.choice(("Quail", "Heron", "Wren")), "FETYPE": "Ct", "CFCC": "A41"}
        end = 10**6 + len(changing.county.chains)
        court = Chain(fields, points, chain.start, end, chain.left, chain.left, topology=dict(chain.topology))
        changing.county.chains.append(court)
        changing.touched.add(id(court))
        changing.tell("only in the second", court)


def change_polygons(changing: Changing) -> None:
    for polygon in changing.some(changing.county.polygons, 3):
        polygon.fields["WATER"] = "" if polygon.fields["WATER"] else "1"
        changing.tell("changed", polygon, "WATER")
    for polygon in changing.some(changing.county.polygons, 2):
        changing.tell("changed", polygon, "POLYLONG, POLYLAT")
        longitude, latitude = place_of(polygon)
        polygon.point = (longitude + 11, latitude + 13)


def change_landmarks(changing: Changing) -> None:
    for landmark in changing.landmarks(4):
        landmark.fields["LANAME"] = landmark.fields["LANAME"][:24] + " Annex"
        changing.tell("changed", landmark, "LANAME")
    for landmark in changing.landmarks(2):
        changing.tell("only in the first", landmark)
        changing.county.landmarks.remove(landmark)
    for number in range(3):
        fields = {"FILE": FILE, "SOURCE": "L", "CFCC": "D57", "LANAME": f"Air Field {number}"}
        landmark = Landmark(fields, (-86_470_001 - 977 * number, 32_461_003 + 613 * number))
        changing.county.landmarks.append(landmark)
        changing.tell("only in the second", landmark)
