"""Small counties made at random, with much twice, and small changes of them. What a county says is worked out from these
values alone, so that it can be compared with the findings of diff."""

from __future__ import annotations

import pickle
import random
from collections import Counter
from typing import Any, Callable, Hashable, Optional, TypeVar

from dev.maps import Chain, County, Landmark, Point, Polygon, Values, turned

from tigercanon.diff.columns import CHAIN, LANDMARK, NAME, RANGE, TOPOLOGY, Layout

PLACES: list[Point] = [(-86_000_000 + 10 * place, 32_000_000 + 7 * place * place) for place in range(6)]
OFFICES = ("06001", "06002", "")
FILES = ("01001", "01003")

T = TypeVar("T")
Content = Counter[Hashable]


class Maker:
    """Makes counties, and changes them."""

    def __init__(self, seed: int) -> None:
        self.chance = random.Random(seed)

    def is_so(self, share: float) -> bool:
        return self.chance.random() < share

    def some(self, things: list[T]) -> T:
        return self.chance.choice(things)

    def value(self, name: str = "") -> str:
        return self.some([*FILES] if name == "FILE" else ["", "A", "B"])

    def values(self, layout: Layout, share: float = 0.1) -> Values:
        names = [column.name for column in layout.columns if column.name.isalnum() or "_" in column.name]
        return {name: self.value(name) for name in names if self.is_so(share)}

    def points(self) -> list[Point]:
        """Returns some of few points. Every third list is the same from both ends."""
        points = [self.some(PLACES) for _ in range(self.some([2, 2, 3, 4, 7]))]
        return [*points, *points[-2::-1]] if self.is_so(0.33) else points

    def polygon(self) -> Polygon:
        fields = {name: self.value(name) for name in ("FILE", "WATER")}
        return Polygon(fields, self.some([None, PLACES[0], PLACES[1]]), self.is_so(0.6), self.some([*OFFICES]))

    def chain(self, county: County) -> Chain:
        def below(count: int) -> Optional[int]:
            return self.some([None, *range(count)])

        polygons = len(county.polygons)
        chain = Chain(self.values(CHAIN, 0.05), self.points(), below(4), below(4), below(polygons), below(polygons))
        chain.names = [self.chance.randrange(len(county.names)) for _ in range(self.some([0, 0, 1, 2, 6]) if county.names else 0)]
        chain.ranges = [self.values(RANGE, 0.3) for _ in range(self.some([0, 0, 1, 2, 3]))]
        chain.topology = self.values(TOPOLOGY)
        chain.outside = (self.some([*OFFICES]), self.some([*OFFICES]))
        return chain

    def landmark(self, county: County) -> Landmark:
        landmark = Landmark(self.values(LANDMARK, 0.4), self.some([None, PLACES[0], PLACES[1]]))
        landmark.more = [self.values(LANDMARK, 0.4) for _ in range(self.some([0, 0, 1, 2]))]
        used = sorted({side for chain in county.chains for side in (chain.left, chain.right) if side is not None})
        landmark.polygons = [self.some(used) for _ in range(self.some([0, 1, 2]) if used else 0)]
        landmark.files = [self.some([*FILES]) for _ in landmark.polygons]
        return landmark

    def county(self) -> County:
        """Returns a county whose polygons with a record are all on sides, as in accepted ones."""
        county = County([], [self.values(NAME, 0.4) for _ in range(self.some([0, 2, 3]))], [], [])
        county.polygons = [self.polygon() for _ in range(self.some([1, 2, 3, 4]))]
        county.chains = [self.chain(county) for _ in range(self.some([2, 3, 4, 5]))]
        if self.is_so(0.3):
            county.chains.append(pickle.loads(pickle.dumps(self.some(county.chains))))
        county.landmarks = [self.landmark(county) for _ in range(self.some([0, 1, 2, 3]))]
        return county

    def changed(self, county: County) -> County:
        """Returns a copy with one change, or two. It may say the same."""
        other: County = pickle.loads(pickle.dumps(county))
        for _ in range(self.some([1, 1, 1, 2])):
            self.some(CHANGES)(self, other)
        return other


def change_values(maker: Maker, layout: Layout, values: Values) -> None:
    name = maker.some([column.name for column in layout.columns if ", " not in column.name])
    values[name] = maker.some(["", "A", "B", "C"])


def change_order(maker: Maker, things: list[Any]) -> None:
    maker.chance.shuffle(things)


def change_chain(maker: Maker, county: County) -> None:
    chain = maker.some(county.chains)
    change_values(maker, CHAIN, chain.fields)


def change_topology(maker: Maker, county: County) -> None:
    change_values(maker, TOPOLOGY, maker.some(county.chains).topology)


def move_point(maker: Maker, county: County) -> None:
    points = maker.some(county.chains).points
    points[maker.chance.randrange(len(points))] = maker.some(PLACES)


def turn_points(maker: Maker, county: County) -> None:
    maker.some(county.chains).points.reverse()


def turn_chain(maker: Maker, county: County) -> None:
    """Turns a chain: seen from the other end it says the same."""
    place = maker.chance.randrange(len(county.chains))
    county.chains[place] = turned(county.chains[place])


def remove_chain(maker: Maker, county: County) -> None:
    if len(county.chains) > 1:
        county.chains.remove(maker.some(county.chains))


def double_chain(maker: Maker, county: County) -> None:
    county.chains.append(pickle.loads(pickle.dumps(maker.some(county.chains))))


def change_end(maker: Maker, county: County) -> None:
    setattr(maker.some(county.chains), maker.some(["start", "end"]), maker.some([None, 0, 1, 2, 9]))


def exchange_ends(maker: Maker, county: County) -> None:
    chain = maker.some(county.chains)
    chain.start, chain.end = chain.end, chain.start


def change_side(maker: Maker, county: County) -> None:
    setattr(maker.some(county.chains), maker.some(["left", "right"]), maker.some([None, *range(len(county.polygons))]))


def exchange_sides(maker: Maker, county: County) -> None:
    chain = maker.some(county.chains)
    chain.left, chain.right, chain.outside = chain.right, chain.left, chain.outside[::-1]


def change_office(maker: Maker, county: County) -> None:
    chain = maker.some(county.chains)
    chain.outside = (maker.some([*OFFICES]), maker.some([*OFFICES]))


def change_names(maker: Maker, county: County) -> None:
    names = max((chain.names for chain in maker.chance.choices(county.chains, k=2)), key=len)
    if names and maker.is_so(0.3):
        names.pop(maker.chance.randrange(len(names)))
    elif county.names and maker.is_so(0.5):
        names.insert(maker.chance.randint(0, len(names)), maker.chance.randrange(len(county.names)))
    else:
        change_order(maker, names)


def change_ranges(maker: Maker, county: County) -> None:
    ranges = max((chain.ranges for chain in maker.chance.choices(county.chains, k=2)), key=len)
    if ranges and maker.is_so(0.3):
        change_values(maker, RANGE, maker.some(ranges))
    elif maker.is_so(0.3):
        ranges.insert(maker.chance.randint(0, len(ranges)), maker.values(RANGE, 0.3))
    else:
        change_order(maker, ranges)


def change_name(maker: Maker, county: County) -> None:
    if county.names:
        change_values(maker, NAME, maker.some(county.names))


def add_name(maker: Maker, county: County) -> None:
    county.names.append(maker.values(NAME, 0.4))


def change_polygon(maker: Maker, county: County) -> None:
    polygon = maker.some(county.polygons)
    made = maker.polygon()
    name = maker.some(["fields", "point", "has_record", "cenid", "cenid"])
    setattr(polygon, name, getattr(made, name))


def change_landmark(maker: Maker, county: County) -> None:
    if county.landmarks:
        landmark = maker.some(county.landmarks)
        change_values(maker, LANDMARK, maker.some([landmark.fields, *landmark.more]))


def change_records(maker: Maker, county: County) -> None:
    """Gives a landmark more records, or fewer, or another order, which says the same."""
    if county.landmarks:
        landmark = maker.some(county.landmarks)
        records = [landmark.fields, *landmark.more]
        if len(records) > 1 and maker.is_so(0.5):
            records.pop(maker.chance.randrange(len(records)))
        else:
            records.append(maker.values(LANDMARK, 0.4))
        change_order(maker, records)
        landmark.fields, *landmark.more = records


def move_landmark(maker: Maker, county: County) -> None:
    if county.landmarks:
        maker.some(county.landmarks).point = maker.some([None, *PLACES[:3]])


def change_areas(maker: Maker, county: County) -> None:
    """Changes the polygons of a landmark, and the FILEs of its links to them."""
    if county.landmarks:
        landmark, made = maker.some(county.landmarks), maker.landmark(county)
        if landmark.files and maker.is_so(0.5):
            landmark.files[maker.chance.randrange(len(landmark.files))] = maker.some([*FILES])
        else:
            landmark.polygons, landmark.files = made.polygons, made.files


def change_landmarks(maker: Maker, county: County) -> None:
    if county.landmarks and maker.is_so(0.5):
        county.landmarks.remove(maker.some(county.landmarks))
    else:
        county.landmarks.append(maker.landmark(county))


CHANGES: list[Callable[[Maker, County], None]] = [
    *(change_chain, change_topology, move_point, turn_points, turn_chain, remove_chain, double_chain),
    *(change_end, change_end, exchange_ends, change_side, change_side, exchange_sides, change_office, change_names, change_names),
    *(change_ranges, change_ranges, change_name, add_name, change_polygon, change_polygon),
    *(change_landmark, change_records, move_landmark, change_areas, change_areas, change_landmarks),
]


def said(values: Values) -> Hashable:
    return tuple(sorted((name, value) for name, value in values.items() if value))


class Contents:
    """What a county says, without the numbers that tie it together: its chains, landmarks, polygons and names, each as often as it is
    there. A chain that is turned says the same, and so do records of a landmark in another order."""

    def __init__(self, county: County) -> None:
        self.county = county
        on_sides = {side for chain in county.chains for side in (chain.left, chain.right)}
        polygons = [place for place, polygon in enumerate(county.polygons) if polygon.has_record or place in on_sides]
        self.chains: Content = Counter(map(self.chain, county.chains))
        self.landmarks: Content = Counter(map(self.landmark, county.landmarks))
        self.polygons: Content = Counter(map(self.polygon, polygons))
        self.names: Content = Counter(map(said, county.names))

    @property
    def parts(self) -> list[Content]:
        return [self.chains, self.landmarks, self.polygons, self.names]

    def polygon(self, place: int) -> Hashable:
        polygon = self.county.polygons[place]
        return polygon.cenid, (said(polygon.fields), polygon.point) if polygon.has_record else None

    def side(self, place: Optional[int], outside: Optional[str]) -> Hashable:
        return outside if place is None else self.polygon(place)

    def chain(self, chain: Chain) -> Hashable:
        ways = [self.one_way(chain), self.one_way(turned(chain))]
        return min(ways, key=lambda way: (way[0], repr(way)))

    def one_way(self, chain: Chain) -> tuple[Any, ...]:
        left, right = map(self.side, (chain.left, chain.right), chain.outside)
        names, ranges = [said(self.county.names[name]) for name in chain.names], map(said, chain.ranges)
        ends = chain.start is None, chain.end is None
        return tuple(chain.points), said(chain.fields), said(chain.topology), tuple(names), tuple(ranges), ends, left, right

    def landmark(self, landmark: Landmark) -> Hashable:
        records = sorted(said(values) for values in (landmark.fields, *landmark.more))  # type: ignore[type-var]
        areas = sorted((file, repr(self.polygon(place))) for place, file in zip(landmark.polygons, landmark.files))
        return tuple(records), landmark.point, tuple(areas)
