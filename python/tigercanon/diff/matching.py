"""Finds what two maps have in common and what differs.

Each map has other numbers, so numbers are never compared. What they join comes after the rest.

A canonical text has new numbers. The same set, respelled by the program, keeps its own. Both describe the same map, so they
are matched as two maps are. Things that nothing tells apart may have their numbers exchanged.
"""

from __future__ import annotations

from collections import defaultdict
from dataclasses import dataclass, field, replace
from functools import cached_property, partial
from itertools import product
from typing import Any, Callable, Generic, Hashable, Iterable, Iterator, NamedTuple, Optional, Sequence, TypeVar, Union

from .columns import CHAIN, LANDMARK, RANGE
from .fields import Pair, Teller, pair_by, rows
from .reading import NO_POINT, POINT_WIDTH, Chain, County, Landmark, Name, Polygon
from .reading import comes_after_its_reverse, each_point, number_of, reversed_points

T = TypeVar("T")


@dataclass
class Matched(Generic[T]):
    """What is only in the first map, only in the second, changed, and alike."""

    first: list[T] = field(default_factory=list)
    second: list[T] = field(default_factory=list)
    changed: list[Pair[T]] = field(default_factory=list)
    alike: list[Pair[T]] = field(default_factory=list)

    @property
    def counts(self) -> tuple[int, int, int, int]:
        return len(self.first), len(self.second), len(self.changed), len(self.alike)

    @property
    def is_alike(self) -> bool:
        return not any(self.counts[:3])

    def pair(self, found: list[Pair[T]], *keys: Callable[[T], Optional[Hashable]]) -> None:
        """Pairs a thing of each map if both maps have exactly one under a key. Tries one kind of key after another."""
        for key in keys:
            pairs, self.first, self.second = pair_by(self.first, self.second, key)
            found += pairs


class Tie(NamedTuple):
    """A number that is one in one of the maps and several in the other, though the content that it numbers is the same in both:
    where chains or landmarks have it, in groups by the number that they have in the other map."""

    subject: str
    is_one_in_first: bool
    groups: list[list[Tied]]

    @property
    def points(self) -> list[str]:
        return sorted({at.point for group in self.groups for at in group} - {NO_POINT})


@dataclass
class Comparison:
    """Where two maps differ. Certain are the pairs of chains whose points no other chain has."""

    first: Teller
    second: Teller
    certain: list[Pair[Chain]]
    chains: Matched[Chain]
    landmarks: Matched[Landmark]
    polygons: Matched[Polygon]
    names: Matched[Name]
    own: Sequence[OwnNumbers] = ()  # the numbers in the user's files, of both maps

    @cached_property
    def ties(self) -> list[Tie]:
        """The nodes, polygons and names that are one in one map and several in the other. Chains and landmarks that nothing else tells
        apart are paired at will, so they count only if nothing else differs."""
        ties = ties_among(at for pair in self.certain for at in ties_of(*pair, self.first, self.second))
        if ties or not self.is_alike:
            return ties
        of_chains = (at for pair in self.chains.alike for at in ties_of(*pair, self.first, self.second))
        return ties_among([*of_chains, *(at for pair in self.landmarks.alike for at in areas_of(*pair, self.first, self.second))])

    @property
    def parts(self) -> Sequence[Matched[Any]]:
        return self.chains, self.landmarks, self.polygons, self.names

    @property
    def is_alike(self) -> bool:
        """Whether nothing differs, except how things are joined."""
        return all(part.is_alike for part in self.parts)


def compare(first: County, second: County) -> Comparison:
    by_points: dict[str, Pair[list[Chain]]] = defaultdict(lambda: ([], []))
    for place, county in enumerate((first, second)):
        for chain in county.chains:
            by_points[chain.points][place].append(chain)
    groups = list(by_points.values())
    certain = [(ones[0], others[0]) for ones, others in groups if len(ones) == len(others) == 1 and not is_own_reverse(ones[0])]
    polygons = match_polygons(first, second, certain)
    # A mark of each map's polygons: their content, or, if they changed, one mark for both maps.
    marks, others = ({polygon.key: polygon.content for polygon in alone} for alone in (polygons.first, polygons.second))
    for one, other in polygons.alike:
        marks[one.key] = others[other.key] = one.content
    for number, (one, other) in enumerate(polygons.changed):
        marks[one.key] = others[other.key] = f"changed {number}"
    tellers = Teller(first, marks), Teller(second, others)
    names = Matched([*first.names.values()], [*second.names.values()])
    names.pair(names.alike, lambda name: name.body)
    return Comparison(*tellers, certain, match_chains(groups, *tellers), match_landmarks(*tellers), polygons, names)


def match_chains(groups: list[Pair[list[Chain]]], first: Teller, second: Teller) -> Matched[Chain]:
    """Matches chains by their points, and chains of the same points by their fields."""
    matched: Matched[Chain] = Matched()
    for ones, others in groups:
        if len(ones) == len(others) == 1 and says(ones[0], first) == says(others[0], second):
            matched.alike.append((ones[0], others[0]))
        elif ones and others:
            match_group(ones, others, first, second, matched)
        else:
            matched.first += ones
            matched.second += others
    return matched


def match_group(ones: list[Chain], others: list[Chain], first: Teller, second: Teller, matched: Matched[Chain]) -> None:
    """Matches chains of the same points as a multiset: those with the same content, and then those that differ the least.
    A chain that is its own reverse may be read from either end."""
    may_be_turned = is_own_reverse(ones[0])
    if may_be_turned:
        ones = [lesser_turn(chain, first) for chain in ones]
        others = [lesser_turn(chain, second) for chain in others]
    said = {chain: says(chain, teller) for chains, teller in ((ones, first), (others, second)) for chain in chains}
    alike, ones, others = pair_by(ones, others, said.get)
    matched.alike += alike
    while ones and others:
        seen = [each for other in others for each in ([other, turned(other)] if may_be_turned else [other])]
        pairs = product(ones, seen)
        one, other = min(pairs, key=lambda pair: sum(row.differs for row in rows(first.chain(pair[0]), second.chain(pair[1]))))
        matched.changed.append((one, other))
        ones = [chain for chain in ones if chain is not one]
        others = [chain for chain in others if chain.key != other.key]
    matched.first += ones
    matched.second += others


def says(chain: Chain, teller: Teller) -> str:
    """Returns the content of a chain without its points and numbers, as one text."""
    left, right = chain.sides
    sides = left[:5], right[:5], teller.marks.get(left, "-"), teller.marks.get(right, "-")
    nodes = ",".join("no" if node.isspace() else "yes" for node in chain.nodes)
    names = "|".join(teller.county.name_bodies(chain)) if chain.feats else ""
    return "\n".join((chain.body, chain.topology_body, *sides, nodes, names, "|".join(chain.ranges)))


def is_own_reverse(chain: Chain) -> bool:
    return chain.points[:POINT_WIDTH] == chain.points[-POINT_WIDTH:] and chain.points == reversed_points(chain.points)


def turned(chain: Chain) -> Chain:
    body, points, ranges = CHAIN.turned(chain.body), reversed_points(chain.points), tuple(map(RANGE.turned, chain.ranges))
    return replace(chain, body=body, points=points, ranges=ranges, nodes=chain.nodes[::-1], sides=chain.sides[::-1])


def lesser_turn(chain: Chain, teller: Teller) -> Chain:
    """Returns the end to read a chain from, if it is its own reverse: the one with the lesser content."""
    return min(chain, turned(chain), key=lambda seen: says(seen, teller))


def match_polygons(first: County, second: County, certain: list[Pair[Chain]]) -> Matched[Polygon]:
    """Matches polygons by their content, the others by their point, and then by the sides of chains."""
    # Of each polygon the first side, among the chains that both maps have, on which it lies.
    sides: dict[Polygon, tuple[int, str]] = {}
    for place, pair in enumerate(certain):
        for county, chain in zip((first, second), pair):
            for hand, side in zip(("left", "right"), chain.sides):
                if side in county.polygons:
                    sides.setdefault(county.polygons[side], (place, hand))
    matched = Matched([*first.polygons.values()], [*second.polygons.values()])
    matched.pair(matched.alike, lambda polygon: (polygon.content, sides.get(polygon)), lambda polygon: polygon.content)
    matched.pair(matched.changed, lambda polygon: polygon.point if polygon.point != NO_POINT else None, sides.get)
    return matched


def match_landmarks(first: Teller, second: Teller) -> Matched[Landmark]:
    """Matches landmarks by their whole content, and the others by their records, points, names and polygons."""
    both = [(landmark, teller) for teller in (first, second) for landmark in teller.county.landmarks]
    bodies = {landmark: tuple(sorted(landmark.bodies)) for landmark, _ in both}
    places = {landmark: tuple(sorted((file, its.marks[key]) for file, key in landmark.places)) or None for landmark, its in both}

    def column(name: str, landmark: Landmark) -> Hashable | None:
        """Returns a column of the landmark's records, or nothing if it is blank in all."""
        values = tuple(sorted(LANDMARK.value(body, name) for body in landmark.bodies))
        return values if any(not value.isspace() for value in values) else None

    matched = Matched(first.county.landmarks, second.county.landmarks)
    matched.pair(matched.alike, lambda landmark: (bodies[landmark], places[landmark]))
    matched.pair(matched.changed, bodies.get, partial(column, "LALONG, LALAT"), partial(column, "LANAME"), places.get)
    return matched


class Tied(NamedTuple):
    """A number of the first map and one of the second that a chain or a landmark of both maps has at one place."""

    subject: str
    first: str
    second: str
    owner: Union[Chain, Landmark]
    place: str

    @property
    def point(self) -> str:
        """The place: an end of the chain, or else its middle; or the landmark's own point, if it has one."""
        if isinstance(self.owner, Landmark):
            return LANDMARK.value(self.owner.bodies[0], "LALONG, LALAT")
        points = each_point(self.owner.points)
        return points[{"start": 0, "end": -1}.get(self.place, len(points) // 2)]


def ties_among(tied: Iterable[Tied]) -> list[Tie]:
    found: dict[tuple[str, bool], dict[str, dict[str, list[Tied]]]] = {
        key: defaultdict(lambda: defaultdict(list)) for key in product(("node", "polygon", "feature name"), (True, False))
    }
    for at in tied:
        found[at.subject, True][at.first][at.second].append(at)
        found[at.subject, False][at.second][at.first].append(at)
    return [Tie(*key, list(groups.values())) for key, ones in found.items() for groups in ones.values() if len(groups) > 1]


def ties_of(chain: Chain, twin: Chain, first: Teller, second: Teller) -> Iterator[Tied]:
    """Yields the nodes at both ends of a chain, the polygons on sides with the same content in both maps, and the further names, if they
    are the same."""
    for place, one, other in zip(("start", "end"), chain.nodes, twin.nodes):
        if not (one.isspace() or other.isspace()):
            yield Tied("node", one, other, chain, place)
    for place, one, other in zip(("left side", "right side"), chain.sides, twin.sides):
        if one in first.marks and first.marks[one] == second.marks.get(other):
            yield Tied("polygon", one, other, chain, place)
    if chain.feats and first.county.name_bodies(chain) == second.county.name_bodies(twin):
        for number, (one, other) in enumerate(zip(chain.feats, twin.feats), 1):
            yield Tied("feature name", one, other, chain, f"further name {number}")


def areas_of(landmark: Landmark, twin: Landmark, first: Teller, second: Teller) -> Iterator[Tied]:
    """Yields the polygons of a landmark, in both maps."""
    ones = [((file, first.marks[key]), key) for file, key in landmark.places]
    others = [((file, second.marks[key]), key) for file, key in twin.places]
    pairs, _, _ = pair_by(ones, others, lambda area: area[0])
    for number, ((_, one), (_, other)) in enumerate(pairs, 1):
        yield Tied("polygon", one, other, landmark, f"polygon {number}")


OwnNumbers = dict[str, int]  # the number in the user's files of each chain, landmark and polygon, by its key in the canonical text


def own_numbers(records: County, canonical: County, masks: Sequence[str] = ()) -> OwnNumbers:
    """Returns the numbers in these records of the things in their canonical text, which was printed with these masks. They are compared
    with chains turned and landmarks masked as there. Chains are matched by their points, so that they need no mask."""
    chains = [turned(each) if comes_after_its_reverse(each.points) else each for each in records.chains]
    landmarks = records.landmarks
    if "--no-sources" in masks:
        landmarks = [replace(each, bodies=[LANDMARK.blanked(body, "SOURCE") for body in each.bodies]) for each in landmarks]
    found = compare(replace(records, chains=chains, landmarks=landmarks), canonical)
    return {other.key: number_of(one.key) for part in found.parts[:3] for one, other in part.alike + part.changed}
