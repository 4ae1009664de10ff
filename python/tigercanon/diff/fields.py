"""The fields of a chain, a landmark or a polygon, by name and in words, and the fields that differ between two of them."""

from __future__ import annotations

from collections import defaultdict, deque
from functools import lru_cache
from typing import Callable, Hashable, Iterable, NamedTuple, Sequence, TypeVar

from .columns import CHAIN, LANDMARK, NAME, POLYGON, RANGE, TOPOLOGY, Layout
from .reading import NO_POINT, POINT_WIDTH, Chain, County, Landmark, Polygon, PolygonKey
from .wording import BLANK as BLANK
from .wording import FIELDS, NO, PHRASES
from .wording import NONE as NONE
from .wording import YES as YES

T = TypeVar("T")
Pair = tuple[T, T]


class FieldName(NamedTuple):
    """A field's label, what it holds, and which kind of value that is: a text, a point, or whether something is there."""

    label: str
    holds: str
    kind: str = "text"


def named(name: str, of: object = "", on: str = "", kind: str = "text") -> FieldName:
    """Returns the name of a field that isn't a column: of the number or side that it is of, on a side."""
    label, holds = FIELDS[name]
    return FieldName(label.format(of), holds.format(on), kind)


class Text(NamedTuple):
    """The value of a field: in words, byte for byte, and as it is compared. In words a blank field is empty."""

    plain: str
    exact: str
    mark: str


NOTHING = Text("", "", "")  # a field that isn't there
# The field of something that has nothing to compare: a node, for example, has only a number, which differs from file to file.
THERE = Text(YES, YES, YES)
Fields = dict[FieldName, Text]


class Row(NamedTuple):
    """One field of what two maps have in common, or of what one map has alone: then the other's text is None. The exact
    texts are as the records have them."""

    name: FieldName
    first: str | None
    second: str | None
    differs: bool
    first_exact: str
    second_exact: str


class Teller(NamedTuple):
    """Makes the fields of the things in one map. Polygons of two maps that are taken for one have one mark, even where they differ."""

    county: County
    marks: dict[PolygonKey, str]

    def chain(self, chain: Chain) -> Fields:
        fields = text_fields(CHAIN, chain.body)
        for place, body in enumerate(self.county.name_bodies(chain), 1):
            fields[named("further name", place)] = Text(name_text(NAME, body) or BLANK, body, body)
        for place, content in enumerate(chain.ranges, 1):
            fields[named("range", place, kind="flag")] = THERE
            fields.update(text_fields(RANGE, content, PHRASES["of range"].format(place)))
        for end, node in zip(("start", "end"), chain.nodes):
            fields[named("node", end, end, "flag")] = NOTHING if node.isspace() else THERE
        for hand, side in zip(("left", "right"), chain.sides):
            fields[named("side's office", hand[0].upper(), hand)] = text_of(side[:5])
            if not side[5:].isspace():
                fields[named("side", hand, hand)] = self.polygon_text(side)
        fields.update(text_fields(TOPOLOGY, chain.topology_body, " of type I"))
        return fields

    def polygon_text(self, key: PolygonKey) -> Text:
        """Returns a polygon, as something else names it."""
        polygon = self.county.polygons[key]
        return Text(polygon_words(polygon.body), polygon.content, self.marks[key])

    def place_texts(self, landmark: Landmark | None) -> list[Text]:
        """Returns polygons, as a landmark's records of type 8 name them."""
        named = [(file, key[:5].strip(), self.polygon_text(key)) for file, key in (landmark.places if landmark else ())]
        return [Text(f"{text.plain} ({cenid})", file + text.exact, f"{file}|{text.mark}") for file, cenid, text in named]


def text_fields(layout: Layout, content: str, suffix: str = "") -> Fields:
    return {name: text_of(value, name.kind) for name, value in zip(field_names(layout, suffix), layout.values(content))}


def text_of(value: str, kind: str = "text") -> Text:
    plain = "" if value.isspace() else degrees(value) if kind == "point" else value.strip()
    return Text(plain, value, value)


@lru_cache(maxsize=None)
def field_names(layout: Layout, suffix: str) -> list[FieldName]:
    """Returns the names of a record's fields. A field with two names is a point: a longitude of 10 columns and a latitude of 9."""
    return [FieldName(each.name + suffix, each.holds, "point" if ", " in each.name else "text") for each in layout.columns]


def polygon_fields(polygon: Polygon) -> Fields:
    record = THERE if polygon.body else NOTHING
    told = {named("office"): text_of(polygon.cenid), named("record of type P", kind="flag"): record}
    return {**told, **text_fields(POLYGON, polygon.body)} if polygon.body else told


def landmark_fields(bodies: Sequence[str], places: Sequence[Text]) -> Fields:
    """Returns the fields of a landmark with these records of type 7, in these polygons."""
    fields: Fields = {}
    for number, body in enumerate(bodies, 1):
        if number > 1:
            fields[named("record of type 7", number, kind="flag")] = THERE
        fields.update(text_fields(LANDMARK, body, PHRASES["of record"].format(number) if number > 1 else ""))
    for number, place in enumerate(places, 1):
        fields[named("area", number)] = place
    return fields


def landmark_rows(first: Teller, second: Teller, one: Landmark | None, other: Landmark | None) -> list[Row]:
    """Returns the fields of a landmark of both maps, or of one of them. In repeated fields, what both have comes first."""
    bodies = aligned(one.bodies if one else [], other.bodies if other else [], lambda body: body)
    places = aligned(first.place_texts(one), second.place_texts(other), lambda text: text.mark)
    return rows(landmark_fields(bodies[0], places[0]) if one else None, landmark_fields(bodies[1], places[1]) if other else None)


def aligned(first: Sequence[T], second: Sequence[T], mark: Callable[[T], str]) -> Pair[list[T]]:
    """Returns both lists with their common items at the beginning, in one order."""
    pairs, ones, others = pair_by(first, second, mark)
    pairs.sort(key=lambda pair: mark(pair[0]))
    return [one for one, _ in pairs] + ones, [other for _, other in pairs] + others


def pair_by(first: Iterable[T], second: Iterable[T], key: Callable[[T], Hashable | None]) -> tuple[list[Pair[T]], list[T], list[T]]:
    """Pairs what has one key, as multisets, and returns the rest of both. Items without a key aren't paired."""
    pairs, ones, others = [], [], dict(enumerate(second))
    places: dict[Hashable, deque[int]] = defaultdict(deque)
    for place, item in others.items():
        places[key(item)].append(place)
    places.pop(None, None)
    for item in first:
        waiting = places.get(key(item))
        if waiting:
            pairs.append((item, others.pop(waiting.popleft())))
        else:
            ones.append(item)
    return pairs, ones, list(others.values())


def rows(first: Fields | None, second: Fields | None) -> list[Row]:
    """Returns the fields of what both maps have or one of them alone, in the order of the first, without those that are blank in both."""
    table, ones, others = [], first or {}, second or {}
    for name in {**ones, **others}:
        one, other = ones.get(name, NOTHING), others.get(name, NOTHING)
        if one.plain or other.plain:
            if first is None or second is None:
                told = (None if first is None else one.plain, None if second is None else other.plain, False)
            else:
                # A field that isn't there says as little as a blank one.
                differs = (one.plain and one.mark) != (other.plain and other.mark)
                told = (shown(name, one, other), shown(name, other, one), differs)
            table.append(Row(name, *told, one.exact, other.exact))
    return table


def shown(name: FieldName, text: Text, other: Text) -> str:
    """Returns a field in words. If it differs from the other map's and would read the same, it is shown byte for byte."""
    if name.kind == "flag":
        return YES if text.plain else NO
    if not text.exact:
        return NONE
    return f'"{text.exact}"' if text.plain == other.plain and text.exact != other.exact else text.plain or BLANK


def polygon_words(body: str) -> str:
    """Returns a polygon by its record of type P: where it lies."""
    if not body:
        return PHRASES["without a record"]
    point = POLYGON.value(body, "POLYLONG, POLYLAT")
    return PHRASES["without a point"] if point == NO_POINT else PHRASES["place"].format(degrees(point))


def name_text(layout: Layout, content: str) -> str:
    """Returns the feature name in a record of type 1 or 5: the direction before it, the name, its type and the direction after it."""
    parts = (layout.value(content, part).strip() for part in ("FEDIRP", "FENAME", "FETYPE", "FEDIRS"))
    return " ".join(filter(None, parts))


def chain_title(chain: Chain) -> str:
    return titled(name_text(CHAIN, chain.body) or PHRASES["unnamed chain"], CHAIN.value(chain.body, "CFCC"))


def landmark_title(landmark: Landmark) -> str:
    body = landmark.bodies[0]
    return titled(LANDMARK.value(body, "LANAME").strip() or PHRASES["unnamed landmark"], LANDMARK.value(body, "CFCC"))


def titled(name: str, cfcc: str) -> str:
    return f"{name} ({cfcc.strip()})" if cfcc.strip() else name


def landmark_points(landmark: Landmark, county: County) -> list[str]:
    """Returns where a landmark lies: its own points, or else the internal points of its polygons."""
    own = {LANDMARK.value(body, "LALONG, LALAT") for body in landmark.bodies}
    of_polygons = {county.polygons[key].point for _, key in landmark.places}
    return sorted(own - {NO_POINT}) or sorted(of_polygons - {NO_POINT})


def degrees(point: str) -> str:
    """Returns a point as maps print it."""
    longitude, latitude = decimal(point[:10]), decimal(point[10:POINT_WIDTH])
    north, east = "S" if latitude[0] == "-" else "N", "W" if longitude[0] == "-" else "E"
    return f"{latitude.lstrip('-')}° {north}, {longitude.lstrip('-')}° {east}"


def decimal(coordinate: str) -> str:
    """Returns a coordinate in millionths of a degree as a number of degrees with six places, as GeoJSON has it."""
    return f"{'-' if coordinate[0] == '-' else ''}{int(coordinate[1:-6])}.{coordinate[-6:]}"
