"""Writes where two maps differ as GeoJSON (RFC 7946), so that any GIS shows it."""

from __future__ import annotations

import json
import re
from functools import lru_cache
from typing import Any, Iterator, Sequence

from ..resources import Writable
from .fields import BLANK, NONE, YES, FieldName, decimal
from .matching import Comparison, OwnNumbers, Tie
from .reading import Chain, Landmark, number_of
from .sets import Sets
from .words import KINDS, Thing, things, tie_line, tied_place, verdict

Properties = dict[str, Any]
BothOwn = Sequence[OwnNumbers]
ABOUT = "Where two maps differ, found by tigercanon-tools diff. This list isn't proved."
SIDES = ("first", "second")


def write_geojson(file: Writable, comparison: Comparison, sets: Sets, with_alike: bool) -> None:
    file.write(f'{{"type":"FeatureCollection",{as_json(head(comparison, sets))[1:-1]},"features":['.encode())
    for number, (shape, told) in enumerate(features(comparison, with_alike)):
        file.write(f'{"," if number else ""}\n{{"type":"Feature","geometry":{shape},"properties":{as_json(told)}}}'.encode())
    file.write(b"\n]}\n")


def head(comparison: Comparison, sets: Sets) -> Properties:
    """Returns the part about both maps: the two sets, and the verdict."""
    told: Properties = {"about": ABOUT, "verdict": "same" if sets.are_one_map else "different"}
    for side, one in zip(SIDES, (sets.first, sets.second)):
        told[side] = {"name": one.name, "fingerprint": one.fingerprint}
    if sets.masks:
        told["left_out"] = " ".join(sets.masks)
    if verdict(comparison, sets):
        told["note"] = verdict(comparison, sets)
    return told


def features(comparison: Comparison, with_alike: bool = False) -> Iterator[tuple[str, Properties]]:
    """Yields a geometry in JSON and properties for each thing that isn't alike, or for each one, and for each tie."""
    own = comparison.own
    for thing in things(comparison, with_alike):
        yield geometry(thing.points, is_line=thing.what == "chain"), properties(thing, own)
    for tie in comparison.ties:
        yield geometry(tie.points), tie_properties(tie, own[0])


def properties(thing: Thing, own: BothOwn) -> Properties:
    """Returns the properties of a thing: its numbers in the user's files and in the canonical texts, and its fields in both maps."""
    table, number = thing.rows(), thing.number_field
    told: Properties = {"what": thing.what, "kind": thing.kind, "title": thing.name}
    told["differs"] = "; ".join(row.name.label for row in table if row.differs) or None
    found = [(side, one, numbers) for side, one, numbers in zip(SIDES, (thing.one, thing.other), own) if one is not None]
    if number:
        told.update({f"{side}_{number}": numbers.get(one.key) for side, one, numbers in found})
        told.update({f"canonical_{side}_{number}": number_of(one.key) for side, one, _ in found})
    else:
        told["uses"] = thing.about
    for row in table:
        told.update(values(SIDES[0], row.name, row.first, row.first_exact))
    for row in table:
        told.update(values(SIDES[1], row.name, row.second, row.second_exact))
    return told


def tie_properties(tie: Tie, own: OwnNumbers) -> Properties:
    """Returns what is one in one map and several in the other, at the places where chains or landmarks have it. These have the first set's
    numbers."""
    counts = (1, len(tie.groups)) if tie.is_one_in_first else (len(tie.groups), 1)
    told: Properties = {"what": "tie", "kind": KINDS[2], "title": tie_line(tie).rstrip(":"), "differs": tie.subject}
    told.update({f"{side}_count": count for side, count in zip(SIDES, counts)})
    told["places"] = " | ".join("; ".join(map(tied_place, group)) for group in tie.groups)
    for numbers, kind in (("TLIDs", Chain), ("LANDs", Landmark)):
        listed = [[str(own.get(at.owner.key, "")) for at in group if isinstance(at.owner, kind)] for group in tie.groups]
        if any(listed):
            told[f"first_{numbers}"] = " | ".join(map("; ".join, listed))
    return told


def values(side: str, name: FieldName, shown: str | None, exact: str) -> Properties:
    """Returns a field of one map: a text, true or false, or the two coordinates of a point in degrees, under the names of their columns.
    There is none if the map doesn't have the thing."""
    if shown is None:
        return {}
    if name.kind == "point":
        both, of, suffix = name.label.partition(" of ")
        parts = [float(decimal(part)) if part.strip() else None for part in (exact[:10], exact[10:])]
        return {property_name(side, column + of + suffix): part for column, part in zip(both.split(", "), parts)}
    value = shown == YES if name.kind == "flag" else None if shown in (BLANK, NONE) else shown
    return {property_name(side, name.label): value}


@lru_cache(maxsize=None)
def property_name(side: str, label: str) -> str:
    """Returns a field's name, for readers that allow only letters, digits and underscores."""
    return f"{side}_" + re.sub(r"\W+", "_", label)


def geometry(points: list[str], is_line: bool = False) -> str:
    kind = "LineString" if is_line else "MultiPoint" if len(points) > 1 else "Point"
    positions = ",".join(f"[{decimal(point[:10])},{decimal(point[10:])}]" for point in points)
    return f'{{"type":"{kind}","coordinates":{positions if kind == "Point" else f"[{positions}]"}}}' if points else "null"


as_json = json.JSONEncoder(ensure_ascii=False, separators=(",", ":")).encode
