"""Calls of tigercanon-tools diff, and readers of its reports."""

import json
import re
from pathlib import Path
from typing import Any

from dev.maps import Point
from dev.testing import ROOT
from support import Ended, built_program, call

from .changes import SUBJECTS, Difference

EXAMPLE = ROOT / "examples/two-maps"
KINDS = ("only in the first", "only in the second", "changed")

Feature = dict[str, Any]

WORDS_HEADING = re.compile(rf"(?m)^(chain|landmark|polygon|feature name)s ({'|'.join(KINDS)}): ([\d,]+)$")
DEGREES = re.compile(r"(\d+)\.(\d{6})° ([NS]), (\d+)\.(\d{6})° ([WE])")
SIGNS = {"N": 1, "E": 1, "S": -1, "W": -1}


def diff(*words: object, **options: Any) -> Ended:
    return call("diff", *words, env={"TIGERCANON": built_program()}, **options)


def differing(*words: object, **options: Any) -> str:
    """Returns what diff prints of maps that differ."""
    ended = diff(*words, **options)
    assert (ended.status, ended.err) == (1, "")
    return ended.out


def example_differences() -> set[Difference]:
    """Returns the differences that the second map of the example was made with, without a feature name's."""
    rows = json.loads(Path(__file__).with_name("example.json").read_text())
    return {
        Difference(what, kind, tuple((east, north) for east, north in place), frozenset(fields))
        for what, kind, place, fields in rows
    }


def told_in_words(text: str) -> set[Difference]:
    """Returns the differences in a printed report. It has only the ends of a chain."""
    found = set()
    _, *sections = re.split(WORDS_HEADING, text)
    for what, kind, listed in zip(sections[::4], sections[1::4], sections[3::4]):
        for title, table in re.findall(r"(?m)^ {2}(\S.*)\n?((?: {6}.*\n?)*)", listed):
            found_points = DEGREES.findall(title)
            place = tuple((SIGNS[we] * int(e + more), SIGNS[ns] * int(n + rest)) for n, rest, ns, e, more, we in found_points)
            if place:
                fields = re.findall(r"(?m)^ {6}(\S.*?)(?: {2}|$)", table)
                found.add(Difference(what, kind, place, frozenset(fields)))
    return found


def in_words(difference: Difference) -> Difference:
    """Returns a difference as a printed report has it."""
    place = difference.place
    return difference._replace(place=(place[0], place[-1])) if difference.what == "chain" else difference


def features_in(path: Path) -> list[Feature]:
    features: list[Feature] = json.loads(path.read_text("utf-8"))["features"]
    return features


def told_in_geojson(path: Path) -> set[Difference]:
    """Returns the differences in a GeoJSON file, without feature names and ties."""
    found = set()
    for feature in features_in(path):
        properties, geometry = feature["properties"], feature["geometry"] or {"type": "none", "coordinates": []}
        if properties["what"] in SUBJECTS:
            positions = [geometry["coordinates"]] if geometry["type"] == "Point" else geometry["coordinates"]
            place = tuple(map(micro, positions))
            fields = frozenset((properties["differs"] or "").split("; ")) - {""}
            found.add(Difference(properties["what"], properties["kind"], place, fields))
    return found


def micro(position: list[float]) -> Point:
    """Returns a position as GeoJSON has it, in millionths of a degree."""
    return round(position[0] * 1e6), round(position[1] * 1e6)
