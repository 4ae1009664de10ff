"""The chains of a county as a table: with their fields, their numbers in the file and in the canonical text, and their points."""

from __future__ import annotations

import argparse
import csv
import io
import json
import os
from dataclasses import dataclass
from typing import Any, Iterator, NamedTuple, Optional

from .diff.columns import CHAIN, NAME
from .diff.fields import decimal, name_text

from .diff.matching import own_numbers
from .diff.reading import Chain, each_point, number_of, read_county
from .diff.sets import found, opened, printed
from .errors import printable
from .judge import County
from .layout import Name
from .program import find_program
from .progress import Console, print_bytes
from .resources import STANDARD_OUTPUT, Kept, Resources, Writable, new_files

FIELDS = [column.name for column in CHAIN.columns]
HEADS = ["TLID", "canonical_TLID", *FIELDS, "further_names", "start_node", "end_node", "left_polygon", "right_polygon"]


@dataclass(frozen=True)
class ChainRow:
    """A chain as its file has it: its TLID, that in the canonical text of the county, its fields without blanks around them, and its
    points in degrees, longitude first, as the file spells them with six places. A node or a polygon that isn't there is empty."""

    tlid: int
    canonical_tlid: Optional[int]
    fields: dict[str, str]
    further_names: tuple[str, ...]
    nodes: tuple[str, str]
    polygons: tuple[str, str]
    points: tuple[tuple[str, str], ...]

    @property
    def values(self) -> list[Any]:
        """What a table has of it, in the order of HEADS."""
        names = "; ".join(self.further_names)
        return [self.tlid, self.canonical_tlid, *self.fields.values(), names, *self.nodes, *self.polygons]

    @property
    def wkt(self) -> str:
        return f"LINESTRING ({', '.join(' '.join(point) for point in self.points)})"


class Text(io.TextIOBase):
    """UTF-8 for something that takes bytes."""

    def __init__(self, target: Writable) -> None:
        self.target = target

    def write(self, text: str) -> int:
        self.target.write(text.encode())
        return len(text)


class Table(NamedTuple):
    """The chains of a county, and notes about its files."""

    rows: Iterator[ChainRow]
    notes: list[str]


def table_of(name: str, county: County, program: str, resources: Resources) -> Table:
    """Returns the chains of a county, in the order of its file."""
    with resources.part() as part:
        source, notes = opened(name, county, part)
        (own,), (canonical,) = (printed(program, job, (), [source], part) for job in ("respell", "normalise"))
    return Table(rows_of(own, canonical), notes)


def chains(county: Name, *, program: Optional[Name] = None) -> Iterator[ChainRow]:
    """Yields the chains of a county, in the order of its file: a zip, a file with all records, or the stem of the nine. Raises Failure."""
    name = os.fspath(county)
    with Resources() as resources:
        yield from table_of(name, found(name, False), find_program(program), resources).rows


def rows_of(own: bytes, canonical: bytes) -> Iterator[ChainRow]:
    """Yields the chains of respelled records, with their numbers in the canonical text."""
    county, other = read_county(own), read_county(canonical)
    chains = {chain.key for chain in other.chains}
    numbers = {number: number_of(key) for key, number in own_numbers(county, other).items() if key in chains}
    for chain in county.chains:
        names = tuple(name_text(NAME, body) for body in county.name_bodies(chain))
        left, right = ("".join(side.split()) if side[5:].strip() else "" for side in chain.sides)
        start, end = (node.strip() for node in chain.nodes)
        fields = dict(zip(FIELDS, map(str.strip, CHAIN.values(chain.body))))
        tlid = number_of(chain.key)
        yield ChainRow(tlid, numbers.get(tlid), fields, names, (start, end), (left, right), degrees_of(chain))


def degrees_of(chain: Chain) -> tuple[tuple[str, str], ...]:
    return tuple((decimal(point[:10]), decimal(point[10:])) for point in each_point(chain.points))


def write_csv(target: Writable, rows: Iterator[ChainRow]) -> None:
    """Writes a line for each chain, with its points as WKT in the last column."""
    writer = csv.writer(Text(target), lineterminator="\n")
    writer.writerow([*HEADS, "WKT"])
    for row in rows:
        writer.writerow([*row.values, row.wkt])


def write_geojson(target: Writable, rows: Iterator[ChainRow]) -> None:
    """Writes a feature for each chain."""
    target.write(b'{"type":"FeatureCollection","features":[')
    for number, row in enumerate(rows):
        line = ",".join(f"[{east},{north}]" for east, north in row.points)
        properties = json.dumps(dict(zip(HEADS, row.values)), ensure_ascii=False)
        shape = f'{{"type":"LineString","coordinates":[{line}]}}'
        target.write(f'{"," if number else ""}\n{{"type":"Feature","geometry":{shape},"properties":{properties}}}'.encode())
    target.write(b"\n]}\n")


def run(options: argparse.Namespace, console: Console, resources: Resources) -> int:
    """Runs the command table."""
    write = write_geojson if options.geojson else write_csv
    outputs = [options.output] if options.output and options.output not in STANDARD_OUTPUT else []
    county, program = found(options.county, False), find_program(options.program)
    inputs, kept = resources.inputs([*(file.place for file in county.places), program]), Kept()
    with new_files(outputs, inputs, resources, options.force) as files:
        table = table_of(options.county, county, program, resources)
        if table.notes:
            console.report(f"{printable(options.county)}: {'; '.join(table.notes)}")
        targets: list[Writable] = [*files.values(), kept]
        write(targets[0], table.rows)
    print_bytes(b"".join(kept.pieces))
    return 0
