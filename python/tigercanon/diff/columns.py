"""The columns of the records, as docs/format.md has them: those with the content of the map.

Numbers that differ from file to file (TLID, RTSQ, FEAT, LAND, POLYID and those of nodes), the version and fillers aren't among them.
"""

from dataclasses import dataclass, replace
from functools import cached_property
from itertools import accumulate

from ..layout import LENGTHS as LENGTHS


@dataclass(frozen=True)
class Column:
    """A field of a record. Its partner, for a chain, holds the same thing when the chain is read from its other end."""

    name: str
    first: int
    last: int
    holds: str
    partner: str = ""

    @property
    def width(self) -> int:
        return self.last - self.first + 1


@dataclass(frozen=True, eq=False)
class Layout:
    """The columns of a record type: FILE, if it has that, and then those side by side. Joined they are a record's content."""

    record_type: str
    file: tuple[Column, ...]
    rest: tuple[Column, ...]

    @cached_property
    def columns(self) -> tuple[Column, ...]:
        return self.file + self.rest

    @cached_property
    def places(self) -> dict[str, slice]:
        """Where each field is in the content."""
        ends = accumulate(column.width for column in self.columns)
        return {column.name: slice(end - column.width, end) for column, end in zip(self.columns, ends)}

    def content(self, line: str) -> str:
        rest = line[self.rest[0].first - 1 : self.rest[-1].last]
        return line[5:10] + rest if self.file else rest

    def value(self, content: str, name: str) -> str:
        return content[self.places[name]]

    def values(self, content: str) -> list[str]:
        return [content[place] for place in self.places.values()]

    def blanked(self, content: str, name: str) -> str:
        return "".join(" " * len(value) if field == name else value for field, value in zip(self.places, self.values(content)))

    def turned(self, content: str) -> str:
        """Returns the content, read from the chain's other end."""
        return "".join(self.value(content, column.partner or column.name) for column in self.columns)


def on_both_sides(name: str, first: int, width: int, holds: str) -> tuple[Column, Column]:
    """Returns a field for the left side, and the same field for the right side, which follows it."""
    middle = first + width
    left = Column(f"{name}L", first, middle - 1, f"{holds} on the left", f"{name}R")
    return left, Column(f"{name}R", middle, middle + width - 1, f"{holds} on the right", f"{name}L")


def moved(columns: tuple[Column, ...], by: int) -> tuple[Column, ...]:
    """Returns the same fields, `by` columns further to the right."""
    return tuple(replace(column, first=column.first + by, last=column.last + by) for column in columns)


FILE = (Column("FILE", 6, 10, "state and county"),)

FEATURE_NAME = (
    Column("FEDIRP", 18, 19, "direction before the name"),
    Column("FENAME", 20, 49, "name"),
    Column("FETYPE", 50, 53, "type after the name"),
    Column("FEDIRS", 54, 55, "direction after the name"),
)

ADDRESSES = (
    Column("FRADDL", 59, 69, "first address on the left", "TOADDR"),
    Column("TOADDL", 70, 80, "last address on the left", "FRADDR"),
    Column("FRADDR", 81, 91, "first address on the right", "TOADDL"),
    Column("TOADDR", 92, 102, "last address on the right", "FRADDL"),
    Column("FRIADDL", 103, 103, "mark of the first left address as imputed", "TOIADDR"),
    Column("TOIADDL", 104, 104, "mark of the last left address as imputed", "FRIADDR"),
    Column("FRIADDR", 105, 105, "mark of the first right address as imputed", "TOIADDL"),
    Column("TOIADDR", 106, 106, "mark of the last right address as imputed", "FRIADDL"),
    *on_both_sides("ZIP", 107, 5, "postal code"),
)

OF_CHAIN = (
    Column("SIDE1", 16, 16, "mark of a chain with one side alone"),
    Column("SOURCE", 17, 17, "where the chain comes from"),
    *FEATURE_NAME,
    Column("CFCC", 56, 58, "class of the feature"),
    *ADDRESSES,
    *on_both_sides("AIANHHFP", 117, 5, "American Indian, Alaska Native or Hawaiian home land"),
    *on_both_sides("AIHHTLI", 127, 1, "kind of home land"),
    Column("CENSUS1", 129, 129, "the Bureau's own use"),
    Column("CENSUS2", 130, 130, "the Bureau's own use"),
    *on_both_sides("STATE", 131, 2, "state"),
    *on_both_sides("COUNTY", 135, 3, "county"),
    *on_both_sides("COUSUB", 141, 5, "county subdivision"),
    *on_both_sides("SUBMCD", 151, 5, "subbarrio"),
    *on_both_sides("PLACE", 161, 5, "place"),
    *on_both_sides("TRACT", 171, 6, "census tract"),
    *on_both_sides("BLOCK", 183, 4, "census block"),
)
OF_LANDMARK = (
    Column("SOURCE", 21, 21, "where it comes from"),
    Column("CFCC", 22, 24, "class of the feature"),
    Column("LANAME", 25, 54, "name"),
    Column("LALONG, LALAT", 55, 73, "where it lies, for a landmark that is a point"),
)
OF_TOPOLOGY = (
    Column("SOURCE", 71, 80, "where the topology comes from"),
    Column("FTSEG", 81, 97, "segment of the feature"),
    *(Column(f"RS_I{number}", 88 + 10 * number, 97 + 10 * number, "reserved") for number in (1, 2, 3)),
)

CHAIN = Layout("1", (), OF_CHAIN)
NAME = Layout("5", FILE, moved(FEATURE_NAME, 1))
RANGE = Layout("6", (), moved(ADDRESSES, -40))
LANDMARK = Layout("7", FILE, OF_LANDMARK)
TOPOLOGY = Layout("I", FILE, OF_TOPOLOGY)
POLYGON = Layout("P", FILE, (Column("POLYLONG, POLYLAT", 26, 44, "a point inside it"), Column("WATER", 45, 45, "mark of water")))
