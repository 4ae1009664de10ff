"""Small counties made at random, with much twice and points that leave much open; their spellings; and lines whose field
differs or something is wrong. A random.Random with the same seed makes the same."""

from __future__ import annotations

import copy
import csv
import math
import random
import re
from collections import Counter, defaultdict
from typing import Callable, NamedTuple, Optional, Sequence, TypeVar

from dev import maps
from dev.maps import Chain, County, Landmark, Point, Polygon, Values
from dev.testing import LENGTHS, ROOT, TYPES
from tigercanon.diff.columns import CHAIN, LANDMARK, NAME, RANGE, TOPOLOGY, Column, Layout

T = TypeVar("T")
Chance = random.Random

# How many ways the points of a county may leave to number and direct its chains. vectors/reference tries all of them, and more than 5,040
# are refused.
MOST_CHOICES = [1, 2, 2, 2, 4, 4, 6, 6, 6, 8, 8, 12, 12, 16, 24, 24, 48]
SHARES = [0.0, 0.02, 0.1, 0.3]
INNER_POINTS = [0, 0, 0, 0, 1, 1, 2, 3, 9, 10, 11, 20, 21, 25]
PLACES: list[Point] = [
    *((-86_000_000, 32_000_000), (-86_000_000, 32_000_001), (-85_999_999, 32_000_000), (86_000_000, -32_000_000)),
    *((999_999_999, 99_999_999), (-999_999_999, -99_999_999), (0, 5), (5, 0), (0, -5), (-1, 1), (9, 10), (10, 9)),
]
# What may differ in chains of one shape, and fields that a flag leaves out.
UNLIKE = ["", "", "", "", "start", "start end", "end", "names", "ranges", "fields", "fields", "fields", "left", "left right", "topology", "outside"]
MASKED = ["SOURCE", "CENSUS1", "CENSUS2", "RS_I1", "RS_I2", "RS_I3"]
LETTERS = "A0~\xa0\xe9\xff"
OFFICES = ["06001", "06002", "", "\xe9", "00000"]
FILES = ["01001", "01003", "", "\xff"]
PLACE = "LALONG, LALAT"
WRONG_BYTES = "\0\t\r\x1a\x1f\x7f\x80\x9f"


def choices(chains: Sequence[Chain]) -> int:
    """How many ways the points of chains leave to number and direct them."""
    shapes = Counter(tuple(min(chain.points, chain.points[::-1])) for chain in chains)
    palindromes = sum(count for shape, count in shapes.items() if shape == shape[::-1])
    return math.prod(map(math.factorial, shapes.values())) << palindromes


class Maker:
    """Makes a county. How much is alike in it is chosen first."""

    def __init__(self, chance: Chance) -> None:
        self.chance = chance
        self.share, self.most = chance.choice(SHARES), chance.choice(MOST_CHOICES)
        self.letters, self.files = chance.sample(LETTERS, 2), chance.sample(FILES, chance.choice([1, 2, 2]))
        self.offices = chance.sample(OFFICES, chance.randint(1, 3))
        self.places = chance.sample(PLACES, chance.randint(2, 6))
        self.nodes = chance.randint(1, 8)

    def is_so(self, share: float) -> bool:
        return self.chance.random() < share

    def some(self, things: Sequence[T]) -> T:
        return self.chance.choice(things)

    def below(self, count: int) -> Optional[int]:
        return self.some([None, *range(count)])

    def value(self, column: Column) -> str:
        if column.name == "FILE":
            return self.some(self.files)
        return text(self.some(self.letters), column.width, self.chance)

    def values(self, layout: Layout) -> Values:
        columns = [column for column in layout.columns if column.name != PLACE]
        return {column.name: self.value(column) for column in columns if column.name == "FILE" or self.is_so(self.share)}

    def shape(self) -> list[Point]:
        """From place to place. Some shapes end where they begin, and every fourth is its own reverse."""
        points = [self.some(self.places) for _ in range(self.some(INNER_POINTS) + 2)]
        if self.is_so(0.2):
            points[-1] = points[0]
        return [*points, *points[self.some([-1, -2]) :: -1]] if self.is_so(0.25) else points

    def chain(self, county: County) -> Chain:
        """A chain that may have one node at both ends, or one polygon on both sides."""
        polygons = len(county.polygons)
        start, end, left, right = self.below(self.nodes), self.below(self.nodes), self.below(polygons), self.below(polygons)
        chain = Chain(self.values(CHAIN), self.shape(), start, end, left, right, topology=self.values(TOPOLOGY))
        chain.end = start if self.is_so(0.2) else end
        chain.right = left if self.is_so(0.2) else right
        chain.names = self.chance.choices(range(len(county.names)), k=self.some([0, 0, 1, 2, 5, 6, 7])) if county.names else []
        chain.ranges = [self.values(RANGE) for _ in range(self.some([0, 0, 1, 2, 3]))]
        chain.outside = (self.some(self.offices), self.some(self.offices))
        return chain

    def alike(self, chain: Chain, county: County) -> Chain:
        """A chain of the same shape, seen from either end. All is alike, or all but a field, or but one thing or two of it."""
        made, other = copy.deepcopy(chain), self.chain(county)
        for name in self.some(UNLIKE).split():
            setattr(made, name, getattr(other, name))
        if self.is_so(0.25):
            layout, values = self.some([(CHAIN, made.fields), (TOPOLOGY, made.topology), *((RANGE, values) for values in made.ranges)])
            column = self.some([*layout.columns, *(column for column in layout.columns if column.name in MASKED)])
            values[column.name] = self.value(column)
        return maps.turned(made) if self.is_so(0.5) else made

    def add_chain(self, county: County, twins: float) -> None:
        """Adds a chain, of a new shape if there would be too many choices otherwise."""
        is_twin = county.chains and self.is_so(twins)
        chain = self.alike(self.some(county.chains), county) if is_twin else self.chain(county)
        if choices([*county.chains, chain]) > self.most:
            chain.points = [(1_000 + len(county.chains), -1), *chain.points[1:-1], self.some(self.places)]
        county.chains.append(chain)

    def content(self) -> Values:
        """That of a record of type 7."""
        return {**self.values(LANDMARK), PLACE: maps.spelt(self.some([None, None, *self.places]))}

    def landmark(self, county: County, polygons: Sequence[int]) -> Landmark:
        """A landmark on some of the polygons. It may have the contents of another one, with its links, one other link, or others."""
        if county.landmarks and self.is_so(0.6):
            landmark = copy.deepcopy(self.some(county.landmarks))
        else:
            landmark = Landmark(self.content(), more=[self.content() for _ in range(self.some([0, 0, 1, 2]))])
            landmark.more += [landmark.fields] * self.is_so(0.2)
        if landmark.polygons and self.is_so(0.7):
            place = self.chance.randrange(len(landmark.polygons))
            landmark.polygons[place] = self.some([landmark.polygons[place], *polygons])
            landmark.files[place] = self.some(self.files)
        elif polygons and self.is_so(0.7):
            landmark.polygons = self.chance.choices(polygons, k=self.some([0, 1, 2, 3]))
            landmark.files = [self.some(self.files) for _ in landmark.polygons]
        return landmark

    def county(self) -> County:
        """A county that is accepted: each polygon with a record is on a side."""
        county = County([], [], [], [])
        for _ in range(self.some([0, 1, 3, 6])):
            county.names.append(self.some(county.names) if county.names and self.is_so(0.5) else self.values(NAME))
        for _ in range(self.some([0, 1, 2, 3, 5])):
            place = self.some([None, *self.places])
            county.polygons.append(
                Polygon({"FILE": self.some(self.files), "WATER": self.some(" 01")}, place, cenid=self.some(self.offices))
            )
        twins = self.some([0.0, 0.3, 0.6, 0.9])
        for _ in range(self.chance.randint(2, 18)):
            self.add_chain(county, twins)
        used = sorted({side for chain in county.chains for side in (chain.left, chain.right) if side is not None})
        for number, polygon in enumerate(county.polygons):
            polygon.has_record = number in used and self.is_so(0.6)
        for _ in range(self.some([0, 1, 2, 4, 6])):
            county.landmarks.append(self.landmark(county, used))
        return county


def text(letter: str, width: int, chance: Chance) -> str:
    """The content of a field: blank, one letter at one of its sides, or as many as the field has columns."""
    return chance.choice(["", letter, letter, letter.rjust(width), letter * width, letter * (width - 1) + "B"])


class Field(NamedTuple):
    """A field, or the two of a point. Columns are counted from 0."""

    name: str
    kind: str
    first: int
    last: int
    flag: str

    def of(self, line: str) -> str:
        return line[self.first : self.last]

    def put(self, line: str, value: str) -> str:
        return line[: self.first] + value.ljust(self.last - self.first) + line[self.last :]

    @property
    def numbers(self) -> str:
        """Which numbers it has: all TZIDS and TZIDE, for example, are of nodes."""
        return self.name.rstrip("12345LRSE")


def read_fields() -> dict[str, list[Field]]:
    fields: dict[str, list[Field]] = defaultdict(list)
    with open(ROOT / "vectors/layouts.csv", encoding="ascii", newline="") as file:
        for row in csv.DictReader(file):
            first, last, made = int(row["first"]) - 1, int(row["last"]), fields[row["record_type"]]
            if "LAT" in row["field"] and row["kind"] in "Pp":
                made[-1] = made[-1]._replace(last=last)
            else:
                made.append(Field(row["field"], row["kind"], first, last, row["left_out_by"]))
    return fields


FIELDS = read_fields()


class Hand(maps.Hand):
    """Numbers are side by side or far apart, and polygons of different CENIDs may share a POLYID."""

    def __init__(self, chance: Chance) -> None:
        super().__init__(chance)
        self.dice = chance

    def numbers(self, count: int, most: int) -> list[int]:
        last = self.dice.choice([count, 2 * count, most - 1])
        return self.dice.sample(range(1, last + 1), count)

    def polyids(self, cenids: Sequence[str]) -> list[int]:
        numbers = self.numbers(len(cenids), 10**10)
        left = {cenid: self.dice.sample(numbers, len(numbers)) for cenid in sorted({*cenids})}
        return [left[cenid].pop() for cenid in cenids]


def lines_of(county: County, chance: Chance) -> list[str]:
    """The records of a county by some hand, with gaps between RTSQs, and some records of types 2 and 4 that hold nothing."""
    made: list[str] = []
    groups: dict[str, list[str]] = defaultdict(list)
    for line in maps.lines(county, Hand(chance)):
        (groups[line[0] + line[5:15]] if line[0] in "246" else made).append(line)
    for group, lines in groups.items():
        if group[0] in "24" and chance.random() < 0.1:
            lines.insert(chance.randint(0, len(lines)), f"{group[0]}2006{group[1:]}".ljust(LENGTHS[group[0]]))
        numbers = sorted(chance.sample(range(1, 1_000), len(lines)))
        made += [f"{line[:15]}{number:>3}{line[18:]}" for number, line in zip(numbers, lines)]
    return made


def shifted(content: str, width: int, chance: Chance) -> str:
    return (" " * chance.randint(0, width - len(content)) + content).ljust(width)


def number(had: str, is_required: bool, chance: Chance) -> str:
    """Another spelling of a number. None is blank or zeros, and a malformed one stays as it is."""
    digits = had.strip(" ")
    if not digits and not is_required:
        return chance.choice([had, shifted("0" * chance.randint(1, len(had)), len(had), chance)])
    if not re.fullmatch("[0-9]+", digits):
        return had
    return shifted(digits.zfill(chance.choice([0, chance.randint(0, len(had))])), len(had), chance)


def coordinate(had: str, chance: Chance) -> str:
    """Another spelling of a coordinate. What is blank or malformed stays as it is."""
    if not re.fullmatch("[+-][0-9]+", had):
        return had
    sign = chance.choice(["-"] if int(had) < 0 else ["+", "", *(["-"] if int(had) == 0 else [])])
    digits = str(abs(int(had))).zfill(chance.choice([0, len(had) - len(sign)]))
    return shifted(sign + digits, len(had), chance)


def spelling(field: Field, had: str, chance: Chance) -> str:
    if field.kind == "F":
        return chance.choice([had, "".join(chance.choices("06 x\xe9", k=len(had)))])
    if field.kind in "Nn":
        return number(had, field.kind == "N", chance)
    if field.kind == "p" and had in (" " * 19, maps.spelt((0, 0))):
        had = chance.choice([" " * 19, maps.spelt((0, 0))])
    return coordinate(had[:10], chance) + coordinate(had[10:], chance) if field.kind in "Pp" else had


def respelt(line: str, chance: Chance) -> str:
    """The record in another spelling, if the line has the length and the first letter of one."""
    if len(line) != LENGTHS.get(line[0]):
        return line
    return line[0] + "".join(spelling(field, field.of(line), chance) for field in FIELDS[line[0]])


def file_of(lines: Sequence[str], chance: Chance) -> bytes:
    """The lines in another order, some of them in another spelling, cut or with another end. The last one may have no end."""
    made, has_crlf = "", chance.choice([0.0, 0.5, 1.0])
    share = chance.choice([0.0, 0.5, 1.0])
    for line in chance.sample(lines, len(lines)):
        line = respelt(line, chance) if chance.random() < share else line
        least = max(len(line.rstrip(" ")), 1)
        line = line[: chance.randint(least, max(least, len(line)))] if chance.random() < share else line
        made += line + ("\r\n" if chance.random() < has_crlf else "\n")
    if chance.random() < 0.2:
        made = chance.choice([made[:-1], made.rstrip("\r\n")])
    return made.encode("latin-1")


def parts_of(lines: Sequence[str], chance: Chance) -> list[bytes]:
    """Nine files with these lines, most of them in the file of their type."""
    parts: list[list[str]] = [[] for _ in TYPES]
    for line in lines:
        place = TYPES.find(line[0]) if chance.random() < 0.95 else -1
        parts[place if place >= 0 else chance.randrange(len(parts))].append(line)
    return [file_of(part, chance) for part in parts]


def numbers_like(field: Field, lines: Sequence[str]) -> list[str]:
    """All numbers of the lines that such a field may have, and one more."""
    found = {it.of(line) for line in lines for it in FIELDS.get(line[0], []) if it.kind in "Nn" and it.numbers == field.numbers}
    return [*sorted(found), "9" * (field.last - field.first)]


def other_value(field: Field, had: str, lines: Sequence[str], chance: Chance) -> str:
    """A value for the field, most often another one than it had. A point has moved a little, is another one, or isn't there any more."""
    width = field.last - field.first
    if field.kind in "Nn":
        return chance.choice(numbers_like(field, lines))
    if field.kind in "Pp":
        numbers = (int(half) if re.fullmatch("[+-][0-9]+", half) else 5 for half in (had[:10], had[10:]))
        east, north = (half + chance.choice([0, 0, 1, -1]) for half in numbers)
        east, north = (max(-most, min(most, half)) for most, half in ((999_999_999, east), (99_999_999, north)))
        return chance.choice([maps.spelt((east, north)), maps.spelt((east, north)), maps.spelt(chance.choice(PLACES)), " " * 19])
    return text(chance.choice(LETTERS), width, chance).ljust(width)


def pick(lines: Sequence[str], types: str, chance: Chance) -> Optional[int]:
    """The place of a line of any of the types, each type as likely as the others that are there."""
    there = sorted({line[0] for line in lines} & {*types})
    kind = chance.choice(there) if there else ""
    return chance.choice([place for place, line in enumerate(lines) if line[0] == kind]) if there else None


def changed(lines: Sequence[str], chance: Chance) -> list[str]:
    """The lines with another value in one field. Most often they are accepted. Fields that a flag leaves out are changed more often."""
    made = list(lines)
    place = pick(made, TYPES, chance)
    while place is not None and made == lines:
        line = lines[place]
        fields = [field for field in FIELDS[line[0]] if field.kind in "BnPp" or field.kind == "N" and line[0] == "8"]
        field = chance.choices(fields, [4 if field.flag or field.kind == "n" else 1 for field in fields])[0]
        made[place] = field.put(line, other_value(field, field.of(line), lines, chance))
    return made


def lose(lines: list[str], chance: Chance) -> None:
    """A record is missing."""
    place = pick(lines, TYPES, chance)
    if place is not None:
        del lines[place]


def double(lines: list[str], chance: Chance) -> None:
    """A record is there twice. In one of them a field may differ."""
    place = pick(lines, TYPES, chance)
    if place is not None:
        lines += lines[place : place + 1] if chance.random() < 0.5 else changed(lines[place : place + 1], chance)


def misnumber(lines: list[str], chance: Chance) -> None:
    """A number is another one, or is missing."""
    edit(lines, "Nn", lambda field: chance.choice(["", *numbers_like(field, lines)]), chance)


def garble_number(lines: list[str], chance: Chance) -> None:
    """A field has something else than a number."""
    wrong = ["+1", "-1", "1 1", "x", "0x1", "1.", "\xb2", "1\xa0"]
    edit(lines, "Nn", lambda field: chance.choice(wrong), chance)


def garble_point(lines: list[str], chance: Chance) -> None:
    """A point is malformed, lacks a half, or is missing."""
    wrong = ["+00000000x+00000000", "1000000000+00000000", "+000000005100000000", "         +        +", "- 00000005+00000005"]
    wrong += [f"{5:10}", f"{0:10}", f"{'':10}+00000000", f"{5:19}", "", maps.spelt((0, 0)), "+000000005-0000000-"]
    edit(lines, "Pp", lambda field: chance.choice(wrong), chance)


def garble_byte(lines: list[str], chance: Chance) -> None:
    """A line has one or two bytes that no line may contain."""
    place = pick(lines, TYPES, chance)
    for _ in range(chance.randint(1, 2)):
        if place is not None:
            column = chance.randrange(1, len(lines[place]))
            lines[place] = f"{lines[place][:column]}{chance.choice(WRONG_BYTES)}{lines[place][column + 1 :]}"


def lengthen(lines: list[str], chance: Chance) -> None:
    """A line is too long, by a blank or by more."""
    place = pick(lines, TYPES, chance)
    if place is not None:
        lines[place] += chance.choice([" ", "x", " " * 9, "\x1a"])


def retype(lines: list[str], chance: Chance) -> None:
    """A line has another record type."""
    place = pick(lines, TYPES, chance)
    if place is not None:
        lines[place] = chance.choice("A3i \xe9\t" + TYPES) + lines[place][1:]


def leave_gap(lines: list[str], chance: Chance) -> None:
    """A place of a record of type 2 or 4 is empty, perhaps before a used one."""
    place = pick(lines, "24", chance)
    if place is not None:
        field = chance.choice(FIELDS[lines[place][0]][3:])
        lines[place] = field.put(lines[place], "")


def add_polygon(lines: list[str], chance: Chance) -> None:
    """There is a polygon more, which may be on no side."""
    like = FIELDS["P"][3]
    record = f"P200601001{chance.choice(OFFICES):5}{chance.choice(numbers_like(like, lines)):>10}"
    lines.append(record.ljust(LENGTHS["P"]))


def crowd(lines: list[str], chance: Chance) -> None:
    """A chain is there again, under one other TLID or under seven, which are too many."""
    place = pick(lines, "1", chance)
    if place is not None:
        at = {kind: next(field for field in FIELDS[kind] if field.name == "TLID") for kind in "1246I"}
        tlid = at["1"].of(lines[place])
        records = [line for line in lines if line[0] in at and at[line[0]].of(line) == tlid]
        for other in range(chance.choice([1, 7])):
            lines += [at[line[0]].put(line, f"{9_000_000_000 + other}") for line in records]


def edit(lines: list[str], kinds: str, value: Callable[[Field], str], chance: Chance) -> None:
    """Puts a value into a field of any of the kinds."""
    place = pick(lines, "".join(kind for kind in TYPES if any(field.kind in kinds for field in FIELDS[kind])), chance)
    if place is not None:
        field = chance.choice([field for field in FIELDS[lines[place][0]] if field.kind in kinds])
        lines[place] = field.put(lines[place], value(field))


FAULTS: list[Callable[[list[str], Chance], None]] = [
    *(lose, lose, double, double, misnumber, misnumber, misnumber, garble_number, garble_point),
    *(garble_byte, lengthen, retype, leave_gap, add_polygon, crowd),
]


def spoilt(lines: Sequence[str], chance: Chance) -> list[str]:
    """The lines with something wrong, or with several such things. They may still be accepted."""
    made = list(lines)
    for _ in range(chance.choice([1, 1, 1, 2, 3])):
        chance.choice(FAULTS)(made, chance)
    return made
