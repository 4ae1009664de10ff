"""What differs, thing by thing, as each report shows it; and the report as text."""

from functools import partial
from itertools import groupby
from typing import Any, Callable, Iterator, NamedTuple

from .columns import NAME
from .fields import BLANK, Row, chain_title, degrees, landmark_points, landmark_rows, landmark_title, name_text
from .fields import polygon_fields, polygon_words, rows
from .matching import Comparison, Tie, Tied
from .reading import NO_POINT, Landmark, each_point
from .sets import Sets
from .wording import KINDS as KINDS
from .wording import ONE_MAP as ONE_MAP
from .wording import PHRASES
from .wording import TIED as TIED


class Thing(NamedTuple):
    """A thing as the first map has it and as the second one has it. One of the two may be None. `about` follows its
    title. `points` are a chain's points, or the place of a landmark or a polygon. `number_field` is the field with its
    number, if it has one. `rows` makes its fields in both maps."""

    what: str
    kind: str
    one: Any
    other: Any
    title: str
    about: str
    points: list[str]
    number_field: str = ""
    numbers: str = ""
    rows: Callable[[], list[Row]] = list

    @property
    def name(self) -> str:
        """The title if `what` isn't shown beside it."""
        return f"polygon {self.title}" if self.what == "polygon" else self.title


def own_words(found: Comparison, field: str, one: Any, other: Any) -> str:
    """Returns the numbers of a thing in the files of both sets, if they are known: `TLID 7 and 9`."""
    numbers = [str(own[each.key]) for own, each in zip(found.own, (one, other)) if each is not None and each.key in own]
    return f"{field} {' and '.join(dict.fromkeys(numbers))}" if numbers else ""


def chain(found: Comparison, kind: str, one: Any, other: Any) -> Thing:
    title, points = chain_title(one or other), each_point((one or other).points)
    about = PHRASES["chain"].format(len(points), degrees(points[0]), degrees(points[-1]))
    first, second = found.first.chain, found.second.chain
    numbers = own_words(found, "TLID", one, other)
    return Thing(
        "chain", kind, one, other, title, about, points, "TLID", numbers, lambda: rows(one and first(one), other and second(other))
    )


def landmark(found: Comparison, kind: str, one: Any, other: Any) -> Thing:
    points = landmark_points(one or other, (found.first if one else found.second).county)
    phrase = PHRASES["place and more" if len(points) > 1 else "place" if points else "without a place"]
    about = phrase.format(*map(degrees, points[:1]), f"{len(points) - 1:,}")
    table = partial(landmark_rows, found.first, found.second, one, other)
    numbers = own_words(found, "LAND", one, other)
    return Thing("landmark", kind, one, other, landmark_title(one or other), about, points, "LAND", numbers, table)


def polygon(found: Comparison, kind: str, one: Any, other: Any) -> Thing:
    either, told = one or other, polygon_fields
    place = [either.point] if either.point != NO_POINT else []
    title, about = polygon_words(either.body), PHRASES["office"].format(either.cenid.strip() or BLANK)
    numbers = own_words(found, "POLYID", one, other)
    return Thing(
        "polygon", kind, one, other, title, about, place, "POLYID", numbers, lambda: rows(one and told(one), other and told(other))
    )


def feature_name(_: Comparison, kind: str, one: Any, other: Any) -> Thing:
    body, uses = (one or other).body, (one or other).uses
    file = NAME.value(body, "FILE").strip() or BLANK
    about = PHRASES["name of one" if uses == 1 else "name of several"].format(file, f"{uses:,}" if uses else "no")
    return Thing("feature name", kind, one, other, name_text(NAME, body) or BLANK, about, [])


SUBJECTS = {"chain": chain, "landmark": landmark, "polygon": polygon, "feature name": feature_name}


def things(comparison: Comparison, with_alike: bool = False) -> Iterator[Thing]:
    """Yields everything that isn't alike, or everything: the things of each subject, in the order of their kinds."""
    for make, matched in zip(SUBJECTS.values(), comparison.parts):
        ones, others = ((one, None) for one in matched.first), ((None, other) for other in matched.second)
        for kind, pairs in zip(KINDS, (ones, others, matched.changed, matched.alike if with_alike else [])):
            yield from (make(comparison, kind, *pair) for pair in pairs)


def verdict(comparison: Comparison, sets: Sets) -> str:
    """Returns the first sentence of a report if nothing differs, or only how things are joined."""
    if sets.are_one_map:
        return ONE_MAP
    return TIED if comparison.is_alike else ""


def told(comparison: Comparison, sets: Sets, is_summary: bool = False) -> Iterator[str]:
    """Yields the lines of the report. A summary ends with the table of counts."""
    first, second = sets.first, sets.second
    width = max(len(first.name), len(second.name))
    yield f"first   {first.name:{width}}  {first.fingerprint}"
    yield f"second  {second.name:{width}}  {second.fingerprint}"
    if sets.masks:
        yield f"left out: {' '.join(sets.masks)}"
    yield ""
    if sets.are_one_map:
        yield ONE_MAP
        return
    yield from told_counts(comparison)
    tied = [f"joined differently: {len(comparison.ties):,}"] if comparison.ties else []
    if is_summary:
        yield from tied
        return
    yield from told_things(comparison)
    if comparison.is_alike:
        yield from ["", TIED]
    yield from ["", *tied] if tied else []
    for tie in comparison.ties:
        yield from ["", f"  {tie_line(tie)}", *("      " + "; ".join(map(tied_place, group)) for group in tie.groups)]


def told_counts(comparison: Comparison) -> Iterator[str]:
    heads = ("chains", "landmarks", "polygons", "feature names")
    table = [[f"{count:,}" for count in part.counts] for part in comparison.parts]
    table[3][2] = "-"
    widths = [max(len(head), *map(len, column)) for head, column in zip(heads, table)]
    yield " " * 18 + "".join(f"  {head:>{width}}" for head, width in zip(heads, widths))
    for place, kind in enumerate(KINDS):
        yield f"{kind:18}" + "".join(f"  {column[place]:>{width}}" for column, width in zip(table, widths))


def told_things(comparison: Comparison) -> Iterator[str]:
    """Yields everything that only one map has, and everything that both have with fields that differ."""
    for (what, kind), found in groupby(things(comparison), lambda thing: (thing.what, thing.kind)):
        listed = list(found)
        yield from ["", f"{what}s {kind}: {len(listed):,}"]
        if kind != KINDS[2]:
            yield from ["", *(f"  {headline(thing)}" for thing in listed)]
        for thing in listed if kind == KINDS[2] else []:
            yield from ["", f"  {headline(thing)}", *differing(thing.rows())]


def headline(thing: Thing) -> str:
    return ", ".join(filter(None, [thing.name, thing.about, thing.numbers]))


def differing(rows: list[Row]) -> Iterator[str]:
    cells = [("", "in the first", "in the second")]
    cells += [(row.name.label, row.first or "", row.second or "") for row in rows if row.differs]
    widths = [max(map(len, column)) for column in zip(*cells)]
    for label, one, other in cells:
        yield f"      {label:{widths[0]}}  {one:{widths[1]}}  {other}"


def tie_line(tie: Tie) -> str:
    one, several = ("first", "second") if tie.is_one_in_first else ("second", "first")
    return f"{PHRASES['tie'].format(tie.subject, one, len(tie.groups), several)}:"


def tied_place(at: Tied) -> str:
    title = landmark_title(at.owner) if isinstance(at.owner, Landmark) else chain_title(at.owner)
    return f"{PHRASES['place of'].format(at.place, title)}{'' if at.point == NO_POINT else f', {degrees(at.point)}'}"
