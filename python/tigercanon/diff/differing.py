"""Where two counties differ."""

from __future__ import annotations

from typing import Any, Callable, NamedTuple, Sequence

from ..errors import printable
from ..judge import County, Source
from ..resources import Resources
from .matching import Comparison, compare, own_numbers
from .page import packed
from .reading import read_county
from .sets import Canonical, Sets, opened, printed

Step = Callable[[str], None]


class Opened(NamedTuple):
    """Two sets, the sources that the program has read, and notes about their files."""

    sets: Sets
    sources: list[Source]
    notes: list[str]

    @property
    def packed(self) -> list[dict[str, Any]]:
        """The files of both sets, packed for a page."""
        return [packed(source) for source in self.sources]


def open_sets(
    counties: Sequence[County],
    names: Sequence[str],
    program: str,
    masks: tuple[str, ...],
    resources: Resources,
    at: Step = lambda _: None,
) -> Opened:
    """Normalises two counties, whose copies stay among the resources. at is called before each step, here and below."""
    opened_sets = [opened(name, county, resources) for name, county in zip(names, counties)]
    sources, shown = [source for source, _ in opened_sets], list(map(printable, names))
    notes = [f"{name}: {'; '.join(notes)}" for name, (_, notes) in zip(shown, opened_sets) if notes]
    at("normalising both sets")
    one, other = printed(program, "normalise", masks, sources, resources)
    return Opened(Sets(Canonical(shown[0], one), Canonical(shown[1], other), masks), sources, notes)


def compared(read: Opened, program: str, resources: Resources, at: Step = lambda _: None, with_numbers: bool = True) -> Comparison:
    """Finds where two sets differ. With with_numbers the numbers in the user's files are found too."""
    sets = read.sets
    at("reading the canonical texts")
    first, second = read_county(sets.first.text), read_county(sets.second.text)
    at(f"comparing {len(first.chains):,} chains with {len(second.chains):,}")
    comparison = compare(first, second)
    if with_numbers:
        at("finding the sets' own numbers")
        texts = zip(printed(program, "respell", (), read.sources, resources), (first, second))
        comparison.own = [own_numbers(read_county(text), county, sets.masks) for text, county in texts]
    return comparison
