"""The counties of sources, for a manifest: which are judged, what the manifest gets of each, and which lines of it are out of date."""

from __future__ import annotations

import os
from collections import defaultdict
from contextlib import closing, contextmanager, nullcontext
from dataclasses import dataclass
from typing import Iterator, Optional, Sequence

from .counties import Finder, doubles_among
from .errors import printable
from .judge import Answer, County, Kind
from .judging import Judging, Numbered, see_names
from .layout import folded, key_of, stem_of
from .manifests import TELLING, UNCHECKED, Line, Manifest, lock_of, names_in, respect_lock, written
from .storage import joined, tidy


@dataclass(frozen=True)
class Judged:
    """A county of an archive: its name, and its fingerprint or the reason why it has none. The notes are about its files. is_changed:
    the manifest that is written had another fingerprint for it. is_double: the map of another file of the county, which is counted.
    """

    county: str
    fingerprint: Optional[str]
    reason: Optional[str]
    notes: tuple[str, ...]
    is_changed: bool = False
    is_double: bool = False

    @property
    def line(self) -> str:
        """Its line in a manifest, if it has one."""
        return str(Line(self.fingerprint or "", self.county)) if self.fingerprint and not self.is_double else ""

    @property
    def remarks(self) -> str:
        changed = ["another map than before"] if self.is_changed else []
        return "; ".join([*changed, *([self.reason] if self.reason else []), *self.notes])


@dataclass(frozen=True)
class Choice:
    """Which counties of a manifest are judged again: with update those whose files have changed, with again those that were refused. With
    prune the lines of counties that are gone are taken out."""

    update: bool = False
    again: bool = False
    prune: bool = False


class Survey:
    """The counties of sources. Those that the manifest lists already aren't judged again; known counts them, apart from those that it
    lists as refused. gone are the lines of counties that aren't there any more, and moved the new names of some of them."""

    def __init__(self, judging: Judging, flags: tuple[str, ...], is_strict: bool = False, choice: Choice = Choice()) -> None:
        self.judging, self.flags, self.is_strict, self.choice = judging, flags, is_strict, choice
        self.manifest: Manifest | None = None
        self.counties: list[County] = []
        self.listed: dict[str, Line] = {}
        self.known = self.refused_before = 0
        self.is_begun = False  # whether the manifest has got a result
        self.before: set[str] = set()
        self.sources: dict[str, str] = {}
        self.gone: list[Line] = []
        self.moved: dict[str, str] = {}
        self.doubles: dict[str, str] = {}  # the file with all records of a county, and the county's zip or single files beside it

    @contextmanager
    def of(self, sources: Sequence[str], output: str | None = None, excluded: Sequence[str] = ()) -> Iterator[Survey]:
        """Finds the counties. If the manifest is a file, it is locked during the block, and put in order at its end."""
        outputs = [] if output is None else [output]
        see_names([*sources, *outputs])
        self.finder = Finder([*outputs, *map(lock_of, outputs)], excluded, set().union(*map(names_in, outputs)))
        for name in outputs:
            respect_lock(name)
        every = self.finder.all(sources)
        inputs = self.judging.inputs(every)
        self.marked = (*self.judging.means.mark, *self.flags)
        with written(outputs[0], self.marked, inputs, self.judging.resources) if outputs else nullcontext() as self.manifest:
            self.listed = {folded(line.name()): line for line in self.manifest.lines} if self.manifest else {}
            unseen = self.lines_unseen(every)
            self.gone = [line for line in unseen if self.is_gone(line)] if self.choice.update else []
            every += [self.finder.of_name(tidy(line.stem)) for line in unseen if not self.is_gone(line)]
            self.before = {key for key, line in self.listed.items() if line.refusal != UNCHECKED}
            self.doubles = doubles_among(every)
            if self.manifest:
                self.sources = {county.stem: county.sources for county in every if not county.trouble}
            self.counties, _ = self.finder.once({county.stem: county for county in every}.values(), self.is_known)
            if self.manifest:
                self.counties.sort(key=lambda county: -county.size)  # the largest first: the end isn't a wait for one of them
            else:
                self.counties.sort(key=lambda county: os.fsencode(county.stem))
            yield self
            self.take_out()

    def is_known(self, county: County) -> bool:
        """Returns whether the manifest has a county. With update it also has to have it as it is on disk. One with a trouble is
        always reported."""
        if county.trouble:
            return False
        line, first = self.listed.get(folded(county.stem)), self.listed.get(folded(self.doubles.get(county.stem, "")))
        if first and first.sources.endswith(f", {self.sources[county.stem]}"):
            return line is None
        if (
            line is None
            or not line.is_lasting
            or line.refusal
            and self.choice.again
            or first
            and line.fingerprint == first.fingerprint
        ):
            return False
        if self.choice.update and not (TELLING.fullmatch(line.sources) and self.is_as_listed(county, line)):
            return False
        self.refused_before += bool(line.refusal)
        self.known += not line.refusal
        return True

    def is_as_listed(self, county: County, line: Line) -> bool:
        """Returns whether a county's files have the sizes and times in a line, and those of another file with the same map, if
        it is there too."""
        sources = self.sources[county.stem]
        doubles = [self.sources[stem] for stem, first in self.doubles.items() if first == county.stem]
        return line.sources in (sources, *(f"{sources}, {double}" for double in doubles))

    def results(self) -> Numbered[Judged]:
        """Returns the counties with their numbers, each once the manifest has it. Raises Failure at once if there is no program."""
        return self.each_result(self.judging.answers(self.counties, self.flags, self.is_strict))

    def each_result(self, answers: Numbered[Answer]) -> Numbered[Judged]:
        """Lets a file that may be another county's double wait for that county."""
        waiting: dict[str, list[tuple[int, Answer]]] = defaultdict(list)
        pending = {county.stem for county in self.counties}
        with closing(answers):
            for number, answer in answers:
                if self.counties[number].places:
                    self.list_unchecked()
                stem = self.counties[number].stem
                first = self.doubles.get(stem)
                if first in pending:
                    waiting[first].append((number, answer))
                    continue
                yield number, self.taken(number, answer)
                pending.discard(stem)
                for double in waiting.pop(stem, []):
                    yield double[0], self.taken(*double)
        for number, answer in (double for doubles in waiting.values() for double in doubles):
            yield number, self.taken(number, answer)

    def list_unchecked(self) -> None:
        """Lists the new counties as not checked yet, before the first result. If the run is stopped, the rest don't pass for removed."""
        if self.manifest and not self.is_begun:
            self.is_begun = True
            new = (county.stem for county in self.counties if county.places and folded(county.stem) not in self.listed)
            self.manifest.add_all(Line("", stem, "", UNCHECKED) for stem in new)

    def taken(self, number: int, answer: Answer) -> Judged:
        """Returns what the manifest gets of a county."""
        county, is_accepted = self.counties[number], answer.kind is Kind.ACCEPTED
        sources, before = self.sources.get(county.stem, ""), self.listed.get(folded(county.stem))
        first = self.listed.get(folded(self.doubles.get(county.stem, "")))
        if is_accepted and first and first.fingerprint == answer.text:
            return self.doubled(county, first, answer)
        if is_accepted:
            line = Line(answer.text, county.stem, sources if TELLING.fullmatch(sources) else "")
        else:
            line = Line("", county.stem, sources, refusal_in(answer.text))
        is_folder = county.is_folder and "\n" not in county.stem
        has_place = bool(county.places) or is_folder or before is not None and not county.is_absent
        if has_place and (is_accepted or before is None or self.choice.update or not before.fingerprint):
            self.listed[folded(county.stem)] = line
            if self.manifest:
                self.manifest.add(line)
        is_changed = is_accepted and before is not None and before.fingerprint not in ("", answer.text)
        return Judged(county.stem, *((answer.text, None) if is_accepted else (None, answer.text)), answer.notes, is_changed)

    def doubled(self, county: County, first: Line, answer: Answer) -> Judged:
        """Returns the same map as in the zip or the single files beside it: one county. The manifest notes this file with that county."""
        self.judging.tally.doubles += 1
        if self.manifest:
            self.manifest.drop(county.stem)
            if first.sources and not first.sources.endswith(f", {self.sources[county.stem]}"):
                line = first._replace(sources=f"{first.sources}, {self.sources[county.stem]}")
                self.manifest.add(line)
        note = f"the same map as {first.stem}, which is counted once"
        return Judged(county.stem, answer.text, None, (note, *answer.notes), is_double=True)

    def lines_unseen(self, every: Sequence[County]) -> list[Line]:
        """Returns the lines below the sources whose counties weren't found: they aren't there any more, or are there under another
        name. Below a folder that can't be read, and in a source without a county, there is none."""
        there = {folded(county.stem) for county in every if not county.is_absent}
        named = {folded(stem_of(county.stem)) for county in every if county.is_absent}
        lines = [line for key, line in self.listed.items() if key not in there and not line.is_folder]
        return [line for line in lines if folded(tidy(line.stem)) in named or self.finder.has_walked(tidy(line.stem))]

    def is_gone(self, line: Line) -> bool:
        county = self.finder.of_name(tidy(line.stem))
        return county.is_absent or not county.trouble and folded(county.stem) != folded(tidy(line.stem))

    def take_out(self) -> None:
        """Takes the lines of moved counties out of the manifest, with prune those of all that are gone, and those of folders that were listed
        now or are gone. A county has moved if a new one has its map, and its name in another folder or with another ending."""
        new = [self.listed.get(folded(county.stem)) for county in self.counties if folded(county.stem) not in self.before]
        places = {(key_of(line.stem), line.fingerprint): line.stem for line in new if line and line.fingerprint}
        for line in self.gone:
            place = places.get((key_of(line.stem), line.fingerprint))
            if place:
                self.moved[line.stem] = place
            if self.manifest and (place or self.choice.prune):
                self.manifest.drop(line.name())
        self.gone = [line for line in self.gone if line.stem not in self.moved]
        for line in self.listed.values():
            is_listed = line.is_folder and self.finder.has_walked(joined(tidy(line.stem), ""))
            if self.manifest and is_listed and not self.judging.left:
                self.manifest.drop(line.name())


def refusal_in(text: str) -> str:
    """Returns why a county has no fingerprint, as a manifest has it."""
    return text if text.startswith("refused ") else f"failed: {printable(' '.join(text.split()))}"
