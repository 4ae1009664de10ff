"""Judges the counties of an archive, against a manifest or to see what is wrong with them. Nothing is printed here."""

from __future__ import annotations

import os
from contextlib import closing, suppress
from dataclasses import dataclass, replace
from functools import cached_property
from typing import Callable, Generator, Iterable, Optional, Sequence, TypeVar

from .counties import Finder, doubles_among
from .engines import DaskEngine, Engine, Gone
from .errors import Failure
from .faults import Fault
from .inputs import Inputs
from .judge import LARGEST, SECONDS, Answer, County, Kind, Order
from .layout import folded
from .manifests import TELLING, UNPROVED, Line, agreed, loaded, without_mark
from .program import find_program, is_unproved
from .progress import Tally
from .resources import Resources, remove_stale_folders

T = TypeVar("T")
Numbered = Generator[tuple[int, T], None, None]  # values with the numbers of their counties
NEW = "not in the manifest"
VERDICTS = ("OK", "FAILED", "MISSING", "NEW", "REFUSED", "ACCEPTED")


@dataclass(frozen=True)
class Verified:
    """A county of a manifest, or one that isn't in it. verdict is `OK`, `FAILED`, `MISSING` or `NEW`; or, if the manifest has no fingerprint
    of it, `REFUSED` if it is still refused, and `ACCEPTED` if it has one now. A folder that the manifest lists as one that couldn't be
    listed is `ACCEPTED` if it can be now."""

    county: str
    verdict: str
    remarks: str


@dataclass(frozen=True)
class Checked:
    """A county, and why it isn't accepted, if it isn't. faults are the places of that in its files."""

    county: str
    reason: Optional[str]
    notes: tuple[str, ...]
    faults: tuple[Fault, ...]


@dataclass(frozen=True)
class Means:
    """How counties are judged: by this many processes of the program at a time, or by the workers of a scheduler; and their limits."""

    program: str | None = None
    jobs: int | None = None
    scheduler: str | None = None
    memory: int | None = None
    largest: int = LARGEST
    seconds: int = SECONDS

    @cached_property
    def found_program(self) -> str:
        """The program on this machine. Raises Failure if there is none."""
        return find_program(self.program)

    @property
    def files(self) -> list[str]:
        return [*filter(None, (self.program, self.scheduler))]

    @property
    def mark(self) -> tuple[str, ...]:
        """The mark of an unproved program. What the workers of a cluster run isn't known here."""
        with suppress(Failure):
            if not self.scheduler and is_unproved(self.found_program):
                return (UNPROVED,)
        return ()

    def order(self, flags: tuple[str, ...], is_strict: bool, job: str) -> Order:
        """Returns how counties are judged. On a cluster the program need not be on this machine."""
        try:
            program = self.program if self.scheduler and self.program else self.found_program
        except Failure:
            if not self.scheduler:
                raise
            program = "tigercanon"
        return Order(program, flags, is_strict, self.largest, self.memory, job, self.seconds)

    def engine(self, resources: Resources) -> Engine:
        return DaskEngine(self.scheduler, is_quiet=resources.prints) if self.scheduler else Engine(self.jobs, resources)


class Judging:
    """The judging of counties: how far it has come, and why it ended before all were done, if it did (gone), with how many left."""

    def __init__(self, means: Means, resources: Resources, tally: Tally, job: str = "fingerprint") -> None:
        self.means, self.resources, self.tally, self.job = means, resources, tally, job
        self.gone, self.left = "", 0

    def inputs(self, counties: Iterable[County], *others: str) -> Inputs:
        """Returns the inputs: the files of these counties, those that are named beside them, and others."""
        return self.resources.inputs([*(file.place for county in counties for file in county.places), *self.means.files, *others])

    def answers(self, counties: Sequence[County], flags: tuple[str, ...] = (), is_strict: bool = False) -> Numbered[Answer]:
        """Returns the number of each county and the answer for it, first for those that can't be judged. Raises Failure at once
        if there is no program."""
        is_any = any(county.places and not county.trouble for county in counties)
        return self.each_answer(counties, self.means.order(flags, is_strict, self.job) if is_any else None)

    def each_answer(self, counties: Sequence[County], order: Order | None) -> Numbered[Answer]:
        tally = self.tally
        tally.start(len(counties), sum(county.size for county in counties))
        try:
            for number, answer in self.as_they_come(counties, order):
                if answer.kind is Kind.REFUSED:
                    words = answer.text.split()
                    tally.refused["--strict" if words[0] == "rejected" else " ".join(words[1:3])] += 1
                elif answer.kind is not Kind.ACCEPTED:
                    tally.failed += 1
                yield number, answer
                tally.end(counties[number].size)
        except Gone as gone:
            self.gone, self.left = str(gone), tally.counties - tally.ended
        finally:
            tally.close()

    def as_they_come(self, counties: Sequence[County], order: Order | None) -> Numbered[Answer]:
        there = [number for number, county in enumerate(counties) if county.places and not county.trouble]
        for number, county in enumerate(counties):
            if county.trouble or county.is_folder:
                yield number, Answer(Kind.FAILED if county.trouble else Kind.ACCEPTED, county.trouble)
        if order:
            remove_stale_folders()
            with self.resources.part() as part, closing(self.means.engine(part)) as engine:
                for result in engine.answers([counties[number] for number in there], order):
                    if result:
                        yield there[result[0]], result[1]
                    self.tally.look()


class Verification:
    """The counties of a manifest, and those of sources that aren't in it. absent are the sources that aren't there. quick: those whose
    files have the sizes and times that the manifest has aren't judged."""

    def __init__(
        self,
        judging: Judging,
        manifest: str,
        sources: Sequence[str] = (),
        root: str | None = None,
        flags: tuple[str, ...] = (),
        excluded: Sequence[str] = (),
        quick: bool = False,
    ) -> None:
        see_names([manifest, *sources])
        self.judging, self.manifest, (own_flags, self.lines) = judging, manifest, loaded(manifest)
        self.flags = without_mark(own_flags)
        if flags:
            agreed(manifest, self.flags, flags)
        names = [line.name(root or "") for line in self.lines]
        finder = Finder()
        self.counties = [
            finder.of_folder(name) if line.is_folder else finder.of_name(name) for line, name in zip(self.lines, names)
        ]
        self.finder = Finder([manifest], excluded, {*map(folded, names)})
        there = {county.real_places for county in self.counties if county.places}
        new, _ = self.finder.counties(sources, lambda county: folded(county.stem) in self.finder.listed)
        self.new = [county for county in new if county.real_places not in there]
        self.absent = [county for county in self.new if county.is_absent]
        self.firsts = {stem: self.line_of(first) for stem, first in doubles_among([*self.counties, *self.new]).items()}
        self.new = [county for county in self.new if not self.is_noted(county)]
        self.unchanged = {number for number in range(len(self.lines)) if quick and self.is_unchanged(number)}

    def line_of(self, stem: str) -> Line | None:
        """Returns the line of a county, if the manifest has one."""
        return next((line for line, county in zip(self.lines, self.counties) if county.stem == stem), None)

    def is_noted(self, county: County) -> bool:
        """Returns whether the manifest has a file with the line of the county beside it, whose map it has."""
        first = self.firsts.get(county.stem)
        return first is not None and first.sources.endswith(f", {county.sources}")

    def is_unchanged(self, number: int) -> bool:
        """Returns whether a county's files have the sizes and times that the manifest has, and so the same answer."""
        line, county = self.lines[number], self.counties[number]
        return not county.trouble and line.is_lasting and bool(TELLING.fullmatch(line.sources)) and line.sources == county.sources

    def results(self) -> Numbered[Verified]:
        """Returns the counties with their numbers. Raises Failure at once if a source can't be read, or if there is no program."""
        if self.absent:
            raise Failure("; ".join(f"{county.stem}: {county.trouble}" for county in self.absent))
        self.judging.inputs([*self.counties, *self.new], self.manifest)
        self.counties += [
            county if county.trouble or self.firsts.get(county.stem) else replace(county, trouble=NEW) for county in self.new
        ]
        left = [number for number in range(len(self.counties)) if number not in self.unchanged]
        answers = self.judging.answers([self.counties[number] for number in left], self.flags)
        return self.each_result(left, answers)

    def each_result(self, left: Sequence[int], answers: Numbered[Answer]) -> Numbered[Verified]:
        for number in sorted(self.unchanged):
            line = self.lines[number]
            yield number, Verified(line.stem, "OK" if line.fingerprint else "REFUSED", line.refusal)
        with closing(answers):
            for place, answer in answers:
                yield left[place], self.verified(left[place], answer)

    def verified(self, number: int, answer: Answer) -> Verified:
        county, remarks = self.counties[number], remarks_of(answer)
        if number >= len(self.lines):
            first = self.firsts.get(county.stem)
            if first and first.fingerprint == answer.text:
                return Verified(county.stem, "OK", f"the same map as {first.stem}")
            return Verified(county.stem, "FAILED" if county.trouble not in ("", NEW) else "NEW", remarks)
        fingerprint, name, *_ = self.lines[number]
        if county.is_absent:
            return Verified(name, "MISSING", remarks)
        if not fingerprint:
            words = {Kind.ACCEPTED: "ACCEPTED", Kind.REFUSED: "REFUSED"}
            return Verified(name, words.get(answer.kind, "FAILED"), remarks)
        if answer.kind is Kind.ACCEPTED and answer.text == fingerprint:
            return Verified(name, "OK", remarks)
        return Verified(name, "FAILED", "another map" if answer.kind is Kind.ACCEPTED else remarks)


class Check:
    """The counties of sources, each once, in the order of their names."""

    def __init__(self, judging: Judging, sources: Sequence[str], excluded: Sequence[str] = ()) -> None:
        see_names(sources)
        self.judging, self.finder = judging, Finder(excluded=excluded)
        every = self.finder.all(sources)
        judging.inputs(every)
        self.counties = sorted(self.finder.once(every)[0], key=lambda county: os.fsencode(county.stem))

    def results(self) -> Numbered[Checked]:
        """Returns the counties with their numbers. Raises Failure at once if there is no program."""
        return each_as(self.checked, self.judging.answers(self.counties))

    def checked(self, number: int, answer: Answer) -> Checked:
        reason = None if answer.kind is Kind.ACCEPTED else answer.text
        return Checked(self.counties[number].stem, reason, answer.notes, answer.faults)


def each_as(value: Callable[[int, Answer], T], answers: Numbered[Answer]) -> Numbered[T]:
    """Yields the value of each answer, with its number."""
    with closing(answers):
        for number, answer in answers:
            yield number, value(number, answer)


def remarks_of(answer: Answer) -> str:
    return "; ".join([*([] if answer.kind is Kind.ACCEPTED else [answer.text]), *answer.notes])


def see_names(names: Sequence[str]) -> None:
    """Raises Failure for a name that can't be one of a file."""
    if any(not name or "\n" in name for name in names):
        raise Failure("a name is empty or has a line break in it")
