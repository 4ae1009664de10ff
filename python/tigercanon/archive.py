"""The calls for archives. Each returns or yields values, and prints nothing; the commands of tigercanon-tools are made of them.

They run the program, and need no library. Counties are named as on the command line of tigercanon-tools. At the end of a
call, or of its generator, the processes that it started end and its temporary files are removed.
"""

from __future__ import annotations

import os
from contextlib import closing
from dataclasses import dataclass
from typing import Any, Generator, Iterable, Iterator, Optional, Sequence

from .diff.differing import compared, open_sets
from .diff.geojson import properties
from .diff.sets import found
from .diff.words import things
from .editions import Group as Group
from .editions import History as History
from .editions import changes as changes
from .editions import duplicates as duplicates
from .errors import Failure as Failure
from .faults import Fault as Fault
from .explanations import Explanation as Explanation
from .explanations import explain as explain
from .judge import LARGEST, SECONDS
from .judging import Check, Judging, Means, Numbered, T, Verification
from .judging import Checked as Checked
from .judging import Verified as Verified
from .layout import Name
from .manifests import FLAGS
from .program import find_program
from .progress import Tally
from .resources import Resources
from .survey import Choice, Survey
from .survey import Judged as Judged
from .tables import ChainRow as ChainRow
from .tables import chains as chains


@dataclass(frozen=True)
class Difference:
    """A chain, landmark, polygon or feature name that two maps don't have in common. kind is `only in the first`, `only in the second`
    or `changed`. The fields have the names and values that the GeoJSON of `tigercanon-tools diff` has."""

    what: str
    kind: str
    title: str
    fields: dict[str, Any]
    points: tuple[tuple[int, int], ...]


def flags_for(no_sources: bool, no_reserved: bool) -> tuple[str, ...]:
    return tuple(flag for flag, is_given in zip(FLAGS, (no_sources, no_reserved)) if is_given)


class Results(Iterator[T]):
    """The results of a call, each once it is there. skipped are the paths of files that aren't a county's. What the call has started ends
    at the last result, by close, or at the end of a `with` block."""

    def __init__(self, results: Generator[Any, None, None]) -> None:
        self.results = results
        self.skipped: tuple[str, ...] = next(results)

    def __next__(self) -> T:
        value: T = next(self.results)
        return value

    def close(self) -> None:
        self.results.close()

    def __enter__(self) -> Results[T]:
        return self

    def __exit__(self, *_: object) -> None:
        self.close()


def values_of(results: Numbered[T], judging: Judging) -> Iterator[T]:
    """Yields the results without their numbers. Raises Failure if the judging ended before all counties were done."""
    with closing(results):
        for _, value in results:
            yield value
    if judging.gone:
        raise Failure(f"{judging.gone}: {judging.left:,} counties are left")


def names_of(names: Iterable[Name]) -> list[str]:
    return [os.fspath(name) for name in names]


def judging_by(
    resources: Resources,
    program: Optional[Name],
    jobs: Optional[int],
    scheduler: Optional[str],
    memory: Optional[int],
    largest: int,
    seconds: int,
    job: str = "fingerprint",
) -> Judging:
    means = Means(None if program is None else os.fspath(program), jobs, scheduler, memory, largest, seconds)
    return Judging(means, resources, Tally(), job)


def choice_of(output: str | None, update: bool, again: bool, prune: bool) -> Choice:
    """Returns which counties of a manifest are judged again. Raises ValueError if there is no manifest."""
    if output is None and (update or again):
        raise ValueError("update and again need an output, which is the manifest")
    if prune and not update:
        raise ValueError("prune needs update")
    return Choice(update, again, prune)


def manifest(
    *sources: Name,
    output: Optional[Name] = None,
    update: bool = False,
    again: bool = False,
    prune: bool = False,
    no_sources: bool = False,
    no_reserved: bool = False,
    strict: bool = False,
    exclude: Sequence[str] = (),
    program: Optional[Name] = None,
    jobs: Optional[int] = None,
    scheduler: Optional[str] = None,
    memory: Optional[int] = None,
    largest: int = LARGEST,
    seconds: int = SECONDS,
) -> Results[Judged]:
    """Judges the counties of all sources, and yields each as soon as it is done.

    The counties are found when it is called, and judged while the results are read. With output the manifest is written to this file: a
    county is in it before it is yielded, and it is put in order after the last one. From the first result on, the others are in it as not
    checked yet. Counties that it lists already aren't judged: with update those are whose files have changed, and with again those that
    were refused. With update and prune, counties that are gone are taken out. Raises Failure if it can't go on."""
    names, name = names_of(sources), None if output is None else os.fspath(output)
    choice = choice_of(name, update, again, prune)

    def results() -> Generator[Any, None, None]:
        with Resources() as resources:
            judging = judging_by(resources, program, jobs, scheduler, memory, largest, seconds)
            survey = Survey(judging, flags_for(no_sources, no_reserved), strict, choice)
            with survey.of(names, name, exclude):
                yield tuple(survey.finder.skipped.values())
                yield from values_of(survey.results(), judging)

    return Results(results())


def verify(
    manifest: Name,
    *sources: Name,
    root: Optional[Name] = None,
    no_sources: bool = False,
    no_reserved: bool = False,
    quick: bool = False,
    exclude: Sequence[str] = (),
    program: Optional[Name] = None,
    jobs: Optional[int] = None,
    scheduler: Optional[str] = None,
    memory: Optional[int] = None,
    largest: int = LARGEST,
    seconds: int = SECONDS,
) -> Results[Verified]:
    """Judges the counties of a manifest again, and yields each with its verdict as soon as it is done; and those of the sources that
    aren't in it. Their names are looked for below the root. With quick those whose files have the sizes and times of the manifest aren't
    judged. With a flag it raises Failure unless the manifest was made with the same. Raises Failure if it can't go on."""
    name, names, folder = os.fspath(manifest), names_of(sources), None if root is None else os.fspath(root)

    def results() -> Generator[Any, None, None]:
        with Resources() as resources:
            judging = judging_by(resources, program, jobs, scheduler, memory, largest, seconds)
            flags = flags_for(no_sources, no_reserved)
            verification = Verification(judging, name, names, folder, flags, exclude, quick)
            yield tuple(verification.finder.skipped.values())
            yield from values_of(verification.results(), judging)

    return Results(results())


def checks(
    *sources: Name,
    exclude: Sequence[str] = (),
    program: Optional[Name] = None,
    jobs: Optional[int] = None,
    scheduler: Optional[str] = None,
    memory: Optional[int] = None,
    largest: int = LARGEST,
    seconds: int = SECONDS,
) -> Results[Checked]:
    """Checks the counties of all sources, and yields each as soon as it is done: whether it is accepted, or why it isn't, with the places
    in its files. Raises Failure if it can't go on."""
    names = names_of(sources)

    def results() -> Generator[Any, None, None]:
        with Resources() as resources:
            judging = judging_by(resources, program, jobs, scheduler, memory, largest, seconds, "check")
            check = Check(judging, names, exclude)
            yield tuple(check.finder.skipped.values())
            yield from values_of(check.results(), judging)

    return Results(results())


def differences(
    first: Name, second: Name, *, no_sources: bool = False, no_reserved: bool = False, program: Optional[Name] = None
) -> Iterator[Difference]:
    """Yields where two counties differ: nothing if they are one map. It leaves out how things are joined. Raises Failure."""
    names = names_of([first, second])
    with Resources() as resources:
        counties, masks = [found(name, False) for name in names], flags_for(no_sources, no_reserved)
        executable = find_program(program)
        comparison = compared(open_sets(counties, names, executable, masks, resources), executable, resources)
    for thing in things(comparison):
        points = tuple((int(point[:10]), int(point[10:])) for point in thing.points)
        yield Difference(thing.what, thing.kind, thing.name, properties(thing, comparison.own), points)
