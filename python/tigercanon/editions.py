"""The counties of several editions of an archive: which are the same, changed, added, removed or renamed, and which share a map."""

from __future__ import annotations

import os
from typing import Iterable, NamedTuple, Optional, Sequence

from .errors import Failure
from .layout import Name, key_of
from .manifests import Flags, Line, loaded, named, without_mark
from .storage import tidy

KINDS = ("same", "changed", "added", "removed", "renamed", "refused", "failed", "unchecked", "accepted")
Lines = dict[str, Line]


class Edition(NamedTuple):
    """An edition: its name, its counties by their names without folder, case and ending, and the folders that couldn't be listed."""

    name: str
    counties: Lines
    folders: tuple[Line, ...] = ()

    @property
    def absent(self) -> Line | None:
        """What it has in place of a county that it doesn't list: the line of a folder that the county may be in, or None."""
        return self.folders[0] if self.folders else None


class History(NamedTuple):
    """A county through the editions: its line in each, or None if an edition doesn't have it. It may have another name in each. If it
    may be in a folder that couldn't be listed, an edition has that folder's line."""

    editions: tuple[str, ...]
    lines: tuple[Optional[Line], ...]

    @property
    def last(self) -> Line:
        """Its line in the last edition that has it."""
        return last_of(self.lines)

    @property
    def county(self) -> str:
        return key_of(self.last.stem)

    @property
    def maps(self) -> list[int | None]:
        """A number for its map in each edition: the same number for the same map. None if an edition has no map of it."""
        numbers: dict[str, int] = {}
        return [
            numbers.setdefault(line.fingerprint, 1 + len(numbers)) if line and line.fingerprint else None for line in self.lines
        ]

    def step(self, place: int) -> str:
        """Returns how it changed between an edition and the one before: one of KINDS, or nothing if neither edition has it."""
        old, new = self.lines[place - 1 : place + 1]
        if new is None:
            return "removed" if self.was_there(place) else ""
        if new.is_folder or old and (new.refusal or old.refusal):
            return new.state
        if old is None:
            return "added"
        is_renamed = key_of(old.stem) != key_of(new.stem)
        return "changed" if old.fingerprint != new.fingerprint else "renamed" if is_renamed else "same"

    def was_there(self, place: int) -> bool:
        """Returns whether the last edition before this one has it, apart from editions for which that isn't known."""
        return next((line is not None for line in reversed(self.lines[:place]) if not (line and line.is_folder)), False)

    @property
    def steps(self) -> list[str]:
        return [self.step(place) for place in range(1, len(self.editions))]

    @property
    def is_same(self) -> bool:
        return all(step == "same" for step in self.steps)

    @property
    def verdict(self) -> str:
        """How it changed, in words: `same since 1990`, or `changed in 2000, back in 2006`."""
        if self.is_same:
            return f"same since {self.editions[0]}"
        return ", ".join(filter(None, [self.words_for(place) for place in range(1, len(self.editions))]))

    def words_for(self, place: int) -> str:
        """Returns how it changed in an edition, in words; nothing if it is the same there, or still isn't there."""
        edition, step, old = self.editions[place], self.step(place), self.lines[place - 1]
        number, before = self.maps[place], self.maps[:place]
        if number is not None and number in before and number != before[-1]:
            return f"back in {edition} as in {self.editions[before.index(number)]}"
        if step == "renamed" and old:
            return f"renamed in {edition} from {key_of(old.stem)}"
        if step in ("same", ""):
            return ""
        if step == "added" and any(line and not line.is_folder for line in self.lines[:place]):
            return f"added again in {edition}"
        return f"{'still ' if old and old.state == step else ''}{step} in {edition}"


class Group(NamedTuple):
    """Counties that are the same map: its fingerprint, and their names in the manifest."""

    fingerprint: str
    counties: tuple[str, ...]

    @property
    def is_different(self) -> bool:
        """Whether the names are different ones, and not one name in several folders."""
        return len({key_of(county) for county in self.counties}) > 1

    @property
    def lines(self) -> list[str]:
        """The lines of the manifest."""
        return [str(Line(self.fingerprint, county)) for county in self.counties]


def editions_of(names: Sequence[str], folders: Sequence[str] = ()) -> tuple[list[Edition], Flags]:
    """Returns the editions in these manifests: one in each, or all of them in one, below a folder each; and the flags that leave fields
    out. Raises Failure if there is only one, or if their fingerprints can't be compared."""
    if folders and len(names) > 1:
        raise Failure(f"--edition needs one manifest with all editions, and there are {len(names)}")
    manifests = [(name, *loaded(name)) for name in names]
    for name, flags, _ in manifests[1:]:
        if without_mark(flags) != without_mark(manifests[0][1]):
            both = f"{names[0]} was made with {named(manifests[0][1])} and {name} with {named(flags)}"
            raise Failure(f"{both}: their fingerprints can't be compared")
    left_out = without_mark(manifests[0][1]) if manifests else ()
    if len(manifests) == 1:
        return parted(names[0], manifests[0][2], folders), left_out
    bases = [os.path.basename(name) for name in names]
    shown = bases if len({*bases}) == len(bases) else names
    return [edition_of(label, name, lines) for label, (name, _, lines) in zip(shown, manifests)], left_out


def parted(name: str, lines: list[Line], folders: Sequence[str]) -> list[Edition]:
    """Returns the editions of one manifest: the counties below each of the folders, or else below the folders where their names begin to
    differ."""
    roots = [tidy(folder) for folder in folders]
    if not roots:
        parts = [line.name().split("/")[:-1] for line in lines]
        depth = len(os.path.commonprefix(parts))
        roots = sorted({"/".join(part[: depth + 1]) for part in parts})
        if any(len(part) <= depth for part in parts):
            roots = []
    if len(roots) < 2:
        raise Failure(f"{name}: has one edition: name another manifest, or the folder of each edition by --edition")
    editions = [edition_of(root, name, [line for line in lines if is_below(line, f"{root}/")]) for root in roots]
    for edition in editions:
        if not edition.counties and not edition.folders:
            raise Failure(f"{name}: has no county below {edition.name}")
    bases = [os.path.basename(root) for root in roots]
    return [edition._replace(name=base) for edition, base in zip(editions, bases)] if len({*bases}) == len(bases) else editions


def is_below(line: Line, root: str) -> bool:
    """Returns whether a line is of an edition below this folder. A folder that couldn't be listed may also be around it."""
    return line.name().startswith(root) or line.is_folder and root.startswith(line.name())


def edition_of(label: str, name: str, lines: Iterable[Line]) -> Edition:
    """Returns the edition with these lines of a manifest."""
    folders = tuple(line for line in lines if line.is_folder)
    return Edition(label, by_key(name, [line for line in lines if not line.is_folder]), folders)


def last_of(lines: Sequence[Line | None]) -> Line:
    """Returns a county's line in the last edition that has it."""
    return next(line for line in reversed(lines) if line and not line.is_folder)


def by_key(name: str, lines: Iterable[Line]) -> Lines:
    """Returns the counties by their names without folder, case and ending. One that was refused gives way to one of the same name. Raises
    Failure if two with a fingerprint have one name."""
    counties: Lines = {}
    for line in sorted(lines, key=lambda line: not line.fingerprint):
        first = counties.setdefault(key_of(line.stem), line)
        if first is not line and line.fingerprint:
            raise Failure(f"{name}: {first.stem} and {line.stem} have the same name, so counties can't be matched by it")
    return counties


def histories(editions: Sequence[Edition]) -> list[History]:
    """Returns the counties of all editions through these, in the order of their last names. A county that is gone and one that
    is new in the same edition are one, renamed, if they have the same map. None is gone or new if it may be in a folder
    that couldn't be listed."""
    tracks: list[list[Line | None]] = []
    for place, edition in enumerate(editions):
        here = dict(edition.counties)
        gone: dict[str, list[list[Line | None]]] = {}
        for track in tracks:
            last = last_of(track)
            track.append(here.pop(key_of(last.stem), edition.absent))  # under the name that it had last
            is_gone = track[place] is None and track[place - 1] is last and not editions[place - 1].folders
            if is_gone and last.fingerprint:
                gone.setdefault(last.fingerprint, []).append(track)
        for line in here.values():
            if gone.get(line.fingerprint):
                gone[line.fingerprint].pop(0)[place] = line
            else:
                tracks.append([*(before.absent for before in editions[:place]), line])
    names = tuple(edition.name for edition in editions)
    return sorted((History(names, tuple(track)) for track in tracks), key=lambda each: os.fsencode(each.county))


def groups_of(lines: Iterable[Line]) -> list[Group]:
    """Returns the counties that are the same map as another one, in groups."""
    groups: dict[str, list[str]] = {}
    for line in lines:
        if line.fingerprint:
            groups.setdefault(line.fingerprint, []).append(line.stem)
    return [Group(fingerprint, tuple(stems)) for fingerprint, stems in groups.items() if len(stems) > 1]


def duplicates(manifest: Name) -> list[Group]:
    """Returns the counties of a manifest that are the same map as another one, in groups. Raises Failure."""
    return groups_of(loaded(os.fspath(manifest))[1])


def changes(*manifests: Name, editions: Sequence[str] = ()) -> list[History]:
    """Returns the counties of several manifests, one for each edition, or of one with all editions, through these editions.
    Raises Failure."""
    return histories(editions_of([os.fspath(name) for name in manifests], editions)[0])
