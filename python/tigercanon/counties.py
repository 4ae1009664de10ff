"""Finds the counties of an archive: in folders, by globs, by names and behind URLs."""

from __future__ import annotations

import os
import re
from dataclasses import replace
from fnmatch import fnmatchcase
from functools import lru_cache
from typing import Callable, Collection, Iterable, Iterator, Sequence

from .errors import Failure, Unreadable, reason
from .judge import County, File
from .layout import TYPES, folded, is_record, key_of, kind_of, stem_of
from .storage import Entry, entries, entry_of, first_line, is_absent, is_folder, is_url, joined, parted, real, tidy

MAGIC = re.compile(r"[*?[]")
COUNTY_NAME = re.compile("TGR[0-9]{5}")
OTHER_ENDINGS = (".met", ".csv", ".geojson", ".html")  # of files that are distributed with a county's records, or made of them
KINDS = (*TYPES, "ZIP")
Names = dict[str, list[Entry]]  # the files of one stem in a folder, by their kinds


class Finder:
    """Finds counties, and notes the files that it skips. It leaves out the files of the run itself, what one of these globs excludes, what
    a Mac leaves in folders, and hidden folders. listed are the names of counties in a manifest, folded."""

    def __init__(self, own_files: Collection[str] = (), excluded: Sequence[str] = (), listed: Collection[str] = ()) -> None:
        self.entries = lru_cache(maxsize=None)(entries)
        self.by_key = lru_cache(maxsize=None)(lambda folder: keyed(self.entries(folder)))
        self.own_files, self.excluded, self.listed = {real(name) for name in own_files}, excluded, listed
        self.skipped: dict[str, str] = {}  # the paths of other files, by the names that they have once
        self.same: list[tuple[str, str]] = []
        self.walked: set[str] = set()  # the folders of sources that have counties
        self.passed: set[str] = set()  # links to folders that were walked under another name

    def all(self, sources: Iterable[str]) -> list[County]:
        """Returns the counties of all sources. One may be there several times."""
        return [county for source in sources for county in self.of_source(source)]

    def once(self, counties: Iterable[County], is_known: Callable[[County], bool] = lambda _: False) -> tuple[list[County], int]:
        """Returns the counties that aren't known, each once; and how many are known. Of several names of the same files those in the
        manifest count, or else the first."""
        counted: dict[str, County] = {}
        stems: dict[tuple[str, ...], str] = {}
        known: set[str] = set()
        for county in sorted(counties, key=lambda county: folded(county.stem) not in self.listed):
            places = () if county.trouble else county.real_places  # links that lead nowhere may lead to one name
            first = stems.setdefault(places, county.stem) if places else county.stem
            if is_known(county):
                known.add(county.stem)
            elif first != county.stem and county.stem not in counted and folded(county.stem) not in self.listed:
                self.same.append((county.stem, first))
            else:
                counted.setdefault(county.stem, county)
        return list(counted.values()), len(known)

    def counties(self, sources: Iterable[str], is_known: Callable[[County], bool] = lambda _: False) -> tuple[list[County], int]:
        """Returns the counties of all sources that aren't known, each once; and how many are known."""
        return self.once(self.all(sources), is_known)

    def of_source(self, source: str) -> Iterator[County]:
        """Yields the counties of a source: a folder, the name of a county or of one of its files, or a glob. If a county's name
        looks like a glob, the name finds it too."""
        path = tidy(source) or ("/" if source.startswith("/") else "")
        try:
            if not (kind_of(path) and is_url(path)) and is_folder(path or "."):
                walked: set[str] = set()
                counties = list(self.below(path, set(), walked))
                self.walked |= walked if any(not county.trouble for county in counties) else set()
                yield from counties or [County(path or ".", trouble="there is no county in this folder", is_absent=True)]
            elif MAGIC.search(path) and not self.is_named(path):
                yield from self.of_glob(path)
            else:
                yield self.of_name(path)
        except Failure:
            raise
        except Exception as error:
            yield County(source, trouble=f"can't be read: {reason(error)}")

    def below(self, folder: str, seen: set[str], walked: set[str]) -> Iterator[County]:
        """Yields the counties in a folder and in all folders below it. Notes the folders that it has listed. Folders behind links come
        last, so that each is walked under its own name if that is below the folder too."""
        waiting = [folder]
        while waiting:
            yield from self.below_itself(waiting.pop(0), seen, walked, waiting)

    def below_itself(self, folder: str, seen: set[str], walked: set[str], links: list[str]) -> Iterator[County]:
        """Yields the counties in a folder and below it. Adds links to folders to those that are still to be walked."""
        if real(folder or ".") in seen:
            self.passed.add(folder)
            return
        seen.add(real(folder or "."))
        try:
            listed = self.entries_in(folder)
        except Exception as error:
            yield unlisted(folder, error)
            return
        walked.add(folder)
        for names in names_among(listed).values():
            county = county_of(folder, names)
            yield self.noted(county, folder, self.alike(folder, parted(county.stem)[1]))
        for entry in listed:
            if not entry.is_folder and kind_of(entry.name) not in KINDS:
                yield from self.whole(folder, entry)
        for path in [joined(folder, entry.name) for entry in listed if entry.is_folder]:
            if os.path.islink(path):
                links.append(path)
            else:
                yield from self.below_itself(path, seen, walked, links)

    def entries_in(self, folder: str) -> list[Entry]:
        """Returns the entries of a folder without those that are left out."""
        return [entry for entry in self.entries(folder) if not (is_left_out(entry) or self.is_excluded(joined(folder, entry.name)))]

    def is_excluded(self, path: str) -> bool:
        """Returns whether a glob excludes a path, or the name at its end."""
        return any(fnmatchcase(path, glob) or fnmatchcase(parted(path)[1], glob) for glob in self.excluded)

    def whole(self, folder: str, entry: Entry) -> Iterator[County]:
        """Yields the county of a file that is none of a county's nine, or nothing: then the file is noted as skipped, once."""
        path = joined(folder, entry.name)
        if real(path) in self.own_files:
            return
        county = county_in(folder, entry, folded(path) in self.listed)
        if not county:
            self.skipped.setdefault(real(path), path)
            return
        alike = self.alike(folder, entry.name)
        names = names_among(alike).get(folded(entry.name))
        yield self.noted(county_of(folder, names), folder, alike) if names else self.alone(county, folder, alike)

    def alike(self, folder: str, name: str) -> list[Entry]:
        """Returns the entries of a folder whose names differ from this one only in case or ending, without those that are left out."""
        keys = dict.fromkeys((folded(stem_of(name)), key_of(name)))
        listed = [entry for key in keys for entry in self.by_key(folder).get(key, [])]
        return [entry for entry in listed if not (is_left_out(entry) or self.is_excluded(joined(folder, entry.name)))]

    def wholes_of(self, county: County, folder: str, alike: Iterable[Entry]) -> list[str]:
        """Returns the names of the files with all records whose names differ from a county's at most in case."""
        named = [(entry, joined(folder, entry.name)) for entry in alike if not entry.is_folder]
        named = [(entry, path) for entry, path in named if folded(path) == folded(county.stem) and real(path) not in self.own_files]
        return [entry.name for entry, path in named if county.whole and path == county.stem or county_in(folder, entry)]

    def noted(self, county: County, folder: str, alike: Iterable[Entry]) -> County:
        """Returns the county of a zip or single files, with a note for a file of its name without an ending: a manifest can't have both."""
        notes = [f"the file {name} beside it isn't read" for name in self.wholes_of(county, folder, alike)]
        return replace(county, notes=(*county.notes, *notes))

    def alone(self, county: County, folder: str, alike: Iterable[Entry]) -> County:
        """Returns the county of one file with all records. If another one's name differs only in case, it is one county that fails."""
        names = self.wholes_of(county, folder, alike)
        first, *others = [real(joined(folder, name)) for name in names] or [""]
        if all(other == first for other in others):
            return county
        return County(joined(folder, names[0]), whole=File(first, None), trouble=wholes_in(names))

    def of_glob(self, pattern: str) -> Iterator[County]:
        """Yields the counties that a glob matches: folders with all that is in them, zips and files."""
        root, words = pattern, list[str]()
        while MAGIC.search(root):
            root, word = parted(root)
            words.insert(0, word)
        count = 0
        for folder, entry in self.matches(root, words):
            path = joined(folder, entry.name)
            if entry.is_folder:
                counties = self.below(path, set(), self.walked)
            else:
                counties = iter([self.of_name(path)]) if kind_of(path) else self.whole(folder, entry)
            for county in counties:
                count += 1
                yield county
        if count == 0:
            yield County(pattern, trouble="no county matches this pattern", is_absent=True)

    def matches(self, folder: str, words: list[str]) -> Iterator[tuple[str, Entry]]:
        """Yields what a glob matches below a folder: the folder and the name in it. Two stars match any folders, and none."""
        word, rest = words[0], words[1:]
        if word == "**" and rest:
            yield from self.matches(folder, rest)
        for entry in self.entries(folder) if word.startswith(".") else self.entries_in(folder):
            if word == "**" and rest:
                if entry.is_folder:
                    yield from self.matches(joined(folder, entry.name), words)
            elif entry.name == word or fnmatchcase(entry.name, word) and (word.startswith(".") or not entry.name.startswith(".")):
                if not rest:
                    yield folder, entry
                elif entry.is_folder:
                    yield from self.matches(joined(folder, entry.name), rest)

    def has_walked(self, stem: str) -> bool:
        """Returns whether a county of this name would have been found: its folder was listed, or isn't there any more below one
        that was; or it was listed under another name."""
        folder, is_excluded = parted(stem)[0], self.is_excluded(stem)
        while folder not in self.walked and folder and not (is_url(folder) or os.path.lexists(folder)):
            is_excluded |= self.is_excluded(folder)
            folder = parted(folder)[0]
        is_behind_link = any(stem.startswith(f"{link}/") for link in self.passed)
        return (folder in self.walked or is_behind_link) and not is_excluded

    def is_named(self, path: str) -> bool:
        """Returns whether a path with the letters of a glob is the name of something that is there."""
        folder, name = parted(path)
        try:
            return os.path.lexists(path) or folded(stem_of(name)) in names_among(self.by_key(folder).get(folded(stem_of(name)), []))
        except Exception:
            return False

    def of_name(self, path: str, is_exact: bool = False) -> County:
        """Returns the county of this name, or the county that a file of this name belongs to. An exact name of a zip isn't one of the
        single files beside it."""
        folder, name = parted(path)
        try:
            listed = self.listed_for(path, folder)
        except Exception as error:
            return County(path, trouble=f"can't be read: {reason(error)}")
        by_key = self.by_key(folder) if listed and not is_url(path) else keyed(listed)
        alike = [entry for key in dict.fromkeys((folded(stem_of(name)), key_of(name))) for entry in by_key.get(key, [])]
        exact = [entry for entry in alike if entry.name == name]
        names = names_among(exact if is_exact and kind_of(name) == "ZIP" and exact else alike)
        if folded(stem_of(name)) in names:
            named = county_of(folder, names[folded(stem_of(name))])
            return named if is_exact else self.noted(named, folder, alike)
        if kind_of(name) and exact:
            return County(path, trouble="isn't one of a county's nine files")
        if exact and (exact[0].trouble or not exact[0].is_folder):
            return self.alone(whole_county(folder, exact[0]), folder, alike)
        county = None if kind_of(name) else rewritten(path, names, by_key.get(key_of(name), []))
        if county:
            return county
        if os.path.lexists(path):
            return County(path, trouble="isn't a regular file")
        absent = "no such file" if kind_of(path) and not is_url(path) else "no such file, folder or county"
        return County(path, trouble=absent, is_absent=True)

    def of_folder(self, path: str) -> County:
        """Returns a folder that couldn't be listed once, with the trouble that it has now, if any."""
        try:
            self.entries(path)
        except Exception as error:
            return replace(unlisted(path, error), is_absent=is_absent(error))
        return County(path, is_folder=True)

    def listed_for(self, path: str, folder: str) -> list[Entry]:
        """Returns the entries among which a county of this name is: those of its folder, or, of a plain server of files, which can't list a
        folder, those of its names that are there. Raises what stands in the way, unless the folder isn't there."""
        try:
            listed = self.entries(folder)
        except Exception as error:
            if not is_url(path) and not is_absent(error):
                raise
            listed = []
        return listed if listed or not is_url(path) else probed(path)


def unlisted(folder: str, error: Exception) -> County:
    """Returns a folder that can't be listed, in place of the counties in it."""
    return County(joined(folder or ".", ""), trouble=f"can't be listed: {reason(error)}", is_folder=True)


def keyed(listed: Iterable[Entry]) -> dict[str, list[Entry]]:
    """Returns the entries of a folder by their names without case and ending."""
    groups: dict[str, list[Entry]] = {}
    for entry in listed:
        groups.setdefault(key_of(entry.name), []).append(entry)
    return groups


def names_among(listed: Iterable[Entry]) -> dict[str, Names]:
    """Returns the counties in a folder with these entries, by their stems without case."""
    grouped: dict[str, Names] = {}
    for entry in listed:
        if kind_of(entry.name) in KINDS and not entry.is_folder:
            grouped.setdefault(folded(stem_of(entry.name)), {}).setdefault(kind_of(entry.name), []).append(entry)
    return grouped


def is_left_out(entry: Entry) -> bool:
    """Returns whether an entry of a folder is a leftover of a Mac, a hidden folder, or lost+found."""
    if entry.is_folder:
        return entry.name.startswith(".") or entry.name in ("__MACOSX", "lost+found")
    return entry.name.startswith(("._", ".DS_Store"))


def ending_of(name: str) -> str:
    """Returns the ending that a skipped file is counted by."""
    return ".tar.gz" if name.lower().endswith(".tar.gz") else os.path.splitext(name)[1] or "without an ending"


def county_in(folder: str, entry: Entry, is_listed: bool = False) -> County | None:
    """Decides what a file is that is neither one of a county's nine nor a zip: a county, one that fails for its trouble, or, by None,
    another file, which is skipped. What can't be opened, read or unpacked fails. A county is what begins with a record, and, however it
    begins, what has a county's name or is listed in a manifest."""
    path, inner = joined(folder, entry.name), re.sub(r"(?i)\.gz$", "", entry.name)
    is_county = is_listed or bool(COUNTY_NAME.fullmatch(key_of(entry.name)))
    if kind_of(entry.name) or inner.lower().endswith(OTHER_ENDINGS) or kind_of(inner) and not is_county:
        return None
    if kind_of(inner):
        return (
            County(path, trouble="it is one file of several, packed by gzip: unpack it first") if kind_of(inner) in KINDS else None
        )
    trouble = entry.trouble
    try:
        is_county |= not trouble and is_record(first_line(path))
    except Failure:
        raise
    except Exception as error:
        trouble = str(error) if isinstance(error, Unreadable) else f"can't be read: {reason(error)}"
    if is_county:
        return whole_county(folder, entry, trouble)
    return County(path, trouble=trouble) if trouble else None


def wholes_among(folder: str, listed: Iterable[Entry]) -> list[County]:
    """Returns the counties with all records in one file each. If some begin with a record, those."""
    counties = [county for county in (county_in(folder, entry) for entry in listed if not entry.is_folder) if county]
    sure = (
        [county for county in counties if county.whole and not county.trouble and is_record(first_line(county.whole.place))]
        if len(counties) > 1
        else []
    )
    return sure or counties


def rewritten(path: str, names: dict[str, Names], listed: Iterable[Entry]) -> County | None:
    """Returns the county of a name that isn't there, but is with other endings: it was packed into a zip, or written as one file with all
    records. names and listed are the counties and the entries whose names are the same without case and ending."""
    folder, name = parted(path)
    if key_of(name) in names:
        return county_of(folder, names[key_of(name)])
    wholes = wholes_among(folder, listed)
    if len(wholes) > 1:
        return County(path, trouble=wholes_in([parted(county.stem)[1] for county in wholes]))
    return wholes[0] if wholes else None


def placed(folder: str, entry: Entry) -> File:
    path = joined(folder, entry.name)
    return File(path if is_url(path) else os.path.abspath(path), entry.size)


def whole_county(folder: str, entry: Entry, trouble: str = "") -> County:
    """Returns the county of one file with all records, or one that fails for a trouble."""
    path, trouble = joined(folder, entry.name), trouble or entry.trouble
    if "\n" in path:
        return County(path, trouble="its name has a line break in it")
    # The program would take /dev/stdin for another file.
    return County(path, whole=File(real(path), None if trouble else entry.size), trouble=trouble)


def county_of(folder: str, names: Names) -> County:
    """Returns the county of files whose names differ only in their endings: the single files if there are any, else the zip."""
    kinds = [kind for kind in TYPES if kind in names]
    base = stem_of(names[kinds[0] if kinds else "ZIP"][0].name)
    stem = joined(folder, base)
    if "\n" in stem:
        return County(stem, trouble="its name has a line break in it")
    files = {kind: placed(folder, names[kind][0]) for kind in kinds or ["ZIP"]}
    trouble = next(filter(None, (trouble_of(kind, names[kind]) for kind in files)), "")
    if trouble:
        return County(stem, {kind: File(file.place, None) for kind, file in files.items()}, trouble=trouble)
    if not kinds:
        return County(stem, zip=files["ZIP"])
    notes = (f"its single files are read, and not {listing(names['ZIP'])}",) if "ZIP" in names else ()
    is_readable = not is_url(stem) and all(names[kind][0].name == f"{base}.RT{kind}" for kind in kinds)
    return County(stem, files, notes=notes, readable_stem=os.path.abspath(stem) if is_readable else None)


def trouble_of(kind: str, listed: Sequence[Entry]) -> str:
    """Returns what is wrong with the files of one kind that a county has."""
    if len(listed) > 1:
        return f"there are {len(listed)} {'zips' if kind == 'ZIP' else f'files of type {kind}'}: {listing(listed)}"
    return f"{listed[0].name} {listed[0].trouble}" if listed[0].trouble else ""


def listing(listed: Iterable[Entry]) -> str:
    return ", ".join(entry.name for entry in listed)


def wholes_in(names: Sequence[str]) -> str:
    """Returns what is wrong with a name that several files with all records have."""
    return f"there are {len(names)} files with all records: {', '.join(names)}"


def doubles_among(counties: Sequence[County]) -> dict[str, str]:
    """Returns the names of files with all records, each with the zip or the single files of the same name in the same folder."""
    sure = [county for county in counties if (county.zip or county.files) and not county.trouble]
    places = {(parted(county.stem)[0], key_of(county.stem)): county.stem for county in sure}
    pairs = [(county.stem, places.get((parted(county.stem)[0], key_of(county.stem)))) for county in counties if county.whole]
    return {stem: first for stem, first in pairs if first}


def probed(path: str) -> list[Entry]:
    """Returns the files of a county at a URL that are there, each asked for by its name. Raises the first error of a server
    that doesn't answer."""
    stem, there, troubles = stem_of(path), list[Entry](), list[Exception]()
    for name in dict.fromkeys((path, *(stem + ending for ending in (".ZIP", ".zip", *(f".RT{kind}" for kind in TYPES))))):
        try:
            there.append(entry_of(name))
        except Exception as error:
            troubles += [] if is_absent(error) else [error]
    if troubles and not there:
        raise troubles[0].__cause__ or troubles[0]
    return there
