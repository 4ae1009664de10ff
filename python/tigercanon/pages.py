"""Writes a page for each county that changed between two editions, and an index of them."""

from __future__ import annotations

import html
import json
import os
import sys
from concurrent.futures import ThreadPoolExecutor
from functools import partial
from pathlib import Path
from typing import Iterator, NamedTuple, Sequence
from urllib.parse import quote

from .counties import Finder
from .diff.page import Carried, carried_by, find_page
from .diff.words import SUBJECTS
from .editions import History
from .errors import printable, reported
from .inputs import is_own_page, refuse_other_files, what_begins
from .manifests import Flags, Line
from .program import find_program
from .progress import Tally
from .resources import Resources, new_files
from .storage import joined

START = "import sys; sys.path[0] = sys.argv.pop(1); from tigercanon.__main__ import main; sys.exit(main())"
PACKAGES = str(Path(__file__).resolve().parent.parent)
NOT_THE_MAP = "on disk it isn't the map of the manifest any more"
HEAD = """\
<!DOCTYPE html>
<html lang="en">
<head>
<meta charset="utf-8">
<meta http-equiv="Content-Security-Policy" content="default-src 'none'; style-src 'unsafe-inline'">
<meta name="viewport" content="width=device-width, initial-scale=1">
<meta name="generator" content="tigercanon-tools changes">
<title>Counties that changed</title>
<style>
body { font: 1rem/1.5 system-ui, sans-serif; margin: 2rem auto; max-width: 70rem; padding: 0 1rem; color: #1d2733; }
table { border-collapse: collapse; width: 100%; }
th, td { padding: .25rem .6rem; border-bottom: 1px solid #d5dbe1; text-align: right; font-variant-numeric: tabular-nums; }
th:first-child, td:first-child, th:nth-child(2), td:nth-child(2), .why { text-align: left; }
thead th { position: sticky; top: 0; background: #fff; border-bottom: 2px solid #1d2733; }
</style>
</head>
<body>
<h1>Counties that changed</h1>
"""
ABOUT = "<p>%s. In each cell: only in the first map, only in the second, changed. The lists aren't proved.</p>\n"


class Change(NamedTuple):
    """A county that changed from one edition to the next, and the name of its page."""

    county: str
    editions: tuple[str, str]
    old: Line
    new: Line
    page: str


def changed(histories: Sequence[History]) -> Iterator[Change]:
    for each in histories:
        for place, step in enumerate(each.steps, 1):
            old, new = each.lines[place - 1 : place + 1]
            if step == "changed" and old and new and old.fingerprint:
                names = each.editions[place - 1], each.editions[place]
                suffix = f".{names[0]}-{names[1]}" if len(each.editions) > 2 else ""
                yield Change(each.county, names, old, new, f"{each.county}{suffix}.html".replace("/", "_"))


def carried_for(change: Change, folder: Path) -> Carried | None:
    """Returns what the page of a change carries, if it is there and has these two maps."""
    carried = carried_by(folder / change.page)
    return carried if carried and carried.fingerprints == (change.old.fingerprint, change.new.fingerprint) else None


class Comparing:
    """The command diff over the counties of changes, each by a separate process, with the flags of the manifests."""

    def __init__(self, flags: Flags, root: str | None = None, program: str | None = None) -> None:
        self.flags, self.root, self.program = flags, root, find_program(program)

    def names_of(self, change: Change) -> list[str]:
        """Returns the names of a county in both editions."""
        return [joined(self.root, line.stem) if self.root else line.stem for line in (change.old, change.new)]

    def run(self, change: Change, words: Sequence[str], resources: Resources) -> tuple[bytes, str]:
        """Returns what diff prints, and why it has failed if it has."""
        words = ["diff", *words, "--program", self.program, *self.flags, "--", *self.names_of(change)]
        ended = resources.run([sys.executable, "-B", "-c", START, PACKAGES, *words], is_tool=True)
        lines = ended.stderr.decode(errors="replace").strip().splitlines()
        if ended.returncode in (0, 1):
            return ended.stdout, ""
        return b"", printable(lines[-1].partition(": ")[2]) if lines else f"the command diff ended with status {ended.returncode}"


class Counts(NamedTuple):
    """How many things differ in a change, by their kinds; or why that isn't known."""

    change: Change
    counts: dict[str, dict[str, int]]
    why: str = ""


def counts_of(
    histories: Sequence[History], comparing: Comparing, resources: Resources, tally: Tally, jobs: int | None = None
) -> Iterator[Counts]:
    """Counts what differs in each change, several at a time."""

    def counted(change: Change) -> Counts:
        text, why = comparing.run(change, ["--summary", "--json"], resources)
        answer = json.loads(text) if text else {}
        shown = [answer.get(name, {}).get("fingerprint") for name in ("first", "second")]
        if text and shown != [change.old.fingerprint, change.new.fingerprint]:
            why = NOT_THE_MAP
        return Counts(change, {} if why else answer["counts"], why)

    changes = [*changed(histories)]
    tally.start(len(changes), 0)
    with ThreadPoolExecutor(jobs or len(os.sched_getaffinity(0))) as threads:
        for counts in threads.map(counted, changes):
            yield counts
            tally.end(0)
            tally.look()
    tally.close()


class Pages:
    """The pages of all changes in a folder, and the index of them. Pages that are there already stay, so a run that was stopped is
    continued by the next one."""

    def __init__(
        self,
        histories: Sequence[History],
        folder: str,
        manifests: Sequence[str],
        comparing: Comparing,
        resources: Resources,
        is_forced: bool = False,
    ) -> None:
        """Raises Failure if a page can't be written, before one is."""
        self.folder, self.changes, self.resources = Path(folder), [*changed(histories)], resources
        self.comparing = comparing
        self.index, template = str(self.folder / "index.html"), find_page()
        finder = Finder()
        counties = [finder.of_name(name) for change in self.changes for name in self.comparing.names_of(change)]
        read = [file.place for county in counties for file in county.places]
        self.inputs = resources.inputs([*manifests, *read, self.comparing.program, str(template)])
        names = [self.index, *(str(self.folder / change.page) for change in self.changes)]
        self.inputs.spare_all(names)
        self.is_forced = is_forced
        if not is_forced:
            refuse_other_files(names)
        with reported(folder):
            self.folder.mkdir(parents=True, exist_ok=True)
        self.left = [change for change in self.changes if carried_for(change, self.folder) is None]
        self.reasons: dict[str, str] = {}

    @property
    def are_there(self) -> int:
        """How many pages are there already."""
        return len(self.changes) - len(self.left)

    def write(self, tally: Tally, jobs: int | None = None) -> Iterator[tuple[Change, str]]:
        """Writes the pages that aren't there, several at a time, and then the index. Yields each change, and why it has no page if it
        has none."""
        tally.start(len(self.left), 0)
        with ThreadPoolExecutor(jobs or len(os.sched_getaffinity(0))) as threads, self.resources.part() as part:
            for change, why in zip(self.left, threads.map(partial(self.write_one, part), self.left)):
                if why:
                    self.reasons[change.page] = why
                yield change, why
                tally.end(0)
                tally.look()
        tally.close()
        with new_files([self.index], self.inputs, self.resources, self.is_forced) as files:
            files[self.index].write("".join(index(self.folder, self.changes, self.reasons)).encode())

    def write_one(self, resources: Resources, change: Change) -> str:
        """Writes a page by a separate process, and returns why there is none."""
        page = self.folder / change.page
        _, why = self.comparing.run(change, ["--summary", "--page", str(page), *["--force"] * self.is_forced], resources)
        if not why and carried_for(change, self.folder):
            return ""
        if not what_begins(str(page)):
            page.unlink(missing_ok=True)  # it doesn't show these maps
        return why or NOT_THE_MAP


def index(folder: Path, changes: Sequence[Change], reasons: dict[str, str]) -> Iterator[str]:
    """Yields the page with a line for each change: the counts, and a link to the page."""
    yield HEAD
    yield ABOUT % f"{len(changes):,} change{'' if len(changes) == 1 else 's'}"
    heads = "".join(f"<th>{subject}s</th>" for subject in SUBJECTS)
    yield f"<table>\n<thead><tr><th>County</th><th>Editions</th>{heads}</tr></thead>\n<tbody>\n"
    for change in changes:
        carried = carried_for(change, folder)
        cells = (
            "".join(f"<td>{' / '.join(f'{count:,}' for count in carried.counts[subject][:3])}</td>" for subject in SUBJECTS)
            if carried
            else ""
        )
        cells = cells or f'<td class="why" colspan="{len(SUBJECTS)}">{html.escape(reasons.get(change.page, "no page"))}</td>'
        name = html.escape(printable(change.county))
        link = f'<a href="{html.escape(quote(os.fsencode(change.page)))}">{name}</a>' if carried else name
        yield f"<tr><td>{link}</td><td>{html.escape(printable(' to '.join(change.editions)))}</td>{cells}</tr>\n"
    yield "</tbody>\n</table>\n"
    names = other_pages(folder, changes)
    others = [f'<a href="{html.escape(quote(os.fsencode(name)))}">{html.escape(printable(name))}</a>' for name in names]
    if others:
        yield f"<p>Of other manifests: {', '.join(others)}</p>\n"
    yield "</body>\n</html>\n"


def other_pages(folder: Path, changes: Sequence[Change]) -> list[str]:
    """Returns the names of pages in a folder that an earlier run has written for other changes."""
    names = {page.name for page in folder.glob("*.html") if page.is_file() and is_own_page(str(page))}
    return sorted(names - {"index.html", *(change.page for change in changes)})
