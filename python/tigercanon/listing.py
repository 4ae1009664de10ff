"""The commands that compare manifests and judge nothing: changes and duplicates."""

from __future__ import annotations

import argparse
from collections import Counter
from typing import Any, Iterator, Sequence

from .diff import words
from .editions import KINDS, History, editions_of, groups_of, histories
from .errors import Failure
from .manifests import Flags, loaded
from .pages import Comparing, Counts, Pages, counts_of
from .progress import Console, Progress, as_json, counted, print_lines
from .resources import Resources

SHOWN_KINDS = words.KINDS[:3]  # of what differs


def list_duplicates(options: argparse.Namespace, console: Console, resources: Resources) -> int:
    resources.inputs([options.manifest])
    _, lines = loaded(options.manifest)
    groups, folders = groups_of(lines), sum(line.is_folder for line in lines)
    left = sum(line.state == "unchecked" for line in lines) - folders
    different = [group for group in groups if group.is_different]
    of_different = f"{len(different):,} of counties with different names" if different else "none of counties with different names"
    counties = counted(sum(len(group.counties) for group in groups), "county")
    unchecked = f"; {counted(left, 'county')} {'is' if left == 1 else 'are'}n't checked yet" if left else ""
    unlisted = f"; {counted(folders, 'folder')} couldn't be listed" if folders else ""
    console.report(f"{counted(len(groups), 'group')} of one map with {counties}, {of_different}{unchecked}{unlisted}")
    shown = different if options.different else groups
    if options.json:
        print_lines(as_json({"fingerprint": group.fingerprint, "counties": list(group.counties)}) for group in shown)
    else:
        print_lines("\n".join(group.lines) + ("" if group is shown[-1] else "\n") for group in shown)
    return 0


def list_changes(options: argparse.Namespace, console: Console, resources: Resources) -> int:
    resources.inputs(options.manifests)
    editions, flags = editions_of(options.manifests, options.edition)
    every = histories(editions)
    if any((options.root, options.program, options.jobs)) and not (options.pages or options.stat):
        raise Failure("--root, --program and --jobs need --pages or --stat")
    if options.force and not options.pages:
        raise Failure("--force needs --pages")
    shown = [each for each in every if not (options.quiet and each.is_same)]
    if options.stat:
        list_counts(every, flags, options, console, resources)
    elif options.json:
        print_lines(map(as_json, map(row_of, shown)))
    else:
        print_lines(of_two(shown) if len(editions) == 2 else table(shown))
    report_counts(every, console)
    unlisted = [f"{edition.name}: {line.stem} couldn't be listed" for edition in editions for line in edition.folders]
    for text in dict.fromkeys(unlisted):
        console.report(f"{text}, so it isn't known which counties are in it")
    if options.pages:
        list_pages(every, flags, options, console, resources)
    return int(bool(unlisted) or any(not each.is_same for each in every))


def list_pages(
    histories: Sequence[History], flags: Flags, options: argparse.Namespace, console: Console, resources: Resources
) -> None:
    """Writes the pages of the option --pages."""
    comparing = Comparing(flags, options.root, options.program)
    pages = Pages(histories, options.pages, options.manifests, comparing, resources, options.force)
    if pages.are_there:
        console.report(f"pages that are there already: {pages.are_there:,} of {len(pages.changes):,}")
    for change, why in pages.write(Progress(console, "page"), options.jobs):
        if why:
            console.report(f"{change.county}: no page: {why}")
    console.report(f"{counted(len(pages.changes) - len(pages.reasons), 'page')} and index.html are in {options.pages}")


def list_counts(
    histories: Sequence[History], flags: Flags, options: argparse.Namespace, console: Console, resources: Resources
) -> None:
    """Prints how many things differ in each county that changed."""
    comparing = Comparing(flags, options.root, options.program)
    counts = [*counts_of(histories, comparing, resources, Progress(console), options.jobs)]
    if options.json:
        keys = [{"county": each.change.county, "editions": each.change.editions} for each in counts]
        print_lines(as_json({**key, "counts": each.counts or None, "reason": each.why or None}) for key, each in zip(keys, counts))
    else:
        print_lines(table_of_counts(counts))


def table_of_counts(counts: Sequence[Counts]) -> Iterator[str]:
    """Yields a line for each county: how many chains and so on are only in the first map, only in the second, and changed."""
    names = [*next((each.counts for each in counts if each.counts), {})]
    rows = [["county", "editions", *names]]
    for each in counts:
        cells = ["/".join(f"{each.counts[name][kind]:,}" for kind in SHOWN_KINDS) for name in names] if each.counts else [each.why]
        rows.append([each.change.county, " to ".join(each.change.editions), *cells])
    widths = [max(len(row[place]) for row in rows if len(row) == len(rows[0]) or place < 2) for place in range(len(rows[0]))]
    for row in rows if counts else []:
        yield "  ".join(f"{cell:{width}}" for cell, width in zip(row, widths)).rstrip()


def of_two(histories: Sequence[History]) -> Iterator[str]:
    """Yields a line for each county of two editions: how it changed, and its name in the later one."""
    for each in histories:
        (step,), old = each.steps, each.lines[0]
        before = f"  was {old.stem}" if step == "renamed" and old else ""
        yield f"{step}  {each.last.stem}{before}"


def table(histories: Sequence[History]) -> Iterator[str]:
    """Yields a line for each county: the number of its map in each edition, and how it changed."""
    if not histories:
        return
    rows = [("county", histories[0].editions, "")]
    for each in histories:
        cells = tuple(
            "-" if line is None else line.state if line.refusal else str(number) for line, number in zip(each.lines, each.maps)
        )
        rows.append((each.county, cells, each.verdict))
    widths = [max(map(len, column)) for column in zip(*(cells for _, cells, _ in rows))]
    first = max(len(name) for name, _, _ in rows)
    for name, cells, verdict in rows:
        yield "  ".join([f"{name:{first}}", *(f"{cell:>{width}}" for cell, width in zip(cells, widths)), verdict]).rstrip()


def row_of(each: History) -> dict[str, Any]:
    """Returns a county in JSON."""
    present = [(edition, line, number) for edition, line, number in zip(each.editions, each.lines, each.maps) if line]
    return {
        "county": each.county,
        "change": each.steps[0] if len(each.editions) == 2 else each.verdict,
        "editions": [
            {
                "edition": edition,
                "name": line.stem,
                "map": number,
                "fingerprint": line.fingerprint or None,
                "refusal": line.refusal or None,
            }
            for edition, line, number in present
        ],
    }


def report_counts(histories: Sequence[History], console: Console) -> None:
    """Reports how many counties there are of each kind, in each edition after the first."""
    editions = histories[0].editions if histories else ()
    for place, edition in enumerate(editions[1:], 1):
        counts = Counter(each.step(place) for each in histories)
        line = ", ".join(f"{counts[kind]:,} {kind}" for kind in KINDS if counts[kind] or kind in KINDS[:4])
        console.report(line if len(editions) == 2 else f"{edition}: {line}")
