"""The command diff of tigercanon-tools: reports where two maps differ."""

from __future__ import annotations

import argparse
import gc
import json
import os
import threading
from typing import Callable

from ..errors import Failure
from ..manifests import flags_of
from ..program import find_program
from ..progress import Console, print_bytes, print_lines
from ..resources import STANDARD_OUTPUT, Kept, Resources, new_files
from .differing import compared, open_sets
from .geojson import features, head, write_geojson
from .matching import Comparison
from .page import find_page, write_page
from .sets import Sets, found
from .words import KINDS, SUBJECTS, told

ABOUT = """\
Show where two maps differ. FIRST and SECOND are each a file with all records
of a county, a zip with its files, or the beginning of the names of its files.
Chains are matched by their points, and shown in canonical direction. Whether
the maps are the same is decided by the program, which is proved. The list of
differences isn't proved.

Exit status: 0 if the maps are the same, 1 if they differ, 2 if they can't be
compared or the answer can't be written.
"""

PATIENCE = 2.0  # after this many seconds the progress is reported on standard error


class Steps(threading.Timer):
    """Reports the current step of the block, if the whole takes a while."""

    def __init__(self, console: Console) -> None:
        super().__init__(PATIENCE, lambda: console.report(self.step))
        self.daemon, self.console, self.step = True, console, "finding the sets"

    def __enter__(self) -> Steps:
        self.start()
        return self

    def __exit__(self, *_: object) -> None:
        self.cancel()

    def at(self, step: str) -> None:
        self.step = step
        if self.finished.is_set():
            self.console.report(step)


def add_arguments(parser: argparse.ArgumentParser, name_of: Callable[[str], str]) -> None:
    parser.formatter_class = argparse.RawDescriptionHelpFormatter
    parser.description = ABOUT
    add = parser.add_argument
    add("first", metavar="FIRST", help="the first set")
    add("second", metavar="SECOND", help="the second set")
    add("--stem", action="store_true", help="use FIRST and SECOND as the beginnings of names, even if such files exist")
    add("--summary", action="store_true", help="print only how many of each kind differ")
    add("--json", action="store_true", help="print the differences as JSON, or with --summary how many there are")
    about = "write tigercanon.html with both counties in it, to be opened in a browser, and print only what --summary or --json asks for"
    add("--page", metavar="FILE", type=name_of, help=f"{about}; - is standard output, without any report")
    about = "write the differences as GeoJSON, for any GIS; - is standard output, without the report"
    add("--geojson", metavar="FILE", type=name_of, help=about)
    add("--all", action="store_true", help="with --geojson: also write what is the same in both maps")


def run(options: argparse.Namespace, console: Console, resources: Resources) -> int:
    outputs = outputs_of(options)
    gc.disable()  # the counties are kept until the end, and looking for garbage in them takes a third of the time
    return reported_difference(options, outputs, console, resources)


def outputs_of(options: argparse.Namespace) -> list[str]:
    """Returns the names of the files to be written. Rejects options that don't go together."""
    outputs = [name for name in (options.page, options.geojson) if name is not None]
    if options.all and options.geojson is None:
        raise Failure("--all needs --geojson")
    if len({"-" if name in STANDARD_OUTPUT else os.path.realpath(name) for name in outputs}) < len(outputs):
        raise Failure("--page and --geojson name the same file")
    if options.json and any(name in STANDARD_OUTPUT for name in outputs):
        raise Failure("--json prints the differences, so no other output can go to standard output")
    return [name for name in outputs if name not in STANDARD_OUTPUT]


def reported_difference(options: argparse.Namespace, outputs: list[str], console: Console, resources: Resources) -> int:
    template = find_page() if options.page is not None else None
    program, kept = find_program(options.program), Kept()
    with Steps(console) as steps, resources.part() as part:
        names = (options.first, options.second)
        counties = [found(name, options.stem) for name in names]
        read = [file.place for county in counties for file in county.places]
        inputs = resources.inputs([*read, program, *([str(template)] if template else [])])
        with new_files(outputs, inputs, resources, options.force) as files:
            page, geojson = (files.get(name, kept) if name else None for name in (options.page, options.geojson))
            both = open_sets(counties, names, program, flags_of(options), part, steps.at)
            for note in both.notes:
                console.report(note)
            comparison = None
            if geojson or has_report(options):
                with_numbers = bool(geojson or options.json or not options.summary)
                comparison = compared(both, program, part, steps.at, with_numbers)
            if page and template:
                steps.at("writing the page")
                write_page(page, template, options.page, both.packed, comparison, both.sets)
            if geojson and comparison:
                steps.at("writing GeoJSON")
                write_geojson(geojson, comparison, both.sets, options.all)
    if kept in (page, geojson):
        print_bytes(b"".join(kept.pieces))
    elif comparison and has_report(options):
        is_summary, sets = options.summary, both.sets
        print_lines([as_json(comparison, sets, is_summary)] if options.json else told(comparison, sets, is_summary))
    return int(not both.sets.are_one_map)


def has_report(options: argparse.Namespace) -> bool:
    """Returns whether the differences are printed: a page shows them itself."""
    return options.page is None or options.summary or options.json


def as_json(comparison: Comparison, sets: Sets, is_summary: bool) -> str:
    counts = {f"{subject}s": dict(zip(KINDS, part.counts)) for subject, part in zip(SUBJECTS, comparison.parts)}
    differences = {} if is_summary else {"differences": [properties for _, properties in features(comparison)]}
    return json.dumps({**head(comparison, sets), "counts": counts, **differences}, ensure_ascii=False, indent=1)
