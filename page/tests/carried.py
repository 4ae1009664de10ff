"""Pages with two counties in them, as tigercanon-tools and the page itself write them: they compare them when they are opened."""

from __future__ import annotations

import gzip
import os
import time
from itertools import islice
from pathlib import Path
from typing import Any

import pairs
from dev.testing import run
from given import autauga, zipped
from in_browser import EXAMPLES, TOOLS, Page
from tigercanon.diff.matching import Tie
from tigercanon.diff.words import Thing, things, tie_line


PAIRS = int(os.environ.get("PAGE_PAIRS", "30"))
MOST_FIELDS = 3  # that the list shows of what changed
COMPARED = "document.querySelector('.compared')?.dataset.numbered || document.querySelector('.verdict .accepted')"
ITEMS = """
Array.from(document.querySelectorAll(".differences > li"), (item) => [".name", ".quiet", ".numbers", ".rest"].map((part) =>
  Array.from(item.querySelectorAll(part), ({ textContent }) => textContent.trim())))
"""
FINGERPRINTS = "Array.from(document.querySelectorAll('.sets code'), ({ textContent }) => textContent)"


def items(page: Page) -> list[Any]:
    """The title, the kind, the numbers and the lines of each difference in the list."""
    listed = page.browser.evaluate(ITEMS.strip())
    return [[title[0], kinds[0], "".join(numbers), lines] for title, kinds, numbers, lines in listed]


def item_of(thing: Thing) -> list[Any]:
    """What the list shows of a thing, by the text of the tools."""
    fields = (
        [f"{row.name.label} {row.first} → {row.second}" for row in thing.rows() if row.differs] if thing.kind == "changed" else []
    )
    more = len(fields) - MOST_FIELDS
    lines = fields[:MOST_FIELDS] + ([f"and {more} more field{'' if more == 1 else 's'}"] if more > 0 else [])
    return [thing.name.strip(), f"{thing.what} {thing.kind}", thing.numbers, [line.strip() for line in lines or [thing.about]]]


def item_of_tie(tie: Tie) -> list[Any]:
    return [tie_line(tie).rstrip(":"), "joined differently", "", [f"at {len(tie.points)} places"]]


def open_page(page: Page, path: Path) -> bool:
    page.browser.go(path.as_uri())
    return page.browser.wait_for(COMPARED)


def try_random_pairs(page: Page) -> None:
    """The list of a page is the output of diff."""
    path = page.room / "pair.html"
    for pair in islice(pairs.pairs(page.program, page.room, int(time.time())), PAIRS):
        flags = [flag for flag in pair.flags if flag != "--all"]
        path.write_bytes(pair.page)
        name, (sets, comparison, *_) = f"{pair.files[0].name} {' '.join(flags)}", pair.differing
        page.holds(f"{name} is compared", open_page(page, path), page.browser.text("main"))
        page.equal(
            f"fingerprints of {name}", [sets.first.fingerprint, sets.second.fingerprint], page.browser.evaluate(FINGERPRINTS)
        )
        wanted = [*map(item_of, things(comparison)), *map(item_of_tie, comparison.ties)]
        page.equal(f"the list of {name}", wanted, items(page))


def try_saved_comparison(page: Page) -> None:
    """A comparison that was saved shows the same when it is opened."""
    files = [EXAMPLES / "two-maps/first.txt", EXAMPLES / "two-maps/second.txt"]
    path = page.room / "made.html"
    run([TOOLS, "diff", "--program", page.program, "--page", path, "--no-sources", *files])
    open_page(page, path)
    page.equal(
        "the masks",
        [True, False],
        page.browser.evaluate("['no-sources', 'no-reserved'].map((id) => document.getElementById(id).checked)"),
    )
    page.equal(
        "the names",
        [str(file) for file in files],
        page.browser.evaluate("Array.from(document.querySelectorAll('.sets .name bdi'), ({ title }) => title)"),
    )
    wanted, shown = items(page), page.browser.text(".verdict")
    page.browser.execute("Array.from(document.querySelectorAll('.sets button')).at(-1).click()")
    saved = page.room / "saved.html"
    saved.write_bytes(page.browser.downloaded("first-second.html"))
    page.holds("the saved page compares them", open_page(page, saved), page.browser.text("main"))
    page.equal("the list of the saved page", wanted, items(page))
    page.equal("its verdict", shown, page.browser.text(".verdict"))
    page.browser.start_again()
    page.equal("the flag at a new start", False, page.browser.evaluate("document.getElementById('no-sources').checked"))
    page.holds("there are differences", wanted)


def try_saved_files(page: Page) -> None:
    """A comparison of files of each form can be saved, and shows the same when it is opened."""
    nine = sorted((EXAMPLES / "autauga").glob("TGR01001.RT*"))
    zip_file = zipped(page.room / "TGR01002.zip", autauga("autauga-renumbered"))
    packed = page.room / "town.txt.gz"
    packed.write_bytes(gzip.compress((EXAMPLES / "two-maps/first.txt").read_bytes()))
    saved = page.room / "saved.html"
    for files, name in (
        ([*nine, zip_file], "TGR01001-TGR01002"),
        ([packed, EXAMPLES / "two-maps/second.txt"], "second-town.txt.gz"),
    ):
        page.show(files, COMPARED)
        wanted = page.browser.texts(".verdict, .sets code, .sets .name")
        page.browser.execute("Array.from(document.querySelectorAll('.sets button')).at(-1).click()")
        saved.write_bytes(page.browser.downloaded(f"{name}.html"))
        page.holds(f"{name} is compared", open_page(page, saved), page.browser.text("main"))
        page.equal(f"what is shown of {name}", wanted, page.browser.texts(".verdict, .sets code, .sets .name"))


CASES = (try_random_pairs, try_saved_comparison, try_saved_files)
