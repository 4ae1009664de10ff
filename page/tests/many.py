"""Many counties in a browser: their table, manifests, and one thing after another."""

from __future__ import annotations

import gzip
import re
import time
from pathlib import Path

from dev.testing import make_county, run
from given import autauga, fingerprints, states, zipped
from in_browser import EXAMPLES, RESULT, TABLE, TOOLS, Page
from showing import LAPTOP, TOWN, resize

MANY = 300
SECONDS_FOR_MANY = 10.0  # until a manifest is compared with so many counties that were judged before
VERIFIED = "document.querySelector('.verified')"


NAMES = ".counties tbody tr:not([hidden]) th"


def show_table(page: Page) -> None:
    resize(page, LAPTOP)
    page.show([TOWN[1], EXAMPLES / "broken.txt", EXAMPLES / "autauga/all.txt", TOWN[0]], TABLE)


def try_sorting(page: Page) -> None:
    """The table has its faults first, and is sorted by its columns and filtered."""
    show_table(page)
    page.equal("faults first, then by names", ["broken.txt", "all.txt", "first.txt", "second.txt"], page.browser.texts(NAMES))
    found = []
    for column in (0, 0, 1):
        page.browser.execute("document.querySelectorAll('.counties thead button')[arguments[0]].click()", column)
        found.append(page.browser.texts(NAMES))
    page.equal("by name", ["all.txt", "broken.txt", "first.txt", "second.txt"], found[0])
    page.equal("by name, the other way round", ["second.txt", "first.txt", "broken.txt", "all.txt"], found[1])
    page.equal("by result", "broken.txt", found[2][-1])
    page.equal("the sorted column", ["Result"], page.browser.texts(".counties [aria-sort='ascending']"))
    page.browser.execute(
        "const box = document.getElementById('county-filter'); box.value = 'accepted s'; box.dispatchEvent(new Event('input'))"
    )
    page.equal("a filter of two words", ["first.txt", "second.txt"], sorted(page.browser.texts(NAMES)))
    page.equal("how many there are", "2 of 4", page.browser.text(".county-table .listed"))


def try_masked_table(page: Page) -> None:
    """The table is judged again with other flags."""
    show_table(page)
    for flags in (["--no-sources"], []):
        page.browser.click("#no-sources")
        fingerprint = page.printed("fingerprint", *flags, TOWN[0])
        shown = f"document.querySelector('.counties code[title=\"{fingerprint}\"]')"
        page.holds(f"the table is judged again with {flags}", page.browser.wait_for(shown), page.browser.text(".many"))
    page.browser.wait_for(TABLE)


def try_later_file(page: Page) -> None:
    """A later file takes the place of one with its name in the table."""
    show_table(page)
    mended = page.room / "mended/broken.txt"
    mended.parent.mkdir()
    mended.write_bytes((EXAMPLES / "autauga/all.txt").read_bytes())
    page.browser.give([mended])
    page.browser.wait_for("document.querySelector('.summary')?.textContent.includes('4 accepted')")
    page.equal("counties", dict.fromkeys(("all.txt", "broken.txt", "first.txt", "second.txt"), "Accepted"), states(page))
    page.equal("counties of one map", ["One map: all.txt, broken.txt."], page.browser.texts(".many .note p"))


def try_wanted(page: Page) -> None:
    """The table shows what a manifest has in place of a county's result."""
    show_table(page)
    manifest = page.room / "wanted.manifest"
    fingerprint = page.printed("fingerprint", TOWN[0])
    lines = [
        f"{fingerprint}  first.txt",
        *(f"{letter * 64}  {name}.txt" for letter, name in (("a", "second"), ("b", "broken"), ("c", "missing"))),
    ]
    manifest.write_text("".join(f"{line}\n" for line in ["# tigercanon form 1", *lines]))
    page.browser.give([manifest])
    page.holds("compared", page.browser.wait_for(VERIFIED), page.browser.text("main"))
    rows = {text.split()[0]: text for text in page.browser.texts(".counties tbody tr")}
    for what, name, letter in (("failed", "second.txt", "a"), ("refused", "broken.txt", "b")):
        wanted = f"in the manifest: {letter * 16}"
        page.holds(f"a {what} county's wanted fingerprint", "FAILED" in rows[name] and wanted in rows[name], rows)
    page.holds("a missing county", "MISSING" in rows["missing.txt"] and "not among these files" in rows["missing.txt"], rows)
    page.equal("another map", ["second.txt"], [name for name, text in rows.items() if "another map" in text])
    page.equal("failed ones first", ["broken.txt", "missing.txt", "second.txt"], page.browser.texts(NAMES)[:3])
    verdict = "Compared with wanted.manifest: 1 OK, 2 FAILED, 1 MISSING, 1 NEW. It was made with no flags."
    page.equal("the verdict", verdict, page.browser.text(".verified"))


def try_manifests(page: Page) -> None:
    """The last manifest that can be read is compared, and what is wrong with others is said. Names may have other folders."""
    torn, first, last = page.room / "a.manifest", page.room / "b.manifest", page.room / "c.manifest"
    torn.write_text("# tigercanon form 1\nnothing\n")
    first.write_text(f"# tigercanon form 1\n{'a' * 64}  first.txt\n")
    last.write_text(f"# tigercanon form 1\n{page.printed('fingerprint', TOWN[0])}  old/FIRST.TXT\n")
    page.show([torn, first, last, TOWN[0]], VERIFIED)
    page.equal(
        "notes",
        ["a.manifest: not a manifest: line 2 isn't a fingerprint and a name.", "There are 3 manifests; c.manifest is compared."],
        page.browser.texts(".many .refusal"),
    )
    how = "Counties are matched by their names without folder, case and ending. It was made with no flags."
    page.equal("the verdict", f"Compared with c.manifest: 1 OK. {how}", page.browser.text(".verified"))
    page.show([EXAMPLES / "broken.txt", torn], TABLE)
    page.equal("nothing to save", True, page.browser.evaluate("document.querySelector('.many .actions .main').disabled"))


def archive(page: Page) -> Path:
    """A folder of counties: zips and single files, accepted and refused ones, and other files."""
    folder = page.room / "tiger"
    folder.mkdir()
    zipped(folder / "TGR01001.ZIP", autauga())
    zipped(folder / "TGR01002.zip", autauga("autauga-renumbered"))
    for number in (3, 4, 5):
        make_county("--stem", "--seed", number, 200, folder / f"TGR0100{number}")
    (folder / "TGR01005.RT7").unlink()
    (folder / "TGR01004.RT2").rename(folder / "tgr01004.rt2")
    (folder / "TGR01006.RT1").write_bytes((EXAMPLES / "broken.txt").read_bytes())
    make_county("--seed", 3, 200, folder / "TGR01003.txt")
    for name, text in {
        "TGR01007": b"nothing",
        "TGR01008.RT1.gz": gzip.compress(b"1"),
        "TGR01010.txt": b"",
        "cut.txt.gz": gzip.compress(b"1" * 300)[:20],
        "readme.pdf": b"",
        "words.txt": b"nothing",
    }.items():
        (folder / name).write_bytes(text)
    return folder


def comparable(manifest: bytes) -> list[bytes]:
    """The lines of a manifest without the sizes and times of files, the words for what has failed, and the mark of an unproved program."""
    lines = re.sub(rb"(?m)^# [0-9?].*?  (refused .*|failed)(?:: .*?)?(  [^ ]*)$", rb"# \1\2", manifest).splitlines()
    return [line.replace(b" unproved", b"") for line in lines if not re.match(rb"# [0-9]", line)]


def try_many(page: Page) -> None:
    """A folder has the manifest that the tools make of it."""
    folder = archive(page)
    page.show([folder], TABLE, to="folder")
    page.browser.click(".many .actions .main")
    saved = page.browser.downloaded("counties.manifest")
    run([TOOLS, "fingerprint", "--program", page.program, "-o", "manifest", "tiger"], cwd=page.room)
    page.equal("the manifest of the page and of the tools", comparable((page.room / "manifest").read_bytes()), comparable(saved))
    text = page.browser.text(".summary")
    page.holds("skipped files are counted", "1 .pdf, 1 .txt" in text and "3 refused, 3 failed" in text, text)
    page.holds(
        "counties of one map", "tiger/TGR01001, tiger/TGR01002" in page.browser.text(".many .note"), page.browser.text(".many")
    )
    compare_changed(page, folder, saved.decode())
    compare_masked(page, folder)


def compare_changed(page: Page, folder: Path, saved: str) -> None:
    """Compares the folder with a manifest that has one wrong fingerprint, lacks a county, and lists two others."""
    lines = saved.splitlines(keepends=True)
    lines[2] = "0" * 64 + lines[2][64:]
    changed = page.room / "changed"
    comments = (
        "# 12 2026-11-29T22:20:40.7Z, 3 ?  tiger/TGR01001\n# 5 2026-11-29T22:20:40Z  refused 4 BadNumber 1 4 6  tiger/TGR01006\n"
    )
    changed.write_text("".join(lines[:-1]) + f"{comments}{'1' * 64}  tiger/TGR01009\n{'1' * 64}  tiger/words.txt\n")
    page.browser.give([changed])
    compared(page, changed, folder, "a manifest after the counties")
    page.equal(
        "a listed file isn't skipped", "Other files were skipped: 1 .pdf.", page.browser.text(".summary").partition("failed. ")[2]
    )
    page.equal("its flags", "It was made with no flags.", page.browser.text(".verified")[-26:])
    page.browser.click("tbody tr button")
    page.holds("a county of the table", page.browser.wait_for(RESULT), page.browser.text("main"))
    page.browser.execute("history.back()")
    compared(page, changed, folder, "the way back from a county")
    page.browser.start_again()
    page.browser.drop([folder, changed])
    compared(page, changed, folder, "a manifest with the counties")


def compare_masked(page: Page, folder: Path) -> None:
    """Compares the folder, which is shown, with a manifest that was made with a flag."""
    masked = page.room / "masked"
    run([TOOLS, "fingerprint", "--program", page.program, "--no-sources", "-o", masked, "tiger"], cwd=page.room)
    page.browser.give([masked])
    compared(page, masked, folder, "a manifest with a flag")
    page.equal("the flag of a manifest", "It was made with --no-sources.", page.browser.text(".verified")[-30:])
    box = "['checked', 'disabled'].map((is) => document.getElementById('no-sources')[is])"
    page.equal("the box of its flag", [True, True], page.browser.evaluate(box))
    page.browser.start_again()
    page.equal("the box at a new start", [False, False], page.browser.evaluate(box))


def compared(page: Page, manifest: Path, folder: Path, name: str) -> None:
    """Each badge is the tools' verdict about the county."""
    name_of_manifest = f"document.querySelector('.verified')?.innerText.startsWith('Compared with {manifest.name}')"
    page.holds(f"{name} is compared", page.browser.wait_for(name_of_manifest), page.browser.text("main"))
    verified = run([TOOLS, "verify", "--program", page.program, manifest, folder.name], cwd=page.room).out.decode()
    wanted = {line.split(": ")[0]: line.split(": ")[1].split()[0] for line in verified.splitlines()}
    page.equal(name, wanted, {stem: state for stem, state in states(page).items() if stem in wanted})


def many_counties(page: Page) -> Path:
    """A folder of counties that are different maps: a landmark has another name in each."""
    folder = page.room / "many"
    folder.mkdir()
    text = (EXAMPLES / "autauga/all.txt").read_bytes()
    place = next(match.start() for match in re.finditer(rb"(?m)^7", text)) + 24
    for number in range(MANY):
        (folder / f"{number:05}.txt").write_bytes(text[:place] + b"%-30d" % number + text[place + 30 :])
    return folder


def try_very_many(page: Page) -> None:
    folder = many_counties(page)
    page.browser.start_again()
    begun = time.monotonic()
    page.browser.drop([folder])
    page.holds(f"{MANY} counties", page.browser.wait_for(TABLE), page.browser.text(".summary"))
    judged = time.monotonic() - begun
    manifest = page.room / "many.manifest"
    page.browser.click(".many .actions .main")
    saved = page.browser.downloaded("counties.manifest")
    wrong = f"many/{MANY - 3:05}.txt"
    manifest.write_bytes(re.sub(rb"(?m)^.*(  %s)$" % wrong.encode(), rb"%s\1" % (b"0" * 64), saved))
    begun = time.monotonic()
    page.browser.drop([manifest])
    page.holds(f"a manifest after {MANY} counties", page.browser.wait_for(VERIFIED), page.browser.text(".summary"))
    verified = time.monotonic() - begun
    found = states(page)
    page.equal("what isn't OK", {wrong: "FAILED"}, {stem: state for stem, state in found.items() if state != "OK"})
    page.equal("rows", MANY, len(found))
    page.holds("the page isn't frozen by a manifest", verified < SECONDS_FOR_MANY, f"{verified:.1f} s after {judged:.1f} s")


SLOW_TO_BE_FOUND = """
const { prototype } = FileSystemFileHandle, { getFile } = prototype;
prototype.getFile = async function () {
  if (this.name === "00000.txt") await new Promise((resume) => setTimeout(resume, 1000));
  return getFile.call(this);
};
"""


def try_one_after_another(page: Page) -> None:
    """A later county is shown later, however long the first one takes to be found."""
    first, second = EXAMPLES / "two-maps/first.txt", EXAMPLES / "two-maps/second.txt"
    prints = {path: page.printed("fingerprint", path) for path in (first, second)}
    page.browser.execute(SLOW_TO_BE_FOUND)
    page.browser.start_again()
    page.browser.drop([page.room / "many"])
    page.browser.drop([first])
    page.browser.wait_for(f"document.querySelector('.summary')?.innerText.includes(' of {MANY + 1:,} ')")
    page.equal("a county after many", ["first.txt"], [stem for stem in states(page) if "/" not in stem])
    page.browser.drop([page.room / "many"])
    page.show([first])
    page.equal("what was dropped before a new start", {}, states(page))
    page.browser.give([second])
    page.holds(
        "the differences of both", page.browser.wait_for("document.querySelector('.differences li')"), page.browser.text("main")
    )
    page.equal("both fingerprints", list(prints.values()), fingerprints(page))
    page.browser.click("#no-sources")
    page.browser.wait_for("document.querySelector('.differences li')")
    masked = [page.printed("fingerprint", "--no-sources", path) for path in (first, second)]
    page.equal("both fingerprints without sources", masked, fingerprints(page))
    page.browser.click("#no-sources")


UNLISTED = """
const { prototype } = FileSystemDirectoryHandle, { values } = prototype;
prototype.values = function () {
  if (this.name === "south") throw new Error("no permission");
  return values.call(this);
};
globalThis.listAll = () => Object.assign(prototype, { values });
"""


def try_unlisted_folder(page: Page) -> None:
    """A folder that can't be listed has a row, and a line in the manifest."""
    folder, before = page.room / "archive", page.room / "before"
    (folder / "south").mkdir(parents=True)
    for path in (folder / "TGR01001.txt", folder / "south/TGR01003.txt"):
        path.write_bytes((EXAMPLES / "autauga/all.txt").read_bytes())
    page.browser.start_again()
    page.browser.execute(UNLISTED)
    page.browser.drop([folder])
    page.holds("a folder that can't be listed", page.browser.wait_for(TABLE), page.browser.text("main"))
    page.equal("its row", {"archive/south/": "Failed", "archive/TGR01001.txt": "Accepted"}, states(page))
    page.browser.click(".many .actions .main")
    before.write_bytes(page.browser.downloaded("counties.manifest"))
    page.equal("its line", b"# failed  archive/south/", comparable(before.read_bytes())[-1])
    page.browser.execute("listAll()")
    page.browser.start_again()
    page.browser.drop([folder, before])
    compared(page, before, folder, "a folder that can be listed again")


CASES = (
    try_sorting,
    try_masked_table,
    try_later_file,
    try_wanted,
    try_manifests,
    try_many,
    try_very_many,
    try_one_after_another,
    try_unlisted_folder,
)
