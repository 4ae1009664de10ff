"""What the page takes in a browser: drops, zips and broken files, and what is left at a new start."""

from __future__ import annotations

import gzip
import json
import os
import struct
import time
import zipfile
from pathlib import Path

from dev.testing import make_county
from in_browser import EXAMPLES, RESULT, TABLE, VERDICT, Page
from showing import TOWN

AUTAUGA = EXAMPLES / "autauga/all.txt"

ROWS = "Array.from(document.querySelectorAll('.counties tbody tr'), (row) => [row.cells[0].innerText, row.cells[1].innerText])"


def zipped(path: Path, files: dict[str, bytes]) -> Path:
    with zipfile.ZipFile(path, "w", zipfile.ZIP_DEFLATED) as archive:
        for name, text in files.items():
            archive.writestr(name, text)
    return path


def autauga(name: str = "autauga") -> dict[str, bytes]:
    return {path.name: path.read_bytes() for path in sorted((EXAMPLES / name).glob("TGR01001.RT*"))}


def fingerprints(page: Page) -> list[str]:
    return list(
        page.browser.evaluate(
            "Array.from(document.querySelectorAll('.fingerprint .digits, code.fingerprint'), (digits) => digits.textContent)"
        )
    )


def fingerprint(page: Page) -> str:
    return fingerprints(page)[0] if fingerprints(page) else ""


def states(page: Page) -> dict[str, str]:
    """The badge of each county in the table."""
    return dict(page.browser.evaluate(ROWS))


def try_drops(page: Page) -> None:
    """Drops as a file manager makes them, on a page that was opened from disk."""
    wanted = page.printed("fingerprint", EXAMPLES / "autauga/all.txt")
    zip_file = zipped(page.room / "TGR01001.ZIP", autauga())
    folder = page.room / "dropped"
    (folder / "below").mkdir(parents=True)
    for name, text in autauga().items():
        (folder / "below" / name).write_bytes(text)
    nine = sorted((folder / "below").iterdir())
    for what, files in {
        "a file": [EXAMPLES / "autauga/all.txt"],
        "nine files": nine,
        "a zip": [zip_file],
        "a folder": [folder],
    }.items():
        page.browser.start_again()
        page.browser.drop(files)
        page.holds(f"{what} that was dropped has a result", page.browser.wait_for(RESULT), page.browser.text("main"))
        page.equal(f"the fingerprint of {what} that was dropped", wanted, fingerprint(page))
    for name, text in {"other.txt": EXAMPLES / "two-maps/first.txt", "broken.txt": EXAMPLES / "broken.txt"}.items():
        (folder / name).write_bytes(text.read_bytes())
    page.browser.start_again()
    page.browser.drop([folder, zip_file])
    page.browser.wait_for(VERDICT + " || " + TABLE)
    accepted = dict.fromkeys(("TGR01001", "dropped/below/TGR01001", "dropped/other.txt"), "Accepted")
    page.equal("a folder with a broken county, and a zip", {**accepted, "dropped/broken.txt": "Refused"}, states(page))


def try_second_drop(page: Page) -> None:
    """A county that is dropped after another one is compared with it."""
    first, renumbered = EXAMPLES / "autauga/all.txt", page.room / "renumbered.txt"
    renumbered.write_bytes((EXAMPLES / "autauga-renumbered/all.txt").read_bytes())
    for second, verdict in {
        renumbered: "Same map",
        EXAMPLES / "autauga-one-address.txt": "Different maps",
        EXAMPLES / "broken.txt": "They can't be compared: not both are accepted.",
    }.items():
        page.browser.start_again()
        page.browser.drop([first])
        page.browser.wait_for(RESULT)
        page.browser.drop([second])
        page.browser.wait_for(VERDICT)
        page.equal(f"{second.name} that was dropped second", verdict, page.browser.text(".verdict h2, .verdict .none"))
    again = page.room / "again/all.txt"
    again.parent.mkdir(exist_ok=True)
    again.write_bytes((EXAMPLES / "autauga-renumbered/all.txt").read_bytes())
    page.show([first])
    page.browser.give([again])
    page.browser.wait_for(VERDICT)
    page.equal("two files of one name", ["all.txt", "all.txt (2)"], page.browser.texts(".sets .name"))


def try_zips(page: Page) -> None:
    wanted = page.printed("fingerprint", EXAMPLES / "autauga/all.txt")
    small = {name.lower(): text for name, text in autauga().items()}
    for files in (autauga(), small, {f"in/{name}": text for name, text in autauga().items()}):
        page.show([zipped(page.room / "TGR01001.ZIP", files)])
        page.equal(f"the fingerprint of a zip with {[*files][0]}", wanted, fingerprint(page))


def broken_zips(page: Page) -> dict[Path, str]:
    """Zips that can't be read, and the page's message about each."""
    whole = zipped(page.room / "whole.zip", autauga()).read_bytes()
    at = whole.index(b"PK\1\2")
    entry = whole.index(b"TGR01001.RT1", at) - 46

    def file(name: str, text: bytes) -> Path:
        (page.room / name).write_bytes(text)
        return page.room / name

    def changed(place: int, format: str, value: int) -> bytes:
        length = struct.calcsize(format)
        return whole[: entry + place] + struct.pack(format, value) + whole[entry + place + length :]

    return {
        file("cut.zip", whole[:-500]): "The zip is cut off.",
        file("text.zip", b"nothing"): "It isn't a zip.",
        file("sum.zip", changed(16, "<I", 1)): "The zip is broken at TGR01001.RT1.",
        file("small.zip", changed(24, "<I", 20)): "The zip is broken at TGR01001.RT1.",
        file("large.zip", changed(24, "<I", 4_000_000_000)): "The zip unpacks to 4,000,002,",
        file("method.zip", changed(10, "<H", 99)): "The zip can't be unpacked: TGR01001.RT1 is compressed by an unknown method.",
        file("locked.zip", changed(8, "<H", 1)): "The zip is locked with a password.",
        file("directory.zip", whole[:at] + b"XXXX" + whole[at + 4 :]): "The zip is broken: its directory can't be read.",
        zipped(page.room / "none.zip", {"a.txt": b""}): "The zip has no county in it.",
        zipped(page.room / "two.zip", {"A.RT1": b"", "B.RT1": b""}): "The zip has 2 counties in it: A, B.",
        zipped(page.room / "twice.zip", {"A.RT1": b"", "a.rt1": b""}): "The zip has 2 files .RT1.",
    }


def try_broken_files(page: Page) -> None:
    for path, sentence in broken_zips(page).items():
        page.show([path])
        page.holds(path.name, page.browser.text(".refusal .line").startswith(sentence), page.browser.text("main"))
    packed = page.room / "packed.txt.gz"
    packed.write_bytes(gzip.compress((EXAMPLES / "autauga/all.txt").read_bytes()))
    page.show([packed])
    page.equal("a file that gzip packed", page.printed("fingerprint", EXAMPLES / "autauga/all.txt"), fingerprint(page))
    empty = page.room / "empty.txt"
    empty.write_bytes(b"")
    page.show([empty])
    page.equal("an empty file", "It is empty, so it has no records.", page.browser.text(".refusal .line"))


def try_nothing(page: Page) -> None:
    """Files that are no county are told by their endings, and a new start takes that away."""
    folder = page.room / "nothing"
    folder.mkdir()
    for name in ("a.pdf", "b.pdf", "read.me"):
        (folder / name).write_bytes(b"nothing")
    other = page.room / "TGR01001.RT3"
    other.write_bytes(b"nothing")
    county = "A county is nine files .RT1 to .RTP, a zip of them, or one file with all records."
    for file, wanted in ((folder, "these: 2 .pdf, 1 .me"), (other, "this: 1 .RT3")):
        page.browser.start_again()
        page.equal("a complaint at a new start", "", page.browser.text("#complaint"))
        page.browser.drop([file])
        page.browser.wait_for("!document.getElementById('complaint').hidden")
        page.equal("a complaint", f"There is no county in {wanted}. {county}", page.browser.text("#complaint"))
    page.show([EXAMPLES / "two-maps/first.txt"])
    page.equal("a complaint beside a county", "", page.browser.text("#complaint"))


# Keeps the workers that aren't ended, and clicks as soon as something is shown.
STOPPED_AT = """
const [shown, clicked] = arguments;
globalThis.workers ??= new Set();
globalThis.Worker = class extends (globalThis.OwnWorker ??= Worker) {
  constructor(...words) {
    super(...words);
    workers.add(this);
  }
  terminate() {
    workers.delete(this);
    super.terminate();
  }
};
document.body.dataset.stopped = "";
document.getElementById("announced").textContent = "";
new MutationObserver((_, observer) => {
  if (!document.querySelector(shown)) return;
  observer.disconnect();
  document.querySelector(clicked).click();
  document.body.dataset.stopped = `${workers.size} workers`;
}).observe(document.getElementById("results"), { childList: true, subtree: true, attributes: true });
"""


def leave(page: Page, files: list[Path], shown: str) -> str:
    """Starts again as soon as the page shows anything about these files, and returns what it announced."""
    what = f"{len(files)} files at {shown}"
    page.browser.start_again()
    page.browser.execute(STOPPED_AT, shown, "#again")
    page.browser.give(files)
    page.browser.wait_for("document.body.dataset.stopped")
    page.equal(f"what goes on of {what}", "0 workers", page.browser.evaluate("document.body.dataset.stopped"))
    time.sleep(0.5)  # an announcement waits for a twentieth of a second
    page.equal(f"workers for {what} that are gone", 0, page.browser.evaluate("workers.size"))
    page.equal(f"what is shown of {what}", "", page.browser.text("#results"))
    return str(page.browser.evaluate("document.getElementById('announced').textContent"))


def try_gone(page: Page) -> None:
    """What was given before a new start isn't judged to its end, and nothing is said of it."""
    manifest = page.room / "flagged.manifest"
    manifest.write_text(f"# tigercanon form 1 --no-sources\n{'0' * 64}  first.txt\n")
    for files, shown, said in (
        (TOWN[:1], ".stages .now", "first.txt: judging"),
        (TOWN, ".stages .now", "second.txt: judging"),
        ([*TOWN, AUTAUGA], ".many", ""),
        ([*TOWN, AUTAUGA, manifest], ".many", ""),
        ([*TOWN, AUTAUGA], ".counties .link", ""),
    ):
        page.equal(f"what is said of {len(files)} at {shown}", said, leave(page, files, shown))
    boxes = "['checked', 'disabled'].map((is) => document.getElementById('no-sources')[is])"
    page.equal("the flag of a manifest that is gone", [False, False], page.browser.evaluate(boxes))
    page.browser.execute("globalThis.Worker = OwnWorker")


def try_gone_comparison(page: Page) -> None:
    """A comparison that is left goes on nowhere."""
    other = page.room / "other.txt"
    other.write_bytes((EXAMPLES / "autauga-renumbered/all.txt").read_bytes())
    for files, shown in ((TOWN, ".verdict .stages"), (TOWN, ".differences"), ([AUTAUGA, other], ".ways")):
        leave(page, files, shown)
    page.browser.execute("globalThis.Worker = OwnWorker")


def try_stopped(page: Page) -> None:
    """A button stops what goes on, which is then said in its place."""
    for files, shown, button, place in (
        (TOWN[:1], ".stages .now", ".stages button", ".refusal .line"),
        (TOWN, ".verdict .stages", ".verdict .stages button", ".verdict .line"),
        ([*TOWN, AUTAUGA], ".summary:not(:empty)", ".many .bar button", ".counties td:nth-child(3)"),
    ):
        page.browser.start_again()
        page.browser.execute(STOPPED_AT, shown, button)
        page.browser.give(files)
        page.browser.wait_for(f"document.querySelector('{place}')?.textContent === 'This was stopped.'")
        page.equal(f"what is said at {place}", {"This was stopped."}, set(page.browser.texts(place)))
        page.equal("workers after that", 0, page.browser.evaluate("workers.size"))
    page.equal("counties that were stopped", {"Failed"}, set(states(page).values()))
    page.browser.execute("globalThis.Worker = OwnWorker")


def try_stopped_manifest(page: Page) -> None:
    """A manifest that is saved after a stop, when one county was judged, lists all others as not checked yet."""
    slow, text = [page.room / f"slow-{number}.txt" for number in range(5)], make_county(10_000, "-")
    for path in slow:
        path.write_bytes(text)
    page.browser.start_again()
    page.browser.execute(STOPPED_AT, ".counties .link", ".many .bar button")
    page.browser.give([TOWN[0], *slow])
    page.browser.wait_for("document.querySelector('.many .actions .main')")
    page.browser.click(".many .actions .main")
    lines = page.browser.downloaded("counties.manifest").decode().splitlines()
    left = [f"# ? -  failed: not checked yet  {path.name}" for path in slow]
    page.equal("what a manifest has after a stop", [f"{page.printed('fingerprint', TOWN[0])}  first.txt", *left], lines[1:])
    page.browser.execute("globalThis.Worker = OwnWorker")


# Workers fail at a job, as if the browser had ended them.
FAILING = """
const [failing] = arguments;
globalThis.Worker = class extends (globalThis.OwnWorker ??= Worker) {
  postMessage(question, ...more) {
    if (question.job !== failing) super.postMessage(question, ...more);
    else setTimeout(() => this.dispatchEvent(new ErrorEvent("error", { cancelable: true })));
  }
};
"""


def try_failing_workers(page: Page) -> None:
    """If the browser ends the work, for want of memory, that is said in the place of the result."""
    other = page.room / "other.txt"
    other.write_bytes((EXAMPLES / "autauga-renumbered/all.txt").read_bytes())
    sentence = "The browser ended the work on this, most likely since there wasn't enough memory."
    for files, job, clicked, place in (
        (TOWN[:1], "judge", "", ".refusal .line"),
        (TOWN, "compareTexts", "", ".verdict .line"),
        (TOWN, "list", "", ".side .actions .line"),
        (TOWN, "details", ".differences button", ".side .actions .line"),
        (TOWN, "saveDifferences", ".side .actions .main", ".side .actions .line"),
        (TOWN, "numbersOf", "", ".list > .quiet"),
        ([AUTAUGA, other], "compareFiles", "", ".ways .line"),
        ([*TOWN, AUTAUGA], "judgeOfMany", "", ".counties td:nth-child(3)"),
    ):
        page.browser.start_again()
        page.browser.execute(FAILING, job)
        page.browser.give(files)
        if clicked:
            page.browser.wait_for(f"document.querySelector('{clicked}')")
            page.browser.click(clicked)
        page.browser.wait_for(f"document.querySelector('{place}')?.textContent")
        page.holds(f"what is said of {job}", page.browser.text(place).endswith(sentence), page.browser.text("main"))
        page.equal("buttons that stay disabled", [], page.browser.texts("main button:disabled:not(.many *)"))
    page.browser.execute("globalThis.Worker = OwnWorker")


STARTED = (
    "['start', 'again'].map((id) => document.getElementById(id).hidden).concat(document.activeElement.id, document.body.className)"
)


def try_examples(page: Page) -> None:
    """Each example of the start page shows what it says, with the names of its files."""
    accepted = page.printed("fingerprint", EXAMPLES / "autauga/all.txt")
    refused = page.printed("check", EXAMPLES / "broken.txt")
    for name, selector, wanted, names in (
        ("one", "#fingerprint", accepted, ["autauga.txt"]),
        ("twoAlike", ".verdict h2", "Same map", ["autauga-renumbered.txt", "autauga.txt"]),
        ("two", ".verdict h2", "Different maps", ["first.txt", "second.txt"]),
        ("broken", ".refusal .line code", refused, ["broken.txt"]),
    ):
        page.browser.start_again()
        page.equal("the start page", [False, True, "choose-files", "at-start"], page.browser.evaluate(STARTED))
        page.browser.click(f"[data-example={name}]")
        page.browser.wait_for(f"document.querySelector('{selector}')")
        page.equal(
            f"the example {name}", wanted, page.browser.evaluate("document.querySelector(arguments[0])?.textContent", selector)
        )
        page.equal(f"the names of {name}", names, page.browser.texts(".card h2 bdi, .sets .name"))
        layout = "one-screen" if len(names) == 2 else ""
        page.equal("what is hidden behind the start page", [True, False, "results", layout], page.browser.evaluate(STARTED))


CHOSEN = """
window.chosen = [];
for (const id of ["files", "folder"]) document.getElementById(id).addEventListener("click", (event) => {
  event.preventDefault();
  window.chosen.push(id);
});
"""


def click_button(page: Page, text: str) -> None:
    page.browser.execute(
        "[...document.querySelectorAll('main button')].find((each) => each.offsetParent && each.textContent.startsWith(arguments[0])).click()",
        text,
    )


def try_choosing(page: Page) -> None:
    """Buttons let the user choose files or a folder, which come beside an accepted county and in the place of a refused one."""
    first, second, broken = EXAMPLES / "two-maps/first.txt", EXAMPLES / "two-maps/second.txt", EXAMPLES / "broken.txt"
    page.browser.start_again()
    page.browser.execute(CHOSEN)
    click_button(page, "Choose files")
    click_button(page, "Choose a folder")
    page.show([broken])
    click_button(page, "Choose another file")
    page.browser.give([first])
    page.browser.wait_for("document.getElementById('fingerprint')")
    page.equal("another file in place of a refused one", page.printed("fingerprint", first), fingerprint(page))
    click_button(page, "Compare with another county")
    page.browser.give([second, broken])
    page.browser.wait_for(TABLE)
    page.equal("counties beside the first", {"first.txt", "second.txt", "broken.txt"}, set(states(page)))
    click_button(page, "Compare with a manifest")
    page.equal("what was asked for", ["files", "folder", "files", "files", "files"], page.browser.evaluate("chosen"))
    page.show([first])
    page.browser.drop([second, broken])
    page.browser.wait_for(VERDICT)
    page.equal("two counties in place of one", ["broken.txt", "second.txt"], page.browser.texts(".card h2 bdi"))
    page.equal("nothing is said of the one", "", page.browser.text("#notice"))
    page.browser.start_again()
    click_button(page, "Choose files")  # so that what is given next isn't added to a county


STAGES = """
Object.assign(window, { stages: [], far: [] });
new MutationObserver(() => {
  const items = [...document.querySelectorAll('.stages li')], now = items.find((item) => item.className === 'now');
  const stage = JSON.stringify([items.map((item) => item.textContent), items.filter((item) => item.className === 'past').length, now?.textContent, now?.ariaCurrent]);
  const [bar, far] = ['progress', '.far'].map((each) => document.querySelector(`.stages ${each}`));
  if (now) window.far.push([far.textContent !== '', bar.position >= 0]);
  if (now && stages.at(-1) !== stage) stages.push(stage);
}).observe(document.getElementById('results'), { childList: true, subtree: true, attributes: true });
"""


def try_stages(page: Page) -> None:
    """While a county is judged its stages are shown: those that are past, and the present one. A zip has one more."""
    zip_file = zipped(page.room / "TGR01001.ZIP", autauga())
    for file, names in (
        (EXAMPLES / "autauga/all.txt", ["Reading", "Judging", "Fingerprint", "Drawing the map"]),
        (zip_file, ["Reading", "Unpacking", "Judging", "Fingerprint", "Drawing the map"]),
    ):
        page.browser.start_again()
        page.browser.execute(STAGES)
        page.show([file])
        found = [json.loads(each) for each in page.browser.evaluate("stages")]
        page.holds(f"stages of {file.name}", found)
        wanted = [[names, names.index(now), now, "step"] for _, _, now, _ in found]
        page.equal(f"what is shown at the stages of {file.name}", wanted, found)
        page.equal(f"their order for {file.name}", sorted(found, key=lambda each: each[1]), found)
        far = page.browser.evaluate("far")
        page.holds(
            f"how far it is, in words and as a bar: {file.name}", [True, True] in far and all(text == bar for text, bar in far), far
        )
    page.show([EXAMPLES / "autauga/all.txt", zip_file], VERDICT)


def try_notes(page: Page) -> None:
    """What is left out of a county's files is noted, beside one county and beside two."""
    zip_file = zipped(page.room / "TGR01001.ZIP", autauga())
    note = "Its single files are read, and not TGR01001.ZIP."
    nine = sorted((EXAMPLES / "autauga").glob("TGR01001.RT*"))
    page.show([*nine, zip_file])
    page.equal("a note on a zip", [note], page.browser.texts(".note p"))
    page.browser.give([EXAMPLES / "two-maps/first.txt"])
    page.browser.wait_for(VERDICT)
    page.equal("a note on one of two", [f"TGR01001: {note}"], page.browser.texts(".note p"))


BROKEN_READING = """
const { prototype } = FileSystemFileHandle, { getFile } = prototype;
prototype.getFile = () => Promise.reject(new Error("it is locked"));
window.mend = () => { prototype.getFile = getFile; };
"""


def try_unreadable(page: Page) -> None:
    """If files that were dropped can't be read, or the browser is too old, that is said."""
    page.browser.start_again()
    page.browser.execute(BROKEN_READING)
    page.browser.drop([EXAMPLES / "broken.txt"])
    page.browser.wait_for("!document.getElementById('complaint').hidden")
    page.equal("files that can't be read", "The files can't be read: it is locked", page.browser.text("#complaint"))
    page.browser.execute("mend()")
    # docs/archive.md has the browsers.
    needed = "This page needs a browser of 2023 or later: Chrome or Edge 103, Firefox 113, Safari 16.4."
    for lack, wanted in (
        ("delete window.DecompressionStream", needed),
        ("delete window.WebAssembly", needed),
        ("WebAssembly.compile = () => Promise.reject(new Error('no'))", f"The engine can't be started: no. {needed}"),
        ("", ""),
    ):
        script = page.browser.command("Page.addScriptToEvaluateOnNewDocument", source=lack)
        page.browser.open(Path(os.environ["TIGERCANON_PAGE"]))
        page.equal(f"what is said after {lack}", wanted, page.browser.text("#complaint"))
        page.browser.command("Page.removeScriptToEvaluateOnNewDocument", identifier=script["identifier"])


def try_dragging(page: Page) -> None:
    """The page shows that something can be dropped while it is dragged over it, and no longer."""
    page.browser.start_again()
    shown = "document.body.classList.contains('dropping')"
    data = {"items": [], "files": [str(EXAMPLES / "broken.txt")], "dragOperationsMask": 1}
    for steps, wanted in ((["dragEnter", "dragOver"], True), ([], False), (["dragOver"], True), (["drop"], False)):
        for step in steps:
            page.browser.command("Input.dispatchDragEvent", type=step, x=400, y=300, data=data)
        if not steps:
            page.browser.execute("dispatchEvent(new DragEvent('dragleave'))")
        page.holds(f"what is shown after {steps}", page.browser.wait_for(f"{shown} === {str(wanted).lower()}"))
    page.holds("what was dropped is shown", page.browser.wait_for(RESULT))


CASES = (
    try_drops,
    try_second_drop,
    try_zips,
    try_broken_files,
    try_nothing,
    try_gone,
    try_gone_comparison,
    try_stopped,
    try_stopped_manifest,
    try_failing_workers,
    try_examples,
    try_choosing,
    try_dragging,
    try_stages,
    try_notes,
    try_unreadable,
)
IN_FIREFOX = (try_drops, try_second_drop)  # the others drop nothing, or need handles, or choose a folder
