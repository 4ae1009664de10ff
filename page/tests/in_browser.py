"""What the page shows in a browser: one county, two and many, refused and broken ones."""

from __future__ import annotations

import http.server
import json
import os
import re
import sys
import threading
import time
from pathlib import Path
from typing import Any

from browser import Browser
from dev.testing import ROOT, Tests, make_county, run

EXAMPLES = ROOT / "examples"
SECONDS = 5.0  # for 100,000 chains, if nothing else runs
TOOLS = ROOT / "tigercanon-tools"
RESULT = "document.querySelector('#fingerprint, .refusal')"
VERDICT = "document.querySelector('.verdict h2, .verdict .none, .verdict .refusal')"
TABLE = "document.querySelector('.many .actions button')"


class Page(Tests):
    """The page in a browser, and the program that it has to agree with."""

    browser: Browser

    def show(self, files: list[Path], until: str = RESULT, to: str = "files") -> bool:
        self.browser.start_again()
        self.browser.give(files, to)
        return self.holds(f"{files[0].name} has a result", self.browser.wait_for(until), self.browser.text("main"))

    def printed(self, *words: object) -> str:
        done = run([self.program, *words])
        return (done.out or done.err).decode().strip()


def try_one(page: Page) -> None:
    stem = EXAMPLES / "autauga/TGR01001"
    readme = re.search(r"(?m)^    ([0-9a-f]{64})$", (ROOT / "README.md").read_text())
    wanted = readme[1] if readme else "README has no fingerprint"
    page.show([stem.with_suffix(f".RT{kind}") for kind in "1245678IP"])
    page.equal("the fingerprint of nine files", wanted, page.browser.evaluate("document.getElementById('fingerprint').textContent"))
    page.equal("no note", [], page.browser.texts(".note p"))
    page.holds("a map", page.browser.wait_for("document.querySelector('.map')?.dataset.drawn"))
    page.browser.click(".actions .main")
    page.equal("the canonical text", (EXAMPLES / "autauga/canonical.txt").read_bytes(), page.browser.downloaded("TGR01001.txt"))
    page.equal("counts", ["7", "2", "1", "3", "3", "33"], page.browser.texts(".counts dd"))
    page.show([stem.with_suffix(f".RT{kind}") for kind in "1IP"])
    page.holds(
        "a note on missing files", "no .RT2 .RT4 .RT5 .RT6 .RT7 .RT8" in page.browser.text(".note"), page.browser.text("main")
    )
    why = "If a missing file belongs to the county, this is another map, with another fingerprint."
    page.equal("and what it means", [why], page.browser.texts(".note p")[1:])


def try_masks(page: Page) -> None:
    file = EXAMPLES / "two-maps/first.txt"
    for flags in (["no-sources"], ["no-sources", "no-reserved"], ["no-reserved"], []):
        for box in ("no-sources", "no-reserved"):
            page.browser.execute("document.getElementById(arguments[0]).checked = arguments[1]", box, box in flags)
        page.show([file])
        wanted = page.printed("fingerprint", *(f"--{flag}" for flag in flags), file)
        page.equal(
            f"the fingerprint with {flags}", wanted, page.browser.evaluate("document.getElementById('fingerprint')?.textContent")
        )
        page.holds(f"the page names {flags}", all(f"--{flag}" in page.browser.text(".fingerprint") for flag in flags))
    for flags in (["--no-sources"], []):
        page.browser.click("#no-sources")
        wanted = page.printed("fingerprint", *flags, file)
        shown = f"document.getElementById('fingerprint')?.textContent === '{wanted}'"
        page.holds(f"the county is judged again with {flags}", page.browser.wait_for(shown), page.browser.text(".fingerprint"))


def try_refusals(page: Page) -> None:
    broken = EXAMPLES / "broken.txt"
    page.show([broken])
    page.equal("the line of a refusal", page.printed("check", broken), page.browser.text(".refusal .line code"))
    page.equal(
        "the marked field",
        "28450 13".rjust(10),
        page.browser.evaluate("document.querySelector('.columns mark').textContent.replace(/\u00a0/g, ' ')"),
    )
    page.holds(
        "the file and line",
        page.browser.text("figcaption").startswith("broken.txt, line 4 — TLID, columns 6 to 15"),
        page.browser.text("figcaption"),
    )
    page.equal("a right value", "500".rjust(10), page.browser.evaluate("document.querySelector('.example').textContent"))
    section = (ROOT / "docs/refusals.md").read_text().partition("### `refused 4 BadNumber PART LINE COLUMN`")[2].strip()
    page.holds(
        "the text of the page on refusals", page.browser.text(".guide").startswith(section[:40]), page.browser.text(".guide")
    )
    page.equal(
        "what is said of it",
        ["A right value:        500, digits, with blanks or zeros around them."],
        page.browser.evaluate("[...document.querySelectorAll('.refusal .right')].map((each) => each.textContent)"),
    )


def try_advice(page: Page) -> None:
    """Advice about a mark at the beginning of a file follows what a right value is."""
    marked = page.room / "marked.txt"
    marked.write_bytes(b"\xef\xbb\xbf" + (EXAMPLES / "broken.txt").read_bytes())
    page.show([marked])
    advice = [
        "A right value: one of 1 2 4 5 6 7 8 I P.",
        "Look at this: the file begins with a byte order mark: remove its first three bytes.",
    ]
    page.equal("advice", advice, page.browser.texts(".refusal .right"))


def try_refused_lines(page: Page) -> None:
    """Each example of a refusal is shown with its lines, below the numbers of their columns."""
    for path in sorted((EXAMPLES / "refused").glob("*.txt")):
        page.show([path])
        page.equal(path.name, page.printed("check", path), page.browser.text(".refusal .line code"))
        page.holds(f"{path.name} shows a line", page.browser.texts(".columns mark"), page.browser.text(".refusal"))
        shown = page.browser.evaluate("[...document.querySelectorAll('.columns .text')].map((each) => each.textContent)")
        rulers = page.browser.evaluate("[...document.querySelectorAll('.columns .ruler-line')].map((each) => each.textContent)")
        tens = "".join(f"{number:·>10}" for number in range(10, 250, 10))
        wanted = [tens[: max(10, len(text.rstrip("…")))] for text in shown]
        page.equal(f"{path.name}: the rulers above its lines", wanted, rulers)
        lines = {line.rstrip() for line in path.read_text("latin-1").split("\n")}
        page.equal(
            f"{path.name}: what is shown as its lines",
            [],
            [text for text in shown if text.replace("\xa0", " ").rstrip() not in lines],
        )


def try_same(page: Page) -> None:
    page.show([EXAMPLES / "autauga/all.txt", EXAMPLES / "autauga-renumbered/TGR01001.RT1"], VERDICT)
    page.equal("a chain's file and a whole county", "They can't be compared: not both are accepted.", page.browser.text(".verdict"))
    other = page.room / "other.txt"
    other.write_bytes((EXAMPLES / "autauga-renumbered/all.txt").read_bytes())
    page.show([EXAMPLES / "autauga/all.txt", other], VERDICT)
    page.equal("two files of one map", "Same map", page.browser.text(".verdict h2"))
    page.show([EXAMPLES / "autauga/all.txt", EXAMPLES / "autauga-one-address.txt"], VERDICT)
    page.equal("two texts of one length", "Different maps", page.browser.text(".verdict h2"))


def try_different(page: Page) -> None:
    files = [EXAMPLES / "two-maps/first.txt", EXAMPLES / "two-maps/second.txt"]
    page.show(files, "document.querySelector('.differences li')")
    page.equal("two maps", "Different maps", page.browser.text(".verdict h2"))
    summary = run([TOOLS, "diff", "--program", page.program, "--summary", *files]).out.decode()
    wanted = [
        number
        for line in summary.splitlines()
        if line.startswith(("only in", "changed", "alike"))
        for number in re.findall(r"[\d,]+|-", line)
    ]
    page.equal("the counts", wanted, [text.replace("–", "-") for text in page.browser.texts(".kinds td:not(:first-child)") if text])
    page.holds("a map", page.browser.wait_for("document.querySelector('.map')?.dataset.drawn"))
    page.browser.click(".differences li:nth-child(9) > button")
    page.holds("the fields of a chain", page.browser.wait_for("document.querySelector('.place-card tr')"))
    saved_as(page, files, [])
    page.browser.click("#with-alike")
    saved_as(page, files, ["--all"])


def saved_as(page: Page, files: list[Path], flags: list[str]) -> None:
    """The GeoJSON that the page saves is the tools', except what names the maker and the files."""
    page.browser.click(".side .actions .main")
    found = json.loads(page.browser.downloaded("first-second.geojson") or "{}")
    by_tools = page.room / "tools.geojson"
    run([TOOLS, "diff", "--program", page.program, *flags, "--geojson", by_tools, *files])
    wanted = json.loads(by_tools.read_text())
    for each in (found, wanted):
        each.pop("about", None)
        for side in ("first", "second"):
            each.get(side, {}).pop("name", None)
    page.equal(f"GeoJSON {flags}", json.dumps(wanted), json.dumps(found))


def try_large(page: Page) -> None:
    path = page.room / "large.txt"
    make_county(100_000, path)
    wanted = page.printed("fingerprint", path)
    page.browser.start_again()
    begun = time.monotonic()
    page.browser.give([path])
    page.browser.wait_for(RESULT)
    found = page.browser.evaluate("document.getElementById('fingerprint')?.textContent")
    answered = time.monotonic() - begun
    page.holds("a map of 100,000 chains", page.browser.wait_for("document.querySelector('.map')?.dataset.drawn"))
    drawn, load = time.monotonic() - begun, os.getloadavg()[0]
    page.equal("the fingerprint of 100,000 chains", wanted, found)
    print(
        f"page: 100,000 chains: an answer after {answered:.1f} s, the whole map after {drawn:.1f} s, at a load of {load:.1f}",
        file=sys.stderr,
    )
    if load < 1.5:
        page.holds("100,000 chains in 5 seconds", drawn < SECONDS, f"{drawn:.1f} s")
    else:
        page.skip(f"the time for 100,000 chains: other work is under way here (a load of {load:.1f})")


class Counting(http.server.BaseHTTPRequestHandler):
    """A server that counts its calls."""

    calls = 0

    def do_GET(self) -> None:
        Counting.calls += 1
        self.send_response(200)
        self.send_header("Access-Control-Allow-Origin", "*")
        self.end_headers()

    def log_message(self, *_: Any) -> None:
        pass


REACH_OUT = """
const [address, done] = arguments;
const image = () => new Promise((resolve) => { const it = new Image(); it.onload = () => resolve("came"); it.onerror = () => resolve("refused"); it.src = address; });
const told = (promise) => promise.then(() => "came", () => "refused");
Promise.all([told(fetch(address)), image()]).then(done);
"""


def try_network(page: Page) -> None:
    """The page has made no request, logged nothing and kept nothing; and its policy refuses requests."""
    page.browser.collect()
    page.equal("requests", [], page.browser.requests)
    page.equal("the browser's log", [], page.browser.log)
    page.equal("what is kept", [0, 0, ""], page.browser.evaluate("[localStorage.length, sessionStorage.length, document.cookie]"))
    Counting.calls = 0
    # A thread for each connection, since a browser also opens some that it doesn't use.
    server = http.server.ThreadingHTTPServer(("127.0.0.1", 0), Counting)
    threading.Thread(target=server.serve_forever, daemon=True).start()
    address = f"http://127.0.0.1:{server.server_port}/"
    page.equal("asking the network", ["refused", "refused"], page.browser.execute_async(REACH_OUT, address))
    page.equal("calls of a server", 0, Counting.calls)
    page.browser.go(address)
    page.browser.collect()
    page.holds("what is refused is in the log", page.browser.log)
    page.holds("another page's request is seen", address in page.browser.requests, page.browser.requests)
    server.shutdown()


NAMELESS = """
Array.from(document.querySelectorAll("button, input:not([type=file]), [tabindex='0'], a, canvas:not([aria-hidden])")).filter((it) =>
  it.offsetParent && !(it.innerText || it.ariaLabel || it.labels?.length || it.title)).map((it) => it.outerHTML.slice(0, 80))
"""


def try_names(page: Page) -> None:
    """Every control has a name for screen readers, and events are announced."""
    files = [EXAMPLES / "two-maps/first.txt", EXAMPLES / "two-maps/second.txt"]
    for shown, until in (
        (files[:1], RESULT),
        ([EXAMPLES / "broken.txt"], RESULT),
        (files, "document.querySelector('.differences li')"),
    ):
        page.show(shown, until)
        page.equal(f"without a name, beside {shown[-1].name}", [], page.browser.evaluate(NAMELESS.strip()))
        page.holds("an announcement", page.browser.wait_for("document.getElementById('announced').textContent"))


IN_FIREFOX = (try_one, try_masks, try_refusals, try_advice, try_refused_lines, try_same, try_different, try_names, try_network)
CASES = (try_large, *IN_FIREFOX)
