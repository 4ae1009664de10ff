"""How the page shows one county, two counties and a refusal: on a laptop's screen, on a phone, on paper, by keyboard, and to screen readers."""

from __future__ import annotations

import json
import re
from typing import Any

from dev.testing import make_county, run
from in_browser import EXAMPLES, TOOLS, VERDICT, Page

TOWN = [EXAMPLES / "two-maps/first.txt", EXAMPLES / "two-maps/second.txt"]
LISTED = "document.querySelector('.differences li')"
DRAWN = "document.querySelector('.map')?.dataset.drawn"
NUMBERED = "document.querySelector('.compared')?.dataset.numbered"
CLOSED = "document.querySelector('.place-card').hidden"
CARD = "document.querySelector('.place-card:not([hidden]) h3')"
FOCUSED_ITEM = "[...document.querySelectorAll('.differences > li')].indexOf(document.activeElement.parentElement)"
LAPTOP, PHONE = (1280, 800), (390, 844)


def resize(page: Page, size: tuple[int, int], **more: Any) -> None:
    page.browser.command(
        "Emulation.setDeviceMetricsOverride", width=size[0], height=size[1], deviceScaleFactor=1, mobile=False, **more
    )


def show_town(page: Page, size: tuple[int, int] = LAPTOP) -> None:
    resize(page, size)
    page.show(TOWN, LISTED)
    page.browser.wait_for(DRAWN)


def report(page: Page, *flags: str) -> str:
    """What the tools print about both maps of the town."""
    return run([TOOLS, "diff", "--program", page.program, *flags, *TOWN]).out.decode()


def press(page: Page, key: str) -> None:
    code = {"Enter": 13, "Escape": 27, "End": 35, "Home": 36, "ArrowUp": 38, "ArrowDown": 40, "Tab": 9}.get(key, 0)
    text = {"text": "\r" if key == "Enter" else key} if key == "Enter" or len(key) == 1 else {}
    for kind in ("keyDown", "keyUp"):
        page.browser.command("Input.dispatchKeyEvent", type=kind, key=key, code=key, windowsVirtualKeyCode=code, **text)


def try_height(page: Page) -> None:
    """The document ends with its footer."""
    for size in (LAPTOP, (1400, 900), (900, 700), PHONE):
        show_town(page, size)
        footer = "Math.round(document.querySelector('footer').getBoundingClientRect().bottom + scrollY)"
        found = page.browser.evaluate(f"[document.documentElement.scrollHeight, {footer}]")
        page.equal(f"the document's height at {size}, and its footer's end", found[1], found[0])


def try_one_screen(page: Page) -> None:
    """On a laptop everything is on one screen, and the names, the fingerprints and the kind of comparison take three lines."""
    show_town(page)
    parts = ".map, .kinds, .filter input, .differences, .side .actions button, .sets, .verdict, footer"
    inside = "(each) => { const { left, top, right, bottom } = each.getBoundingClientRect(); return left >= 0 && top >= 0 && right <= 1280 && bottom <= 800; }"
    page.equal(
        "what isn't on the screen",
        [],
        page.browser.evaluate(
            f"[...document.querySelectorAll('{parts}')].filter((each) => !({inside})(each)).map((each) => each.className || each.tagName)"
        ),
    )
    fingerprints = [page.printed("fingerprint", file) for file in TOWN]
    lines = [text.split() for text in page.browser.texts(".sets tr")]
    page.equal("the first line", ["FIRST", "first.txt", fingerprints[0], "Copy"], lines[0])
    page.equal("the second line", ["SECOND", "second.txt", fingerprints[1], "Copy"], lines[1])
    page.equal("the third line", ["COMPARED", "all", "fields"], lines[2][:3])
    page.equal("lines", 3, len(lines))
    page.equal("the verdict", "19 chains, 3 landmarks, 2 polygons and 1 name differ.", page.browser.text(".verdict p"))


def try_masks(page: Page) -> None:
    """The verdict and the third line name the fields that are left out."""
    show_town(page)
    page.browser.click("#no-sources")
    page.browser.wait_for("document.querySelector('.verdict h2')?.textContent.includes('leaving')")
    page.equal("the verdict without sources", "Different maps, leaving out sources", page.browser.text(".verdict h2"))
    page.holds("the third line", "all fields but sources (--no-sources)" in page.browser.text(".sets"), page.browser.text(".sets"))
    page.browser.click("#no-sources")
    page.browser.wait_for(LISTED)


def listed_numbers(page: Page) -> list[list[str]]:
    return [re.findall(r"\d+", text) for text in page.browser.texts(".differences .numbers")]


def try_numbers(page: Page) -> None:
    """The list has the numbers of both files, which the tools print, in the same order."""
    show_town(page)
    page.holds("the files' numbers", page.browser.wait_for(NUMBERED), page.browser.text(".list"))
    lines = [line for line in report(page).splitlines() if re.match(r"  \S", line)]
    wanted = [re.search(r"(?:TLID|LAND|POLYID) (\d+)(?: and (\d+))?$", line) for line in lines]
    page.equal("numbers", [[each for each in found.groups() if each] if found else [] for found in wanted], listed_numbers(page))


def try_values(page: Page) -> None:
    """The list shows the old and the new value of each change."""
    show_town(page)
    texts = page.browser.texts(".differences li")
    maple = next(text for text in texts if text.startswith("≠\nMaple Ave"))
    page.holds("a changed field", "ZIPR 36067 → 36068" in maple, maple)
    harrison = next(text for text in texts if text.startswith("≠\nHarrison St"))
    page.holds("three of seven fields", "FRADDL of range 1 (none) → 9001" in harrison and "and 4 more fields" in harrison, harrison)


def search(page: Page, text: str) -> list[str]:
    """The names in the list with these words."""
    page.browser.execute(
        "const [text] = arguments, box = document.getElementById('filter'); document.querySelector('.listed').textContent = ''; box.value = text; box.dispatchEvent(new Event('input'))",
        text,
    )
    page.browser.wait_for("document.querySelector('.listed').textContent")
    return page.browser.texts(".differences .name")


def try_search(page: Page) -> None:
    """Things are found by several words and by their TLIDs."""
    show_town(page)
    page.browser.wait_for(NUMBERED)
    page.equal("two words", ["Hickory Ave (A41)"], search(page, "998 Hickory"))
    page.equal("words in any order", ["Hickory Ave (A41)"], search(page, "hickory  TOADDR 900"))
    page.equal("a TLID of the second file", ["Hickory Ave (A41)"], search(page, "TLID 1977"))
    page.equal("a value", ["Maple Ave (A41)"], search(page, "ZIPR 36068"))
    page.equal("how many there are", "1 of 25", page.browser.text(".listed"))
    page.equal("nothing", [], search(page, "hickory maple"))
    page.equal("all", (25, "25 in all"), (len(search(page, "")), page.browser.text(".listed")))


def rulers(page: Page) -> list[tuple[str, float]]:
    """The unit of each ruler of the map, and how many metres a pixel has by it."""
    texts = "[...document.querySelectorAll('.rulers div')].map((each) => [...each.textContent.split(' '), each.getBoundingClientRect().width])"
    metres = {"m": 1.0, "km": 1000.0, "ft": 0.3048, "mi": 1609.344}
    return [(unit, float(length) * metres[unit] / pixels) for length, unit, pixels in page.browser.evaluate(texts)]


COLOURED = """
const [name] = arguments;
const canvas = document.querySelector('.map canvas');
const probe = Object.assign(document.createElement('canvas'), { width: canvas.width, height: canvas.height }).getContext('2d', { willReadFrequently: true });
probe.fillStyle = getComputedStyle(document.documentElement).getPropertyValue('--' + name).trim();
probe.fillRect(0, 0, 1, 1);
const [red, green, blue] = probe.getImageData(0, 0, 1, 1).data;
probe.clearRect(0, 0, 1, 1);
probe.drawImage(canvas, 0, 0);
const { data } = probe.getImageData(0, 0, canvas.width, canvas.height);
let count = 0;
for (let at = 0; at < data.length; at += 4) count += data[at] === red && data[at + 1] === green && data[at + 2] === blue && data[at + 3] === 255;
return count;
"""


def coloured(page: Page, name: str) -> int:
    """How many pixels of the map have a colour of the page's style."""
    page.browser.wait_for(DRAWN)
    return int(page.browser.execute(COLOURED, name))


def switch(page: Page, label: str) -> None:
    page.browser.execute("document.querySelector(`.kinds input[aria-label^='${arguments[0]}']`).click()", label)
    page.browser.wait_for(DRAWN)


def try_kinds(page: Page) -> None:
    """Each kind has its form in the key, and each subject of it a switch for the map and the list."""
    show_town(page)
    forms = page.browser.evaluate(
        "[...document.querySelectorAll('.kinds .swatch')].map((each) => [each.querySelector('line').getAttribute('stroke-dasharray') !== '', each.querySelectorAll('line').length, each.textContent])"
    )
    page.equal("dash, edges and sign of each kind", [[True, 1, "−"], [False, 1, "+"], [False, 2, "≠"], [False, 1, ""]], forms)
    page.equal("switches", 11, len(page.browser.texts(".kinds input")))
    for label, colour, left in (
        ("chains only in the first", "first", 21),
        ("chains only in the second", "second", 17),
        ("chains changed", "changed", 6),
    ):
        before = coloured(page, colour)
        switch(page, label)
        page.browser.wait_for(f"document.querySelectorAll('.differences li').length === {left}")
        page.equal(f"the list without {label}", left, len(page.browser.texts(".differences li")))
        page.holds(f"the map without {label}", coloured(page, colour) < before / 2, coloured(page, colour))
    for label, left in (("landmarks changed", 5), ("polygons changed", 3), ("names only in the second", 2)):
        switch(page, label)
        page.holds(
            f"the list without {label}", page.browser.wait_for(f"document.querySelectorAll('.differences li').length === {left}")
        )
    page.equal("nothing changed is on the map", 0, coloured(page, "changed"))
    before = coloured(page, "alike")
    switch(page, "polygons alike")
    page.holds("polygons that are alike", page.browser.wait(lambda: coloured(page, "alike") > before), before)


def open_item(page: Page, number: int) -> None:
    """Opens an item of the list in a card on the map."""
    page.browser.click(f".differences li:nth-child({number}) > button")
    page.browser.wait_for(CARD)


def try_card(page: Page) -> None:
    """A card opens on the map for the chosen difference, with both values. It closes by its button."""
    show_town(page)
    page.equal("a card before something was chosen", True, page.browser.evaluate(CLOSED))
    page.browser.wait_for(NUMBERED)
    open_item(page, 14)
    text = page.browser.text(".place-card")
    words = ("≠ chain changed", "Hickory Ave (A41)", "900", "998", "TLID 178 and 1977", "28 fields are the same")
    page.holds("the card's words", all(word in text for word in words), text)
    current = "document.querySelector('.differences li:nth-child(14) > button').getAttribute('aria-current')"
    page.equal("the item of the list", "true", page.browser.evaluate(current))
    page.holds("the chosen chain is marked", coloured(page, "chosen") > 50, coloured(page, "chosen"))
    page.browser.click(".place-card .close")
    page.equal("a closed card", True, page.browser.evaluate(CLOSED))
    page.equal("nothing is marked", 0, coloured(page, "chosen"))


def try_rows_of_cards(page: Page) -> None:
    """A card has a column for each map that has the thing."""
    show_town(page)
    cells = "[...new Set([...document.querySelectorAll('.place-card .content > .fields tr')].map(({ cells }) => cells.length))]"
    for kind, wanted in (("changed", 3), ("first", 2), ("second", 2)):
        page.browser.click(f".differences li:has(.sign.{kind}) > button")
        page.browser.wait_for(f"document.querySelector('.place-card .kind.{kind}')")
        page.equal(f"cells in a row of a thing {kind}", [wanted], page.browser.evaluate(cells))


def try_keys_of_list(page: Page) -> None:
    """The list is one stop of the tabulator key, and arrow keys go along it."""
    show_town(page)
    stops = "document.querySelectorAll('.differences [tabindex=\"0\"], .differences button:not([tabindex])').length"
    page.equal("stops in the list", 1, page.browser.evaluate(stops))
    page.browser.execute("document.querySelector('.differences button[tabindex=\"0\"]').focus()")
    found = []
    for key in ("ArrowDown", "ArrowDown", "ArrowUp", "End", "ArrowDown", "Home", "ArrowUp"):
        press(page, key)
        found.append(page.browser.evaluate(FOCUSED_ITEM))
    page.equal("the items that keys go to", [1, 2, 1, 24, 24, 0, 0], found)
    page.equal("stops after that", 1, page.browser.evaluate(stops))


def try_exchange(page: Page) -> None:
    """First and second can be exchanged."""
    show_town(page)
    counts = page.browser.texts(".kinds td:not(:first-child)")
    page.browser.execute(
        "[...document.querySelectorAll('.sets button')].find((each) => each.innerText.includes('Exchange')).click()"
    )
    page.browser.wait_for("document.querySelector('.sets .name')?.innerText === 'second.txt'")
    page.browser.wait_for(LISTED)
    page.equal("the names", ["second.txt", "first.txt"], page.browser.texts(".sets .name"))
    page.equal("a changed value", True, "ZIPR 36068 → 36067" in page.browser.text(".differences"))
    found = page.browser.texts(".kinds td:not(:first-child)")
    page.equal("the counts", counts[4:8] + counts[:4], found[:8])
    page.browser.wait_for(NUMBERED)
    for button, name in (
        (".sets tr:last-child button:last-child", "second-first.html"),
        (".side .actions .main", "second-first.geojson"),
    ):
        page.browser.click(button)
        page.holds(f"{name} is saved", page.browser.downloaded(name))


def try_two_at_once(page: Page) -> None:
    """Of two differences that are opened one right after the other, the second one stays open."""
    show_town(page)
    page.browser.wait_for(NUMBERED)
    click = "document.querySelectorAll('.differences > li > button')[arguments[{}]].click()"
    for first, second in ((13, 1), (1, 13)):
        page.browser.execute("; ".join(click.format(number) for number in (0, 1)), first, second)
        title = page.browser.evaluate("document.querySelectorAll('.differences .name')[arguments[0]].textContent", second)
        page.holds(f"the card of {title}", page.browser.wait_for(f"{CARD}?.textContent === {json.dumps(title)}"))


def try_tie(page: Page) -> None:
    """Of two maps that differ only in a node that is two, the list and its card show where, as the tools do."""
    one, two = EXAMPLES / "autauga/all.txt", page.room / "two-nodes.txt"
    node = b"I030601001   2845007        11"
    two.write_bytes(one.read_bytes().replace(node, node[:-2] + b"99"))
    resize(page, LAPTOP)
    page.show([one, two], LISTED)
    printed = run([TOOLS, "diff", "--program", page.program, one, two]).out.decode().splitlines()
    places = [line.strip() for line in printed[printed.index("  one node in the first, 2 in the second:") + 1 :]]
    page.equal("what the list has", "one node in the first, 2 in the second", page.browser.text(".differences .name"))
    page.equal("the count", "Joined differently: 1.", page.browser.text(".kinds-box p"))
    page.holds("the verdict", page.browser.text(".verdict p").startswith("All chains"), page.browser.text(".verdict p"))
    open_item(page, 1)
    page.equal("what the card says", "≠ joined differently", page.browser.text(".place-card .kind"))
    page.equal("its places", places, page.browser.texts(".place-card li"))


def try_pieces(page: Page) -> None:
    """A long list is shown in pieces, and printed from its beginning."""
    files = [page.room / "grid.txt", page.room / "other-grid.txt"]
    for seed, file in enumerate(files):
        make_county("--seed", seed, 400, file)
    resize(page, LAPTOP)
    page.show(files, LISTED)
    count = int(re.sub(r"\D", "", page.browser.text(".listed")))
    shown = "document.querySelectorAll('.differences > li').length"
    text = f"Show more of {count - 200}"
    page.equal("the first piece", [200, text], page.browser.evaluate(f"[{shown}, document.querySelector('.more').innerText]"))
    rest = "and of each at most three fields. The saved GeoJSON has all differences and all fields."
    printed = f"Printed: the first 200 of all {count} differences, {rest}"
    page.equal("what would be printed", printed, page.browser.evaluate("document.querySelector('.printed').textContent"))
    page.browser.click(".more")
    page.browser.wait_for(f"{shown} > 200")
    page.equal("the second piece, and its first item", [400, 200], page.browser.evaluate(f"[{shown}, {FOCUSED_ITEM}]"))
    page.browser.execute("window.print = () => { document.body.dataset.printed = 'yes'; }")
    click_last = "[...document.querySelectorAll('.side .actions button')].at(-1).click()"
    page.browser.execute(click_last)
    page.browser.wait_for("document.body.dataset.printed")
    page.equal("all that is printed", [count, True], page.browser.evaluate(f"[{shown}, document.querySelector('.more').hidden]"))
    page.equal(
        "stops in a long list", 1, page.browser.evaluate("document.querySelectorAll('.differences [tabindex=\"0\"]').length")
    )


def try_third(page: Page) -> None:
    """A third county says that it closed a comparison, and leads back to it."""
    show_town(page)
    page.browser.give([EXAMPLES / "autauga/all.txt"])
    page.browser.wait_for("document.getElementById('fingerprint')")
    notice = page.browser.text("#notice")
    page.equal(
        "what a third county does",
        "The comparison of first.txt and second.txt was closed, since two counties are compared at a time. Back to them.",
        notice,
    )
    page.browser.click("#notice button")
    page.holds("back", page.browser.wait_for(LISTED), page.browser.text("main"))
    page.equal("the notice is gone", "", page.browser.text("#notice:not([hidden])"))


def try_one_map(page: Page) -> None:
    """Two files of one map: the map is shown, and how the files differ."""
    other = page.room / "renumbered.txt"
    other.write_bytes((EXAMPLES / "autauga-renumbered/all.txt").read_bytes())
    resize(page, LAPTOP)
    page.show([EXAMPLES / "autauga/all.txt", other], VERDICT)
    page.holds("a map", page.browser.wait_for(DRAWN), page.browser.text("main"))
    page.browser.wait_for("document.querySelectorAll('.ways dd').length > 3")
    ways = dict(zip(page.browser.texts(".ways dt"), page.browser.texts(".ways dd")))
    # examples/README.md has the counts.
    page.equal(
        "numbers",
        "Other numbers for 7 of 7 chains (TLID), 2 of 2 names (FEAT), 3 of 3 landmarks (LAND), 3 of 3 polygons (POLYID)",
        ways.get("Numbers"),
    )
    page.equal("direction", "4 of 7 chains run the other way", ways.get("Direction"))
    page.holds("order", ways.get("Order", "").startswith("Another order of chains"), ways)
    page.holds(
        "spelling", ways.get("Spelling", "").startswith("Lines end in LF in the first and in LF and CR LF in the second"), ways
    )


CASES = (
    try_height,
    try_one_screen,
    try_masks,
    try_numbers,
    try_values,
    try_search,
    try_kinds,
    try_card,
    try_rows_of_cards,
    try_keys_of_list,
    try_exchange,
    try_two_at_once,
    try_tie,
    try_pieces,
    try_third,
    try_one_map,
)
