"""How the page is printed, how it fits a phone, and how it serves people who don't see all of it: contrasts, names and announcements."""

from __future__ import annotations

import json
import re
import time
from typing import Callable

from in_browser import EXAMPLES, RESULT, TABLE, VERDICT, Page
from mapping import are_near, inked, place_of, show_street
from showing import DRAWN, LAPTOP, LISTED, NUMBERED, PHONE, TOWN, coloured, press, resize, rulers, search, show_town

LEAST_CONTRAST, LEAST_OF_TEXT = 3.0, 4.5


PRINTED = "dispatchEvent(new Event('beforeprint'))"
BROKEN_NAMES = "[...document.querySelectorAll('.counties tbody th button')].filter((each) => each.offsetHeight > 30).map((each) => each.innerText)"
VISIBLE_BUTTONS = "[...document.querySelectorAll('button')].filter((each) => each.offsetParent && !each.closest('.differences, .counties')).map((each) => each.innerText)"


def luminance(colour: str) -> float:
    """The relative luminance of a colour as a browser gives it: rgb(..) or #rrggbb."""
    numbers = (
        [int(part, 16) for part in re.findall("[0-9a-f]{2}", colour[1:])]
        if colour.startswith("#")
        else [int(part) for part in re.findall(r"\d+", colour)[:3]]
    )
    red, green, blue = [each / 255 / 12.92 if each <= 10 else ((each / 255 + 0.055) / 1.055) ** 2.4 for each in numbers]
    return 0.2126 * red + 0.7152 * green + 0.0722 * blue


def contrast(one: str, other: str) -> float:
    lighter, darker = sorted((luminance(one), luminance(other)), reverse=True)
    return (lighter + 0.05) / (darker + 0.05)


def media(page: Page, medium: str = "", scheme: str = "light") -> None:
    features = [{"name": "prefers-color-scheme", "value": scheme}]
    page.browser.command("Emulation.setEmulatedMedia", media=medium, features=features)


def on_paper(page: Page, name: str) -> None:
    """The page as it is printed from a dark screen: no buttons, and dark ink on white paper."""
    page.browser.execute(PRINTED)
    media(page, "print", "dark")
    resize(page, (718, 1000))
    page.equal(f"buttons of {name} on paper", [], page.browser.evaluate(VISIBLE_BUTTONS))
    ink, paper = page.browser.evaluate("[getComputedStyle(document.body).color, getComputedStyle(document.body).backgroundColor]")
    page.holds(f"dark ink for {name} on white paper", contrast(ink, paper) > 10 and luminance(paper) == 1, [ink, paper])
    top, bottom = page.browser.evaluate(
        "[document.querySelector('footer').getBoundingClientRect().top, document.querySelector('#results').getBoundingClientRect().bottom]"
    )
    page.holds(f"{name} ends above the footer", bottom <= top, [bottom, top])
    # Grey lines and marks would be light on paper if they were drawn for a dark screen.
    page.holds(f"the map of {name} in colours for paper", coloured(page, "map-road" if name == "one county" else "alike") > 100)


def off_paper(page: Page) -> None:
    media(page)
    page.browser.execute("dispatchEvent(new Event('afterprint'))")
    page.equal("back on the screen", False, page.browser.evaluate("document.documentElement.classList.contains('printing')"))


def try_printing(page: Page) -> None:
    media(page, "", "dark")
    show_town(page)
    on_paper(page, "two counties")
    page.equal(
        "what is printed",
        "Printed: all 25 differences, and of each at most three fields. The saved GeoJSON has all differences and all fields.",
        page.browser.text(".printed"),
    )
    off_paper(page)
    search(page, "hickory")
    media(page, "print")
    page.holds(
        "what is printed of a part",
        page.browser.text(".printed").startswith("Printed: the 2 of 25 differences that were listed,"),
        page.browser.text(".printed"),
    )
    media(page, "", "dark")
    resize(page, LAPTOP)
    page.show(TOWN[:1])
    page.browser.wait_for(DRAWN)
    on_paper(page, "one county")
    bottom = page.browser.evaluate("document.querySelector('.chart').getBoundingClientRect().bottom + scrollY")
    page.holds("one county and its map on one sheet", bottom < 950, bottom)
    edges = page.browser.evaluate("['.map', '.key'].map((each) => document.querySelector(each).getBoundingClientRect())")
    page.holds("the key is below the map", edges[0]["bottom"] <= edges[1]["top"], edges)
    off_paper(page)
    media(page)


Places = list[tuple[float, float]]


def drag(page: Page, begin: Places, at: Callable[[int], Places]) -> None:
    """Puts fingers at places, and moves them in eight steps."""

    def touch(kind: str, places: Places) -> None:
        points = [{"x": x, "y": y, "id": number} for number, (x, y) in enumerate(places)]
        page.browser.command("Input.dispatchTouchEvent", type=kind, touchPoints=points)

    touch("touchStart", begin)
    for step in range(1, 9):
        touch("touchMove", at(step))
        time.sleep(0.02)
    touch("touchEnd", [])


def try_width(page: Page) -> None:
    """Nothing is wider than a phone's window."""
    other = page.room / "same.txt"
    other.write_bytes((EXAMPLES / "autauga-renumbered/all.txt").read_bytes())
    autauga = EXAMPLES / "autauga/all.txt"
    for files, until in (
        (TOWN[:1], RESULT),
        ([EXAMPLES / "broken.txt"], RESULT),
        ([autauga, other], DRAWN),
        ([autauga, other, TOWN[0], EXAMPLES / "broken.txt"], TABLE),
        (TOWN, LISTED),
    ):
        resize(page, PHONE)
        page.show(files, until)
        width = page.browser.evaluate("Math.max(document.documentElement.scrollWidth, innerWidth)")
        page.equal(f"the width with {len(files)} files", 390, width)
        page.equal("broken names", [], page.browser.evaluate(BROKEN_NAMES))
    resize(page, LAPTOP)


def try_fingers(page: Page) -> None:
    """A finger scrolls past the map, which two fingers zoom around the place between them."""
    show_town(page, PHONE)
    page.browser.command("Emulation.setTouchEmulationEnabled", enabled=True)
    page.browser.execute("document.querySelector('.map').scrollIntoView({ block: 'center' })")
    before = page.browser.evaluate("scrollY")
    drag(page, [(190, 480)], lambda step: [(190, 480 - 12 * step)])
    page.holds(
        "a finger scrolls past the map",
        page.browser.wait_for(f"scrollY > {before + 50}"),
        [before, page.browser.evaluate("scrollY")],
    )
    page.equal("a hint", "Two fingers move the map", page.browser.text(".tip"))
    whole = show_street(page, PHONE)
    page.browser.execute("document.querySelector('.map').scrollIntoView({ block: 'center' })")
    x, y = place_of(page, 100, 100)
    metres = rulers(page)[0][1]
    drag(page, [(x - 60, y), (x + 60, y)], lambda step: [(x - 60 + 5 * step, y), (x + 60 - 5 * step, y)])
    page.browser.wait_for(DRAWN)
    # The fingers are 120 pixels from each other at first, and 40 at last.
    page.equal("how much two fingers zoom", 3.0, round(rulers(page)[0][1] / metres, 2))
    wanted = [100 + (edge - 100) / 3 for edge in whole]
    page.holds("the place between them stays", are_near(wanted, inked(page), 1.6), [wanted, inked(page)])
    page.browser.command("Emulation.setTouchEmulationEnabled", enabled=False)
    resize(page, LAPTOP)


def try_inside(page: Page) -> None:
    """On a phone an item of the list opens below itself, and closes by a second click and by the Escape key."""
    show_town(page, PHONE)
    item = ".differences li:nth-child(14)"
    expanded = f"document.querySelector('{item} > button').getAttribute('aria-expanded')"
    for close in (lambda: page.browser.click(f"{item} > button"), lambda: press(page, "Escape")):
        page.browser.click(f"{item} > button")
        page.holds("the fields below an item", page.browser.wait_for(f"document.querySelector('{item} .inside tr')"))
        page.equal("an item that is open", "true", page.browser.evaluate(expanded))
        page.browser.execute(f"document.querySelector('{item} summary').focus()")
        press(page, "End")
        page.equal("after another key", 1, len(page.browser.texts(".inside")))
        close()
        page.equal("after that", [0, "false"], [len(page.browser.texts(".inside")), page.browser.evaluate(expanded)])
    resize(page, LAPTOP)


def try_likely_cause(page: Page) -> None:
    """A missing file comes first, if what is refused is that records aren't there."""
    stem = EXAMPLES / "autauga/TGR01001"
    resize(page, LAPTOP)
    for kinds, name, missing in (
        ("1245678P", "14 LinkMissing", ".RTI"),
        ("124678IP", "17 NameUnknown", ".RT5"),
        ("124568IP", "19 LandUnknown", ".RT7"),
    ):
        page.show([stem.with_suffix(f".RT{kind}") for kind in kinds])
        first = page.browser.text(".refusal > :first-child")
        page.holds(f"the refusal without {missing}", name in page.browser.text(".refusal .line"), page.browser.text(".refusal"))
        page.equal(
            f"the likely cause without {missing}",
            f"The likely cause: there is no {missing}. Add what belongs to the county, and try again.",
            first,
        )


DRAWN_KINDS = ["first", "second", "changed", "alike", "chosen"]
DRAWN_CLASSES = [f"map-{name}" for name in ("highway", "main", "road", "rail", "water", "boundary", "other", "landmark")]


def try_contrast(page: Page) -> None:
    """Borders of controls, and the drawings on maps, stand out from their background."""
    names = ["edge", *DRAWN_KINDS, *DRAWN_CLASSES]
    show_town(page)
    for scheme in ("light", "dark"):
        media(page, "", scheme)
        styles = page.browser.evaluate(
            "arguments[0].map((name) => getComputedStyle(document.documentElement).getPropertyValue('--' + name).trim())",
            [*names, "paper", "raised", "ground"],
        )
        behind = styles[len(names) :]
        for name, colour in zip(names, styles):
            least = min(contrast(colour, each) for each in (behind if name == "edge" else behind[:1]))
            page.holds(f"the contrast of {name}, {scheme}", least >= LEAST_CONTRAST, f"{least:.2f}")
        hint = page.browser.evaluate("getComputedStyle(document.querySelector('.filter input'), '::placeholder').color")
        page.holds(f"the contrast of the filter's hint, {scheme}", contrast(hint, behind[0]) >= LEAST_OF_TEXT, [hint, behind[0]])
    media(page)


def try_borders(page: Page) -> None:
    show_town(page)
    edge = page.browser.evaluate(
        "['.filter input', '.side .actions button:not(.main)', '.chart', '.differences'].map((each) => getComputedStyle(document.querySelector(each)).borderTopColor)"
    )
    page.equal("borders", [], [colour for colour in edge if contrast(colour, "#f4f6f8") < LEAST_CONTRAST])


IDENTIFIERS = "[...document.querySelectorAll('[id]')].map(({ id }) => id).filter((id, at, all) => all.indexOf(id) !== at)"
LIVE = """
window.said = [];
window.listener?.disconnect();
const live = '[aria-live], [role=status], [role=alert]';
window.listener = new MutationObserver((changes) => {
  for (const { target } of changes) {
    const region = (target.nodeType === 3 ? target.parentElement : target)?.closest(live);
    if (region?.isConnected && region.textContent) window.said.push(region.textContent);
  }
});
window.listener.observe(document.body, { childList: true, subtree: true, characterData: true });
"""


def try_readers(page: Page) -> None:
    """No identifier is there twice, and a verdict is announced once."""
    resize(page, LAPTOP)
    other = page.room / "again.txt"
    other.write_bytes((EXAMPLES / "autauga-renumbered/all.txt").read_bytes())
    for files, verdict in ((TOWN, "Different maps"), ([EXAMPLES / "autauga/all.txt", other], "Same map")):
        page.browser.start_again()
        page.browser.execute(LIVE)
        page.browser.give(files)
        page.browser.wait_for(VERDICT)
        page.browser.wait_for(f"window.said.some((text) => text.includes('{verdict}'))")
        page.browser.wait_for(DRAWN)
        said = page.browser.evaluate("window.said")
        page.equal(f"announcements of {verdict}", 1, len([text for text in dict.fromkeys(said) if verdict in text]))
        page.equal(
            "live regions with the verdict",
            1,
            page.browser.evaluate(
                f"[...document.querySelectorAll('[aria-live], [role=status], [role=alert]')].filter((each) => each.textContent.includes('{verdict}')).length"
            ),
        )
        page.equal("identifiers that are there twice", [], page.browser.evaluate(IDENTIFIERS))


# What a screen reader finds in each view, besides the words of texts.
EVERYWHERE = [
    "link To the content",
    "heading tigercanon",
    "group Leave out",
    "checkbox sources: false",
    "checkbox reserved fields: false",
]
MAP = ["button Zoom in", "button Zoom out", "button Show all"]
MAP_KEYS = "Arrow keys move it, plus and minus zoom, 0 shows all of it, Enter opens what is nearest to its middle."
AT_START = """
region Drop a county here; heading Drop a county here; button Choose files…; button Choose a folder…; heading Or try an example;
button A county; button Two files of one map; button Two maps; button A broken file
"""
OF_ONE = """
region Results; region first.txt; heading first.txt; heading Fingerprint; button Copy fingerprint; button Save canonical text 126 KB;
button Compare with another county…; heading Contents; list Key; button Start again
"""
OF_REFUSED = """
region Results; region broken.txt; heading broken.txt; button Copy refusal; heading What it means; group Line 4 of broken.txt;
button Choose another file…; button Start again
"""
OF_TWO = """
region Results; heading Different maps; button Copy first fingerprint; button Copy second fingerprint; button ⇄ Exchange first and second;
button Save this comparison; columnheader chains; columnheader landmarks; columnheader polygons; columnheader names;
checkbox chains only in the first: 4: true; checkbox landmarks only in the first: 1: true; checkbox chains only in the second: 4: true;
checkbox landmarks only in the second: 1: true; checkbox names only in the second: 1: true; checkbox chains changed: 11: true;
checkbox landmarks changed: 1: true; checkbox polygons changed: 2: true; checkbox chains alike: 207: true; checkbox landmarks alike: 9: true;
checkbox polygons alike: 78: false; searchbox Only those with; list Differences; button Save as GeoJSON;
checkbox with what is alike: false; button Print…; button Start again
"""
OF_MANY = """
region Results; heading Counties; button Save as manifest 218 bytes; button Compare with a manifest…; searchbox Only those with;
region Table of counties; columnheader County; columnheader Result; columnheader Fingerprint or refusal; columnheader Notes; button County;
button Result; button Fingerprint or refusal; button Notes; button broken.txt; button first.txt; button second.txt; button Start again
"""
SIGNS = "≠="  # of kinds; those for less and more are on buttons of the map too
HEARD = "application button checkbox columnheader group heading link list progressbar region searchbox textbox".split()


def heard(page: Page) -> list[str]:
    """The role, the name and the state of each control, heading and region, as screen readers get them; no items of the list."""
    found = []
    for node in page.browser.command("Accessibility.getFullAXTree")["nodes"]:
        role, name = (node.get(what, {}).get("value", "") for what in ("role", "name"))
        states = {each["name"]: each["value"].get("value") for each in node.get("properties", [])}
        is_item = " only in the " in name or " changed " in name
        if not node.get("ignored") and role in HEARD and name and (role != "button" or not is_item):
            found.append(
                f"{role} {name}{': ' + states['checked'] if 'checked' in states else ''}{', disabled' if states.get('disabled') else ''}"
            )
        elif role == "StaticText" and not node.get("ignored") and name in SIGNS:
            found.append(f"sign {name}")
    return sorted(found)


def try_heard(page: Page) -> None:
    """Screen readers find all controls by their names, and nothing that only eyes need, such as signs."""
    resize(page, LAPTOP)
    broken = EXAMPLES / "broken.txt"
    for files, until, names, more in (
        ([], "", AT_START, []),
        (TOWN[:1], DRAWN, OF_ONE, [*MAP, f"application Map of the county. {MAP_KEYS}"]),
        ([broken], RESULT, OF_REFUSED, []),
        (TOWN, NUMBERED, OF_TWO, [*MAP, f"application Map of both counties. {MAP_KEYS}"]),
        ([*TOWN, broken], TABLE, OF_MANY, []),
    ):
        page.browser.start_again()
        if files:
            page.show(files, until)
        wanted = [*EVERYWHERE, *more, *(each.strip() for each in names.replace(";\n", "; ").strip().split(";"))]
        found = heard(page)
        page.equal(f"what is missing with {len(files)}", [], [each for each in sorted(wanted) if each not in found])
        page.equal(f"what is more with {len(files)}", [], [each for each in found if each not in wanted])


def click_with_mouse(page: Page, selector: str) -> None:
    """Clicks as a user does, without whom browsers don't copy."""
    middle = "(({ left, top, width, height }) => [left + width / 2, top + height / 2])(document.querySelector(arguments[0]).getBoundingClientRect())"
    x, y = page.browser.evaluate(middle, selector)
    for kind in ("mousePressed", "mouseReleased"):
        page.browser.command("Input.dispatchMouseEvent", type=kind, x=x, y=y, button="left", clickCount=1)


def try_announcements(page: Page) -> None:
    """Each result, and what a button did, is announced."""
    resize(page, LAPTOP)
    empty = page.room / "nothing.txt"
    empty.write_bytes(b"")
    fingerprint = page.printed("fingerprint", TOWN[0])
    broken = EXAMPLES / "broken.txt"
    saving = ".sets tr:last-child button:last-child"
    for files, until, clicked, text in (
        (TOWN[:1], RESULT, "", f"first.txt: accepted. Fingerprint {fingerprint[:8]}"),
        (TOWN[:1], RESULT, ".fingerprint button", "fingerprint copied"),
        ([broken], RESULT, "", f"broken.txt: {page.printed('check', broken)}"),
        ([empty], RESULT, "", "nothing.txt: It is empty, so it has no records."),
        ([*TOWN, broken], TABLE, "", "3 of 3 counties: 2 accepted, 1 refused, 0 failed."),
        ([broken, empty], VERDICT, "", "They can't be compared: not both are accepted."),
        (TOWN, LISTED, "", "Different maps. 19 chains, 3 landmarks, 2 polygons and 1 name differ."),
        (TOWN, LISTED, ".sets button", "first fingerprint copied"),
        (TOWN, LISTED, saving, "Comparison saved"),
        (TOWN, LISTED, ".side .actions .main", "GeoJSON saved"),
    ):
        page.show(files, until)
        if clicked:
            click_with_mouse(page, clicked)
        said = "document.getElementById('announced').textContent.trim()"
        page.holds(f"what is said: {text}", page.browser.wait_for(f"{said} === {json.dumps(text)}"), page.browser.evaluate(said))
    for ending in ("html", "geojson"):
        page.holds(f"first-second.{ending} is saved", page.browser.downloaded(f"first-second.{ending}"))


LABEL = "document.querySelector('.fingerprint button').textContent"


def show_to_copy(page: Page) -> str:
    """Shows a county, lets the page use the clipboard, and returns the fingerprint."""
    resize(page, LAPTOP)
    page.show(TOWN[:1])
    page.browser.command("Browser.grantPermissions", permissions=["clipboardReadWrite", "clipboardSanitizedWrite"])
    return page.printed("fingerprint", TOWN[0])


def try_copying(page: Page) -> None:
    """A fingerprint is copied, in browsers that allow it to pages from disk and in others, and the button says whether."""
    fingerprint = show_to_copy(page)
    refuse = "navigator.clipboard.writeText = () => Promise.reject(new Error('refused'));"
    for prepare, label, wanted in (
        ("", "Copied", fingerprint),
        (refuse, "Copied", fingerprint),
        (f"{refuse} document.execCommand = () => false;", "Select it and copy", "before"),
    ):
        page.browser.execute_async("navigator.clipboard.writeText('before').then(arguments[0])")
        page.browser.execute(prepare)
        click_with_mouse(page, ".fingerprint button")
        page.holds(f"the button says {label}", page.browser.wait_for(f"{LABEL} === '{label}'"), page.browser.evaluate(LABEL))
        copied = page.browser.execute_async("navigator.clipboard.readText().then(arguments[0])")
        page.equal("what is copied", wanted, copied)
        page.equal("nothing is left of it", 0, page.browser.evaluate("document.querySelectorAll('textarea').length"))
        page.holds("the button is as before", page.browser.wait_for(f"{LABEL} === 'Copy'"), page.browser.evaluate(LABEL))
        page.browser.execute("delete navigator.clipboard.writeText; delete document.execCommand")


def try_copying_twice(page: Page) -> None:
    """What is announced once more is said once more."""
    show_to_copy(page)
    page.browser.execute(LIVE)
    for count in (1, 2):
        click_with_mouse(page, ".fingerprint button")
        said = f"window.said.filter((text) => text === 'fingerprint copied').length === {count}"
        page.holds(f"it is said at click {count}", page.browser.wait_for(said), page.browser.evaluate("window.said"))


def try_marked_columns(page: Page) -> None:
    """The field at fault is in what a phone shows of its line."""
    resize(page, PHONE)
    for name in ("broken", "refused/too-symmetric", "refused/link-missing"):
        page.show([EXAMPLES / f"{name}.txt"])
        page.browser.execute_async("requestAnimationFrame(() => requestAnimationFrame(arguments[0]))")
        inside = "(mark) => { const [one, all] = [mark, mark.closest('.columns')].map((each) => each.getBoundingClientRect()); return one.left >= all.left && one.left < all.right - 40; }"
        found = page.browser.evaluate(f"[...document.querySelectorAll('.columns mark')].map({inside})")
        page.equal(f"whether marks of {name} are shown", {True}, set(found))
    resize(page, LAPTOP)


def try_marked_name(page: Page) -> None:
    """A mark in a name that turns its line round isn't shown."""
    for mark in ("\u200f", "\u202e"):
        file = page.room / f"cou{mark}nty.txt"
        file.write_bytes((EXAMPLES / "autauga/all.txt").read_bytes())
        page.show([file])
        page.equal(f"a name with {mark!a}", "county.txt", page.browser.evaluate("document.querySelector('.card h2').textContent"))


CASES = (
    try_printing,
    try_width,
    try_fingers,
    try_inside,
    try_likely_cause,
    try_contrast,
    try_borders,
    try_readers,
    try_announcements,
    try_heard,
    try_copying,
    try_copying_twice,
    try_marked_columns,
    try_marked_name,
)
