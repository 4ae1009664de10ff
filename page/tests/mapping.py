"""The map: what is drawn where, how it is moved and zoomed, and what a pointer, fingers and keys do on it."""

from __future__ import annotations

import json
import math
import re
from typing import Any, Callable

from dev.testing import ROOT
from in_browser import EXAMPLES, Page
from showing import (
    CARD,
    CLOSED,
    DRAWN,
    FOCUSED_ITEM,
    LAPTOP,
    LISTED,
    PHONE,
    TOWN,
    coloured,
    open_item,
    press,
    resize,
    rulers,
    show_town,
)

STREET = EXAMPLES / "one-street/first.txt"
ENDS = ((-86477532, 32464118), (-86474190, 32464331))  # of its only chain, in millionths of a degree
MARGIN = 24  # pixels around the whole map
SIZE = "[document.querySelector('.map').clientWidth, document.querySelector('.map').clientHeight]"
TIP = "document.querySelector('.tip:not([hidden])')?.textContent ?? ''"
INKED = """
const canvas = document.querySelector('.map canvas');
const probe = Object.assign(document.createElement('canvas'), { width: canvas.width, height: canvas.height }).getContext('2d', { willReadFrequently: true });
probe.drawImage(canvas, 0, 0);
const { data } = probe.getImageData(0, 0, canvas.width, canvas.height);
const found = [canvas.width, canvas.height, 0, 0];
for (let at = 0; at < data.length / 4; at += 1) {
  if (data[4 * at + 3] < 64) continue;
  const [x, y] = [at % canvas.width, Math.floor(at / canvas.width)];
  found.splice(0, 4, Math.min(found[0], x), Math.min(found[1], y), Math.max(found[2], x + 1), Math.max(found[3], y + 1));
}
return found;
"""

Box = list[float]


def inked(page: Page) -> Box:
    """The left, upper, right and lower edge of all that is drawn on the map, in its pixels."""
    return list(page.browser.execute(INKED))


def are_near(one: Box, other: Box, most: float = 1.1) -> bool:
    """Whether the edges of two boxes are within so many pixels of each other, and their middles within half of that."""
    middles = [abs(one[at] + one[at + 2] - other[at] - other[at + 2]) / 2 for at in (0, 1)]
    return all(abs(a - b) <= most for a, b in zip(one, other)) and max(middles) <= 0.55 * most


def show_street(page: Page, size: tuple[int, int] = LAPTOP) -> Box:
    """Shows one street, and returns where its line has to be: it fills the map from left to right."""
    resize(page, size)
    page.show([STREET])
    page.browser.wait_for(DRAWN)
    return box_of_street(page)


def box_of_street(page: Page, zoom: float = 1.0, width: float = 1.0) -> Box:
    across, along = page.browser.evaluate(SIZE)
    x = (across / 2 - MARGIN) * zoom
    squeeze = math.cos(math.radians(ENDS[0][1] / 1e6))
    y = x * (ENDS[1][1] - ENDS[0][1]) / ((ENDS[1][0] - ENDS[0][0]) * squeeze)
    return [across / 2 - x - width / 2, along / 2 - y - width / 2, across / 2 + x + width / 2, along / 2 + y + width / 2]


def by(box: Box, x: float, y: float) -> Box:
    return [box[0] + x, box[1] + y, box[2] + x, box[3] + y]


def press_on_map(page: Page, key: str) -> None:
    page.browser.execute("document.querySelector('.map').focus()")
    press(page, key)
    page.browser.wait_for(DRAWN)


def try_drawing(page: Page) -> None:
    """A street's line is drawn where its points are: as a whole, moved, zoomed, chosen, and after it was beyond the edges."""
    whole = show_street(page)
    page.holds("a street", are_near(whole, inked(page)), inked(page))
    press_on_map(page, "ArrowDown")
    page.holds("a street that was moved", are_near(by(whole, 0, -80), inked(page)), inked(page))
    press_on_map(page, "-")
    page.holds("and zoomed", are_near(by(box_of_street(page, 1 / 1.6), 0, -50), inked(page)), inked(page))
    for key in ("0", "+", *4 * ["ArrowDown"], "0"):
        press_on_map(page, key)
    page.holds("a street that was beyond the edges", are_near(whole, inked(page)), inked(page))
    press_on_map(page, "Enter")
    page.holds("a chosen street", are_near(box_of_street(page, width=9), inked(page)), inked(page))
    press_on_map(page, "Escape")
    page.holds("a street that isn't chosen any more", are_near(whole, inked(page)), inked(page))


def is_drawn(page: Page, ratio: float = 1, y: float = 0.0) -> bool:
    """Whether the whole street is drawn with so many pixels of the map to one of the page, and moved by some of these."""
    wanted = [ratio * each for each in by(box_of_street(page), 0, y)]
    return are_near(wanted, inked(page), 1.1 * max(1, ratio))


def try_screens(page: Page) -> None:
    """A map fills its place in windows of other sizes, on finer and coarser screens, and on paper."""
    for size in ((900, 700), PHONE, LAPTOP):
        show_street(page, size)
        page.holds(f"a street at {size}", is_drawn(page), inked(page))
    for event, ratio in (("beforeprint", 4), ("afterprint", 1)):
        page.browser.execute(f"dispatchEvent(new Event('{event}'))")
        page.holds(f"a street after {event}", is_drawn(page, ratio), inked(page))
    for width, ratio in ((1000, 1), (1100, 2), (1050, 0.5)):
        page.browser.command("Emulation.setDeviceMetricsOverride", width=width, height=700, deviceScaleFactor=ratio, mobile=False)
        page.holds(f"a street with {ratio} pixels to one", page.browser.wait(lambda: is_drawn(page, ratio)), inked(page))
        press_on_map(page, "ArrowDown")
        page.holds(f"and moved with {ratio} pixels to one", is_drawn(page, ratio, -80), inked(page))
        press_on_map(page, "0")
    resize(page, LAPTOP)


# Holds all drawing up after its first slice, until `resume` is called.
HELD = """
const { requestAnimationFrame, performance } = window, { now } = performance, held = [];
let passed = 0;
performance.now = () => now.call(performance) + (passed += 20);
window.requestAnimationFrame = (act) => held.push(act);
window.resume = () => {
  performance.now = now;
  window.requestAnimationFrame = requestAnimationFrame;
  for (const act of held) act();
};
"""


def try_drawing_long(page: Page) -> None:
    """While a map is being drawn, what was drawn before is shown moved and zoomed."""
    for keys, zoom, y in ((["ArrowDown", "-"], 1 / 1.6, -50), (["-", "ArrowDown"], 1 / 1.6, -80), (["ArrowUp"], 1.0, 80)):
        show_street(page)
        page.browser.execute(HELD)
        for key in keys:
            page.browser.execute("document.querySelector('.map').focus()")
            press(page, key)
        wanted = by(box_of_street(page, zoom), 0, y)
        page.holds(
            "a map that isn't drawn yet", not page.browser.evaluate(DRAWN) and are_near(wanted, inked(page), 1.6), inked(page)
        )
        page.browser.execute("resume()")
        page.browser.wait_for(DRAWN)
        page.holds("a map that is drawn", are_near(wanted, inked(page)), inked(page))


def try_wheel(page: Page) -> None:
    """The wheel zooms around the pointer, by pixels and by lines."""
    whole = show_street(page)
    y = (whole[1] + whole[3]) / 2
    left, top = place_of(page, 0, 0)
    for delta, mode, factor in ((100, 0, math.exp(-0.2)), (4, 1, math.exp(-0.2))):
        event = f"{{ deltaY: {delta}, deltaMode: {mode}, clientX: {left + MARGIN}, clientY: {top + y}, cancelable: true }}"
        taken = page.browser.evaluate(f"!document.querySelector('.map').dispatchEvent(new WheelEvent('wheel', {event}))")
        page.equal("the page isn't scrolled", True, taken)
        page.browser.wait_for(DRAWN)
        wanted = [MARGIN, y - (y - whole[1]) * factor, MARGIN + (whole[2] - MARGIN) * factor, y + (whole[3] - y) * factor]
        page.holds(f"zoomed by a wheel in mode {mode}", are_near(wanted, inked(page), 1.6), [wanted, inked(page)])
        press_on_map(page, "0")


def place_of(page: Page, x: float, y: float) -> tuple[int, int]:
    """The place in the window of a place on the map."""
    left, top = page.browser.evaluate("(({ left, top }) => [left, top])(document.querySelector('.map').getBoundingClientRect())")
    return round(left + x), round(top + y)


def try_pointing(page: Page) -> None:
    """Hovering within eight pixels of an item shows its title, beside the pointer and on the map."""
    _, top, right, _ = show_street(page)
    for x, y, wanted in (
        (right, top, "E Main St (A41)"),
        (right - 1, top + 6, "E Main St (A41)"),
        (right - 1, top + 11, ""),
        (right + 6, top, "E Main St (A41)"),
        (right + 11, top, ""),
        (MARGIN, top, ""),
        (right, top, "E Main St (A41)"),
        (right - 20, -30, ""),
    ):
        at = place_of(page, x, y)
        mouse(page, "mouseMoved", *at)
        page.holds(f"the title at {x - right:.0f}, {y - top:.0f}", page.browser.wait_for(f"({TIP}) === '{wanted}'"), [wanted])
        if wanted:
            map_box, tip = page.browser.evaluate(BOXES, [".map", ".tip"])
            page.holds("it is on the map", are_within(tip, map_box), [tip, map_box])
            page.holds("it is beside the pointer", tip[3] <= at[1] and tip[3] > at[1] - 40 and tip[2] > at[0] - 150, [tip, at])


BOXES = "arguments[0].map((each) => (({ left, top, right, bottom }) => [left, top, right, bottom])(document.querySelector(each).getBoundingClientRect()))"


def are_within(inner: Box, outer: Box) -> bool:
    return inner[0] >= outer[0] and inner[1] >= outer[1] and inner[2] <= outer[2] and inner[3] <= outer[3]


def try_clicking(page: Page) -> None:
    """A click chooses, even if the pointer moves by four pixels. One beside everything closes the card. Other buttons do nothing."""
    whole = show_street(page)
    x, y = place_of(page, whole[2], whole[1])
    for button, far, is_open in (
        ("right", 0, False),
        ("left", 6, False),
        ("left", 3, True),
        ("right", 60, True),
        ("left", 0, True),
    ):
        press_on_map(page, "0")
        mouse(page, "mouseMoved", x, y)
        mouse(page, "mousePressed", x, y, button=button, buttons=2 if button == "right" else 1, clickCount=1)
        page.equal("no title while a button is pressed", "", page.browser.evaluate(TIP) if button == "left" else "")
        mouse(page, "mouseMoved", x, y - far, button=button, buttons=2 if button == "right" else 1)
        mouse(page, "mouseReleased", x, y - far, button=button, clickCount=1)
        page.holds(
            f"a {button} click with {far} pixels",
            page.browser.wait_for(f"{CLOSED} === {str(not is_open).lower()}"),
            page.browser.text("main"),
        )
    mouse(page, "mousePressed", *place_of(page, 200, 30), button="left", buttons=1, clickCount=1)
    mouse(page, "mouseReleased", *place_of(page, 200, 30), button="left", clickCount=1)
    page.holds("a click beside everything", page.browser.wait_for(CLOSED))


def click_map(page: Page, x: float, y: float) -> None:
    for kind in ("mousePressed", "mouseReleased"):
        mouse(page, kind, *place_of(page, x, y), button="left", clickCount=1)


def try_click(page: Page) -> None:
    """A click on the map opens a card there: of a difference, and of a chain that is alike."""
    show_town(page)
    open_item(page, 14)
    x, y = page.browser.evaluate(
        "(({ left, bottom, width }) => { const map = document.querySelector('.map').getBoundingClientRect(); return [left + width / 2 - map.left, bottom - map.top]; })(document.querySelector('.place-card').getBoundingClientRect())"
    )
    page.browser.click(".place-card .close")
    click_map(page, x - 4, y + 50)  # the chain begins below the card
    page.browser.wait_for("document.querySelector('.place-card .kind.changed')")
    page.holds("a card at a click", "900" in page.browser.text(".place-card"), page.browser.text(".place-card"))
    resize(page, LAPTOP)
    page.show(TOWN[:1])
    page.browser.wait_for(DRAWN)
    press_on_map(page, "Enter")
    page.holds("a card of one county", page.browser.wait_for(CARD), page.browser.text("main"))
    page.holds("its fields", "CFCC" in page.browser.text(".place-card"), page.browser.text(".place-card"))


def try_fields(page: Page) -> None:
    """The card of a chain has the fields of its record in the canonical text."""
    show_street(page)
    press_on_map(page, "Enter")
    page.browser.wait_for(CARD)
    # The columns of type 1 from SIDE1 to BLOCKR, as docs/format.md has them.
    layout = re.findall(r"(?m)^\| (\d+)-?(\d*) \| (\w+) \| B \|", (ROOT / "docs/format.md").read_text().partition("BLOCKR")[0])
    line = page.printed("normalise", STREET).split("\n")[0]
    values = {name: line[int(first) - 1 : int(last or first)].strip() for first, last, name in layout}
    rows = "[...document.querySelectorAll('.place-card .fields tr')].map(({ cells }) => [cells[0].firstChild.textContent, cells[1].textContent])"
    values["BLOCKR"] = line[186:190].strip()
    page.equal("the fields of a chain", {name: value for name, value in values.items() if value}, dict(page.browser.evaluate(rows)))


def try_classes(page: Page) -> None:
    """Each class of chains is drawn in its colour, and named in the key."""
    classes = {"A11": "highway", "A21": "main", "A41": "road", "B11": "rail", "H11": "water", "F10": "boundary", "X00": "other"}
    file = page.room / "class.txt"
    for cfcc, name in classes.items():
        file.write_bytes(STREET.read_bytes().replace(b"A41", cfcc.encode()))
        page.show([file])
        page.browser.wait_for(DRAWN)
        page.browser.execute("dispatchEvent(new Event('beforeprint'))")
        page.holds(f"the colour of {cfcc}", coloured(page, f"map-{name}") > 100)
        page.browser.execute("dispatchEvent(new Event('afterprint'))")
    key = ["highway", "main road", "road", "rail", "water", "boundary", "landmark"]
    page.equal("the key", key, page.browser.texts(".key li"))


def try_places_of_cards(page: Page) -> None:
    """Each card of the list is on the map, and above or below its place, which is a little below the middle."""
    show_town(page)
    for number in range(1, 25):
        title = page.browser.text(f".differences li:nth-child({number}) .name")
        page.browser.click(f".differences li:nth-child({number}) > button")
        page.browser.wait_for(f"{CARD}?.textContent === {json.dumps(title)}")
        page.browser.wait_for(DRAWN)
        card, chart = page.browser.evaluate(BOXES, [".place-card", ".chart"])
        page.holds(f"the card of {title} is on the map", are_within(card, chart), [card, chart])
        place = chart[1] + 0.52 * (chart[3] - chart[1])
        item, shown = page.browser.evaluate(BOXES, [f".differences li:nth-child({number}) .name", ".differences"])
        page.holds(f"the item of {title} is in view", are_within(item, shown), [item, shown])
        page.holds(f"the card of {title} isn't on its place", card[3] < place - 10 or card[1] > place + 10, [card, chart])
        page.holds(f"the card of {title} is beside its place", card[3] > place - 25 or card[1] < place + 25, [card, chart])


def try_keyboard(page: Page) -> None:
    """The focus goes to a card that the keyboard opens, and from there back to the list or the map."""
    show_town(page)
    in_card = "document.activeElement.closest('.place-card')"
    page.browser.execute("document.querySelector('.differences button[tabindex=\"0\"]').focus()")
    press(page, "Enter")
    page.holds("a card by the keyboard", page.browser.wait_for(in_card), page.browser.text(".chart"))
    press(page, "Escape")
    page.equal("back in the list", [0, True], page.browser.evaluate(f"[{FOCUSED_ITEM}, {CLOSED}]"))
    for label in ("chains only in the first", "chains only in the second", "chains changed", "landmarks", "polygons"):
        page.browser.execute(
            "for (const box of document.querySelectorAll(`.kinds input:checked[aria-label^='${arguments[0]}']`)) box.click()", label
        )
    for what, files in (("a chain that is alike", []), ("a chain of one county", TOWN[:1])):
        if files:
            page.show(files)
        press_on_map(page, "Enter")
        page.holds(f"a card of {what}", page.browser.wait_for(in_card), page.browser.text(".chart"))
        heads = [] if files else ["field", "in both"]
        page.equal(f"the heads of {what}", heads, page.browser.texts(".place-card thead th"))
        press(page, "Escape")
        page.equal(
            f"back on the map from {what}",
            [True, True],
            page.browser.evaluate(f"[document.activeElement.className === 'map', {CLOSED}]"),
        )


def try_rulers(page: Page) -> None:
    """The map's scale is in metres and in feet."""
    show_town(page)
    (one, metres), (other, also) = rulers(page)
    page.equal("units", ["m", "ft"], [one, other])
    page.holds("metres to a pixel", abs(metres / also - 1) < 0.01, [metres, also])
    # 0.016 degrees of latitude are 1,781 m, and the town is 0.0155 degrees high.
    page.holds("the town's height", 2.5 < metres < 4.5, metres)


def try_points(page: Page) -> None:
    """One county without chains has no map, and two have one that shows all their landmarks."""
    files = [page.room / "points.txt", page.room / "others.txt"]
    places = (("-086010000", "+32400000"), ("-086000000", "+32420000"))
    for file, cfcc in zip(files, ("D43", "D85")):
        file.write_text("".join(f"7200601001{number:10} {cfcc}{'':30}{x}{y}\n" for number, (x, y) in enumerate(places, 1)))
    resize(page, LAPTOP)
    page.show(files[:1])
    page.equal("a county without chains", "This set has no chains, so there is nothing to draw.", page.browser.text(".chart"))
    page.show(files, LISTED)
    page.browser.wait_for(DRAWN)
    # 0.02 degrees of latitude are 2,226 m, and the map has a margin of 24 pixels.
    wanted, found = 2226.4 / (page.browser.evaluate("document.querySelector('.map').clientHeight") - 48), rulers(page)[0][1]
    page.holds("metres to a pixel between two landmarks", abs(found / wanted - 1) < 0.01, [wanted, found])


PLACE = "(({ e, f }) => [e, f])(new DOMMatrix(getComputedStyle(document.querySelector('.place-card')).transform))"
# Presses a key on the map, and returns whether the map takes it.
KEY = "!document.querySelector('.map').dispatchEvent(new KeyboardEvent('keydown', { key: arguments[0], [arguments[1]]: true, cancelable: true }))"


def moved(page: Page, act: Callable[[], object]) -> tuple[list[float], float]:
    """By how many pixels the card on the map moves, and how many times more a pixel shows."""
    before, metres = page.browser.evaluate(PLACE), rulers(page)[0][1]
    act()
    page.browser.wait_for(DRAWN)
    after = page.browser.evaluate(PLACE)
    return [after[at] - before[at] for at in (0, 1)], round(rulers(page)[0][1] / metres, 3)


def mouse(page: Page, kind: str, x: int, y: int, **more: Any) -> None:
    page.browser.command("Input.dispatchMouseEvent", type=kind, x=x, y=y, **more)


def drag(page: Page) -> None:
    left, top = map(
        int, page.browser.evaluate("(({ left, top }) => [left, top])(document.querySelector('.map').getBoundingClientRect())")
    )
    for kind, x, y in (("mousePressed", 50, 60), ("mouseMoved", 65, 70), ("mouseMoved", 80, 40), ("mouseReleased", 80, 40)):
        mouse(page, kind, left + x, top + y, button="left", buttons=1, clickCount=1)


def try_moving(page: Page) -> None:
    """Keys, buttons and the pointer move and zoom the map, and the card with it. Keys with Ctrl, Alt or Meta are the browser's."""
    show_town(page)
    whole = rulers(page)
    page.browser.click(".differences li:nth-child(14) > button")
    page.browser.wait_for(CARD)
    arrows = {"ArrowLeft": [80, 0], "ArrowRight": [-80, 0], "ArrowUp": [0, 80], "ArrowDown": [0, -80], "x": [0, 0]}
    for key, wanted in arrows.items():
        taken = []
        found = moved(page, lambda: taken.append(page.browser.evaluate(KEY, key, "bubbles")))
        page.equal(f"the key {key}", ((wanted, 1.0), [key != "x"]), (found, taken))
    for held in ("ctrlKey", "altKey", "metaKey"):
        for key in ("ArrowLeft", "-"):
            page.equal(f"{held} and {key}", ([0, 0], 1.0), moved(page, lambda: page.browser.evaluate(KEY, key, held)))
    zooms = {"+": 0.625, "-": 1.6, "=": 0.625}
    for key, factor in zooms.items():
        page.equal(f"the key {key}", factor, moved(page, lambda: page.browser.evaluate(KEY, key, "bubbles"))[1])
    for number, factor in ((2, 1.6), (1, 0.625)):
        page.equal("a button", factor, moved(page, lambda: page.browser.click(f".tools button:nth-child({number})"))[1])
    page.equal("a pointer that drags", ([30, -20], 1.0), moved(page, lambda: drag(page)))
    page.equal("a card stays", False, page.browser.evaluate(CLOSED))
    for act in (lambda: page.browser.evaluate(KEY, "0", "bubbles"), lambda: page.browser.click(".tools button:nth-child(3)")):
        page.browser.evaluate(KEY, "+", "bubbles")
        act()
        page.browser.wait_for(DRAWN)
        page.equal("the whole map", whole, rulers(page))


CASES = (
    try_drawing,
    try_screens,
    try_drawing_long,
    try_wheel,
    try_pointing,
    try_clicking,
    try_click,
    try_fields,
    try_classes,
    try_places_of_cards,
    try_keyboard,
    try_rulers,
    try_points,
    try_moving,
)
