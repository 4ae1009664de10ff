"""Makes the picture of the page in README, docs/page.png: two maps of a town, with a difference opened.

    PYTHONPATH=tests:page/tests /usr/bin/python3 -B page/tests/picture.py [PAGE]

PAGE is by default out/page/tigercanon.html. Needs Debian's python3-pil besides what tests/test-page needs.
"""

import sys
import tempfile
from pathlib import Path

from browser import Chromium
from dev.testing import ROOT
from PIL import Image

TOWN = ROOT / "examples/two-maps"
NUMBER = 14  # the difference that is opened
WIDTH, HEIGHT, COLOURS = 1280, 800, 96


def main(page: Path) -> None:
    with tempfile.TemporaryDirectory() as room:
        browser = Chromium(Path(room), WIDTH, HEIGHT)
        try:
            browser.open(page)
            # Whether the engine is proved isn't what the picture shows.
            browser.execute("document.getElementById('unproved').hidden = true")
            browser.give([TOWN / "first.txt", TOWN / "second.txt"])
            browser.wait_for("document.querySelector('.differences li')")
            browser.wait_for("document.querySelector('.compared').dataset.numbered")
            browser.click(f".differences li:nth-child({NUMBER}) > button")
            browser.wait_for("document.querySelector('.place-card tr')")
            browser.wait_for("document.querySelector('.map').dataset.drawn")
            browser.picture(Path(room, "page.png"))
        finally:
            browser.close()
        picture = Image.open(Path(room, "page.png")).convert("RGB")
        picture.quantize(COLOURS, dither=Image.Dither.NONE).save(ROOT / "docs/page.png", optimize=True)


if __name__ == "__main__":
    main(Path(sys.argv[1] if len(sys.argv) > 1 else ROOT / "out/page/tigercanon.html").resolve())
