#!/usr/bin/env python3
"""Writes pictures of the page with the sample of tests/page: light.png, dark.png and narrow.png.

usage: sample_pictures.py FOLDER

It needs Chromium. The page files are those of the sources.
"""
import sys
import time
from pathlib import Path

sys.dont_write_bytecode = True
TESTS = Path(__file__).resolve().parent.parent
sys.path[:0] = [str(TESTS), str(TESTS.parent / "python")]
from page.shown_racks import NOT_LISTED, ShownRack, exchanges, refusal
from page.stand_in import StandIn
from support.browsers import Browser, find_chromium

PICTURES = (("light", 1440, 1320, "light"), ("dark", 1440, 1320, "dark"), ("narrow", 430, 2300, "dark"))


def main():
    if len(sys.argv) != 2:
        sys.exit(__doc__.split("\n")[2])
    program = find_chromium()
    if program is None:
        sys.exit("chromium is not installed")
    pages = TESTS.parent / "crates" / "watch_page" / "page"
    with StandIn(pages) as server, Browser(program) as browser:
        for name, width, height, scheme in PICTURES:
            tab = browser.page(width, height, scheme, has_bars=False)
            shown = ShownRack(server, tab)
            shown.open()
            shown.rack.set_slave(5, inputs="0107", shown="0107", left=100)
            shown.follow(refusal(16, 3, 9, NOT_LISTED, "NotListed"), *exchanges(17, 30), refusal(47))
            time.sleep(0.3)
            Path(sys.argv[1], f"{name}.png").write_bytes(tab.picture())
            tab.close()


if __name__ == "__main__":
    main()
