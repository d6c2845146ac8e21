#!/usr/bin/env python3
"""Writes a picture of the page of `rackd watch`: light, 1,200 pixels wide, a PNG of at most 200 KB.

usage: watch_picture.py URL FILE

It needs Chromium. A palette of at most 256 colours keeps the picture small. The status is 1 if it is larger.
"""
import collections
import struct
import sys
import zlib
from pathlib import Path

sys.dont_write_bytecode = True
sys.path.insert(0, str(Path(__file__).resolve().parent.parent))
from support.browsers import Browser, find_chromium

WIDTH, HEIGHT = 1200, 1160
# The most octets of the picture; the most colours of its palette.
MOST_OCTETS, MOST_COLOURS = 200_000, 256


def chunks(png):
    """Returns the chunks of a PNG, each a name and its octets."""
    at, found = 8, []
    while at < len(png):
        length, name = struct.unpack(">I4s", png[at:at + 8])
        found.append((name, png[at + 8:at + 8 + length]))
        at += length + 12
    return found


def chunk(name, octets):
    return struct.pack(">I", len(octets)) + name + octets + struct.pack(">I", zlib.crc32(name + octets))


def nearest(left, above, corner):
    """Returns the one of three octets that is nearest to left + above - corner, as a PNG defines it."""
    guess = left + above - corner
    return min((left, above, corner), key=lambda one: abs(guess - one))


def unfiltered(kind, row, above, step):
    """Undoes the filter of a row of a PNG. `step` is the number of octets of a pixel."""
    if kind == 0:
        return row
    row = bytearray(row)
    for at, octet in enumerate(row):
        left, corner = (row[at - step], above[at - step]) if at >= step else (0, 0)
        added = {1: left, 2: above[at], 3: (left + above[at]) // 2}.get(kind)
        row[at] = (octet + (nearest(left, above[at], corner) if added is None else added)) % 256
    return bytes(row)


def pixels(png):
    """Returns the width of a PNG of 8 bits, and its rows of pixels: each a list of red, green and blue."""
    found = chunks(png)
    width, height, depth, kind = struct.unpack(">IIBB", found[0][1][:10])
    if depth != 8 or kind not in (2, 6):
        raise ValueError(f"a PNG of kind {kind} and depth {depth}")
    step = 3 if kind == 2 else 4
    octets = zlib.decompress(b"".join(octets for name, octets in found if name == b"IDAT"))
    rows, above, length = [], bytes(width * step), width * step + 1
    for at in range(0, height * length, length):
        above = unfiltered(octets[at], octets[at + 1:at + length], above, step)
        rows.append([above[place:place + 3] for place in range(0, width * step, step)])
    return width, rows


def in_few_colours(png):
    """Returns a PNG with a palette: the most frequent colours, and for others one that is near."""
    width, rows = pixels(png)
    counted = collections.Counter(pixel for row in rows for pixel in row)
    palette = [colour for colour, _ in counted.most_common(MOST_COLOURS)]
    places = {colour: place for place, colour in enumerate(palette)}
    similar = {}
    for red, green, blue in counted.keys() - places.keys():
        key = red >> 3, green >> 3, blue >> 3
        if key not in similar:
            distances = [(red - one[0]) ** 2 + (green - one[1]) ** 2 + (blue - one[2]) ** 2 for one in palette]
            similar[key] = distances.index(min(distances))
        places[bytes((red, green, blue))] = similar[key]
    octets = b"".join(b"\0" + bytes(places[pixel] for pixel in row) for row in rows)
    return (b"\x89PNG\r\n\x1a\n" + chunk(b"IHDR", struct.pack(">IIBBBBB", width, len(rows), 8, 3, 0, 0, 0))
            + chunk(b"PLTE", b"".join(palette)) + chunk(b"IDAT", zlib.compress(octets, 9)) + chunk(b"IEND", b""))


def main():
    if len(sys.argv) != 3:
        sys.exit(__doc__.split("\n")[2])
    program = find_chromium()
    if program is None:
        sys.exit("chromium is not installed")
    with Browser(program) as browser:
        tab = browser.page(WIDTH, HEIGHT, has_bars=False)
        tab.open(sys.argv[1])
        if not tab.wait("document.querySelector('#slaves tr') !== null"):
            sys.exit("the page shows no line")
        picture = in_few_colours(tab.picture())
    with open(sys.argv[2], "wb") as file:
        file.write(picture)
    print(f"{sys.argv[2]}: {len(picture)} octets")
    sys.exit(1 if len(picture) > MOST_OCTETS else 0)


if __name__ == "__main__":
    main()
