#!/usr/bin/env python3
"""picture.py PLAN.html: takes the picture of the page that stands in README, as javascript/plan/plan.png: of the example, after a
look-up. It has a palette of 64 colours, so that it has some tens of kilobytes."""
import pathlib
import struct
import sys
import zlib
from collections import Counter

import driver
from page import Page

OUT = pathlib.Path(__file__).resolve().parent.parent / "plan" / "plan.png"


def pixels(png):
    """The width, and the rows of a PNG of 8 bits for each of three or four channels, as colours."""
    at, data = 8, b""
    while at < len(png):
        size, kind = struct.unpack(">I4s", png[at:at + 8])
        if kind == b"IHDR":
            width, height, depth, colour = struct.unpack(">IIBB", png[at + 8:at + 18])
            channels = {2: 3, 6: 4}[colour]
            assert depth == 8
        elif kind == b"IDAT":
            data += png[at + 8:at + 8 + size]
        at += size + 12
    data, before, rows = zlib.decompress(data), bytearray(width * channels), []
    for y in range(height):
        begin = y * (width * channels + 1)
        method, line = data[begin], bytearray(data[begin + 1:begin + 1 + width * channels])
        for i in range(len(line)):
            left, up = line[i - channels] if i >= channels else 0, before[i]
            if method == 4:
                corner = before[i - channels] if i >= channels else 0
                guess = left + up - corner
                a, b, c = abs(guess - left), abs(guess - up), abs(guess - corner)
                line[i] = line[i] + (left if a <= b and a <= c else up if b <= c else corner) & 255
            else:
                line[i] = line[i] + (0, left, up, (left + up) // 2)[method] & 255
        before = line
        rows.append([tuple(line[i:i + 3]) for i in range(0, len(line), channels)])
    return width, rows


def distance(one, other):
    return sum((a - b) ** 2 for a, b in zip(one, other))


def chunk(kind, data):
    return struct.pack(">I", len(data)) + kind + data + struct.pack(">I", zlib.crc32(kind + data))


def main():
    browser = driver.Browser(1300, 800)
    try:
        page = Page(browser, pathlib.Path(sys.argv[1]).resolve().as_uri())
        page.ask("10.20.17.9")
        browser.run("document.activeElement.blur()")
        width, rows = pixels(browser.picture())
    finally:
        browser.close()
    counts = Counter(colour for row in rows for colour in row)
    # the commonest colours, and then those that are far from them and not rare
    palette = [colour for colour, _ in counts.most_common(32)]
    far = {colour: min(distance(colour, it) for it in palette) for colour in counts}
    while len(palette) < 64:
        palette.append(max(counts, key=lambda colour: far[colour] * counts[colour]))
        far = {colour: min(size, distance(colour, palette[-1])) for colour, size in far.items()}
    nearest = {colour: min(range(len(palette)), key=lambda i: distance(palette[i], colour)) for colour in counts}
    lines = b"".join(b"\0" + bytes(nearest[colour] for colour in row) for row in rows)
    png = b"\x89PNG\r\n\x1a\n" + chunk(b"IHDR", struct.pack(">IIBBBBB", width, len(rows), 8, 3, 0, 0, 0)) + chunk(b"PLTE", bytes(v for colour in palette for v in colour))
    png += chunk(b"IDAT", zlib.compress(lines, 9)) + chunk(b"IEND", b"")
    assert len(png) < 60000, len(png)
    OUT.write_bytes(png)
    print(f"{OUT}: {len(png)} bytes, {width} by {len(rows)}")


if __name__ == "__main__":
    main()
