#!/usr/bin/env python3
"""Makes the meter's font from the drawing of its letters in meter-font/letters.txt. It is one font in two forms: the
PCF file meter-font/meter.pcf, and meter-font/meter.hex, the same bytes as lines of hexadecimal digits, which is what
the dump program reads.

Without arguments it says whether both are what the drawing gives; with --write it stores that."""
import os
import re
import sys

HERE = os.path.dirname(os.path.abspath(__file__))
sys.path.insert(0, os.path.join(os.path.dirname(HERE), "tests"))

from common import fail  # noqa: E402
from pcf import tables  # noqa: E402
from pcf.numbers import NO_GLYPH, TOP, lines  # noqa: E402

LETTERS = os.path.join(HERE, "letters.txt")
HEX, PCF = os.path.join(HERE, "meter.hex"), os.path.join(HERE, "meter.pcf")
PROPERTIES = [("FONT", "Thalluskin Meter"), ("FAMILY_NAME", "Meter"), ("PIXEL_SIZE", 10), ("FONT_ASCENT", 7),
              ("FONT_DESCENT", 3)]
BASE = 7            # rows above the base line
LEAST_UNLIKE = 5    # pixels in which any two digits differ


# ---- the drawing


def letters(text):
    """(code, name, rows) of each letter, in the order of their codes"""
    found = []
    for block in re.sub(r"(?m)^//.*\n", "", text).strip().split("\n\n"):
        head, *rows = block.split("\n")
        named = re.fullmatch(r"([0-9A-F]{4}) (\w+)", head)
        if not named:
            fail("not a code and a name: %s" % head)
        if len(rows) < BASE or len({len(row) for row in rows}) != 1 or not set("".join(rows)) <= {".", "#"}:
            fail("%s: not %d or more rows of '.' and '#', all of one width" % (head, BASE))
        if any(row.endswith("#") for row in rows):
            fail("%s: it touches the next letter" % head)
        found.append((int(named[1], 16), named[2], rows))
    if [code for code, _, _ in found] != sorted({code for code, _, _ in found}):
        fail("the codes do not ascend")
    return found


def tell_apart(found):
    """A digit that is taken for another is a wrong bill."""
    digits = [rows for code, _, rows in found if 0x30 <= code <= 0x39]
    if len(digits) != 10 or len({(len(rows), len(rows[0])) for rows in digits}) != 1:
        fail("the ten digits are not all of one width and height")
    drawn = ["".join(rows) for rows in digits]
    for i in range(10):
        for k in range(i):
            if sum(a != b for a, b in zip(drawn[i], drawn[k])) < LEAST_UNLIKE:
                fail("the digits %d and %d are hard to tell apart" % (k, i))
    if len({tuple(rows) for _, _, rows in found}) != len(found):
        fail("two letters have the same drawing")


def cut(rows):
    """the rows without clear ones above and below, and how many of them stand above the base line"""
    set_rows = [i for i, row in enumerate(rows) if "#" in row]
    if not set_rows:
        return [], 0
    first, end = set_rows[0], set_rows[-1] + 1
    return rows[first:end], BASE - first


# ---- the file: format 0, so the least significant byte first


class Strings:
    """zero-ended strings, and where each begins"""
    def __init__(self):
        self.all = b""

    def add(self, text):
        at = len(self.all)
        self.all += text.encode() + b"\0"
        return at


def properties():
    strings, records = Strings(), []
    for name, value in PROPERTIES:
        is_string = isinstance(value, str)
        records.append((strings.add(name), is_string, strings.add(value) if is_string else value))
    return tables.properties(0, records, strings.all)


def accelerators(metrics):
    """no overlap, ink inside; the letters' ascent and descent; the least and the greatest of each metric"""
    least = [min(column) for column in zip(*metrics)]
    greatest = [max(column) for column in zip(*metrics)]
    flags = [1, 0, 0, 0, 1, 0, 0, 0]
    return tables.accelerators(0, flags, greatest[3], greatest[4], 0, (*least, 0), (*greatest, 0))


def row_bytes(row):
    bits = row.replace(".", "0").replace("#", "1")
    return bytes(int(bits[i:i + 8].ljust(8, "0"), 2) for i in range(0, len(bits), 8))


def bitmaps(pictures):
    """the data's size is said once for each row pad that a reader may ask for"""
    bits = b"".join(row_bytes(row) for rows in pictures for row in rows)
    boxes = [(0, len(rows[0]) if rows else 0, len(rows), 0) for rows in pictures]
    offsets, _ = tables.laid_out(boxes, 1)
    return tables.bitmaps(TOP, offsets, [tables.laid_out(boxes, pad)[1] for pad in tables.PADS], bits)


def codes(of_glyphs):
    low, high = of_glyphs[0], of_glyphs[-1]
    entries = [of_glyphs.index(code) if code in of_glyphs else NO_GLYPH for code in range(low, high + 1)]
    return tables.codes(0, (low, high), (0, 0), ord("?"), entries)


def glyph_names(of_glyphs):
    strings = Strings()
    offsets = [strings.add(name) for name in of_glyphs]
    return tables.names(0, offsets, strings.all)


def font_of(found):
    """The bitmap of a glyph is as wide as the pen moves, so its right bearing is its width."""
    metrics, pictures = [], []
    for _, _, rows in found:
        picture, ascent = cut(rows)
        width = len(rows[0])
        metrics.append((0, width, width, ascent, len(picture) - ascent))
        pictures.append(picture)
    return tables.font([
        properties(),
        accelerators(metrics),
        tables.narrow_metrics(0, metrics),
        bitmaps(pictures),
        codes([code for code, _, _ in found]),
        glyph_names([name for _, name, _ in found]),
    ], padding_counts=False)


def stored_font():
    """the bytes of the stored font"""
    with open(HEX, encoding="ascii") as f:
        return bytes.fromhex(f.read())


def forms(font):
    """what each of the two files has to hold"""
    return {HEX: lines(font).encode("ascii"), PCF: font}


def main():
    with open(LETTERS, encoding="ascii") as f:
        found = letters(f.read())
    tell_apart(found)
    made = font_of(found)
    if sys.argv[1:] not in ([], ["--write"]):
        fail("make.py takes --write or nothing")
    for file, content in forms(made).items():
        if sys.argv[1:]:
            with open(file, "wb") as f:
                f.write(content)
        if not os.path.exists(file):
            fail("meter-font/%s is not there; make.py --write makes it" % os.path.basename(file))
        with open(file, "rb") as f:
            if f.read() != content:
                fail("meter-font/%s is not what meter-font/letters.txt gives" % os.path.basename(file))
    print("font: %d letters, %d bytes, as they are drawn" % (len(found), len(made)))


if __name__ == "__main__":
    main()
