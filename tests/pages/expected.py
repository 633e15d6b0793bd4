#!/usr/bin/env python3
"""Holds crates/pages/stdout, which the program must write, to what the model of document 01 says of each
page: the answer and the buffer after it. The pages are asked for by crates/pages/stdin.

With --write the input and the output are stored anew."""
import os
import sys

sys.path.insert(0, os.path.dirname(os.path.dirname(os.path.abspath(__file__))))

import model  # noqa: E402
import stored  # noqa: E402
from pcf import font_f  # noqa: E402

COLOUR = 1
NO_WRAP = 2 ** 32 - 1

# title, text, pixels, stride, wrap, scale, and the value that each pixel has before
PAGES = [
    ("P1", b"0", 9, 3, None, 1, 0),
    ("P2", b"0", 8, 3, None, 1, 0),
    ("P4", b"0", 11, 6, None, 2, 0),
    ("P5", b"01", 36, 6, 6, 1, 0),
    ("P6", b"01", 36, 6, 7, 1, 0),
    ("P7", b"", 36, 6, 7, 1, 0),
    ("P8", b"01", 18, 6, None, 1, 0),
    ("over old pixels", b"01", 24, 6, None, 1, 7),
    ("twice as large", b"01", 72, 12, None, 2, 0),
    ("second line cut", b"0\n1", 14, 3, None, 1, 0),
    ("wrap at x = 0", b"01", 27, 3, 2, 1, 0),
    ("return, newline", b"0\r\n1", 18, 3, None, 1, 0),
    ("space skipped", b"0 1", 24, 6, None, 1, 0),
    ("U+E9 skipped", b"0\xc3\xa91", 24, 6, None, 1, 0),
    ("P3", b"0", 24, 6, None, 2, 7),
    ("second refused", b"01", 66, 12, None, 2, 7),
    ("not UTF-8", b"01\xe2\x82", 24, 6, None, 1, 7),
    ("scale over 64", b"0", 9, 3, None, 65, 7),
]


def request(font):
    """the program's input: the font's length, the font, and each page as seven numbers, its title and its text"""
    def number(n):
        return n.to_bytes(4, "little")
    asked = [number(len(font)), font]
    for title, text, length, stride, wrap, scale, old in PAGES:
        end = NO_WRAP if wrap is None else wrap
        asked += [number(n) for n in (len(title), len(text), length, stride, end, scale, old)]
        asked += [title.encode(), text]
    return b"".join(asked)


def quoted(text):
    return '"' + repr(text)[2:-1] + '"'


def rows(buf, stride):
    for i in range(0, len(buf), stride):
        yield "".join({COLOUR: "#", 0: "."}.get(pixel, "x") for pixel in buf[i:i + stride])


def page(b, rec, title, text, length, stride, wrap, scale, old):
    """what is written of a page, and the number that it is refused with or 0"""
    buf, number = [old] * length, 0
    try:
        (height, dropped), buf = model.draw_string(b, rec, model.PLAIN, text, buf, 0, wrap, stride, scale, COLOUR)
        answer = "height %d, dropped %d" % (height, dropped)
    except model.Refused as r:
        answer, number = str(r), r.number
    wraps = "no wrap" if wrap is None else "wrap at %d" % wrap
    asked = "%s: text %s, stride %d, pixels %d, %s, scale %d" % (title, quoted(text), stride, length, wraps, scale)
    lines = [asked, "%s; dry run %s" % (answer, answer), *rows(buf, stride), ""]
    return "".join(line + "\n" for line in lines).encode(), number


def main():
    b = font_f.two_digits()
    rec = model.vet(b)
    pages = [page(b, rec, *p) for p in PAGES]
    want = {
        ("pages", "stdin"): request(b),
        ("pages", "stdout"): b"".join(written for written, _ in pages),
    }
    stored.hold(want, sys.argv[1:] == ["--write"])
    print("pages: %d pages agree with the model, refused %s" % (
        len(pages), ", ".join("%d" % number for _, number in pages if number)))


if __name__ == "__main__":
    main()
