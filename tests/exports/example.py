"""The program examples/draw.c, against the model of document 01."""
import collections
import os
import re
import subprocess

import model
from common import ROOT, run
from dump import make as dump
from exports.header import c_words
from exports.machine import fail
from pcf.font_f import two_digits

PAGES = [
    (b"01", 6, 3, 1), (b"01", 7, 3, 1), (b"0101", 12, 12, 2), (b"01", 12, 5, 2), (b"0", 3, 2, 1), (b"", 9, 4, 1),
    (b"0\n1\r\n0", 8, 8, 1), (b"0 1\xc3\xa90", 20, 7, 2), (b"01010101", 9, 30, 1), (b"01", 400, 200, 64),
    (b"0", 1, 1, 64), (b"1" * 300, 65535, 3, 1), (b"0", 2, 6, 1), (b"10", 2, 9, 1), (b"01\xe2\x82", 24, 6, 1),
    (b"\xff", 9, 9, 1), (b"0" * 65536, 9, 9, 1),
]


def picture(page, width):
    """the page as a PBM file"""
    made = b"P4\n%d %d\n" % (width, len(page) // width)
    for i in range(0, len(page), width):
        bits = "".join("1" if pixel else "0" for pixel in page[i:i + width])
        made += bytes(int(bits[k:k + 8].ljust(8, "0"), 2) for k in range(0, width, 8))
    return made


def example(at, folder):
    program = at.build(os.path.join(ROOT, "examples", "draw.c"), os.path.join(folder, "draw"), "-Wextra", "-pedantic",
                       "-std=c99", "-O2")
    name, out = os.path.join(folder, "font.pcf"), os.path.join(folder, "page.pbm")
    tried = collections.Counter()

    def expect(what, got, status, said, error):
        tried[status] += 1
        right = re.fullmatch(error, got.stderr.decode(errors="replace"))
        if (got.returncode, got.stdout) != (status, said) or not right:
            fail("draw, %s: status %d, %r, %r" % (what, got.returncode, got.stdout, got.stderr))

    def drawn(what, font, text, width, height, scale):
        with open(name, "wb") as f:
            f.write(font)
        if os.path.exists(out):
            os.remove(out)
        got = run(*program, name, text, str(width), str(height), str(scale), out)
        try:
            rec, refused = model.vet(font), "text"
        except model.Refused as r:
            rec, refused = r, "font"
        try:
            if refused == "font":
                raise rec
            page = [0] * (width * height)
            (tall, dropped), page = model.draw_string(font, rec, model.PLAIN, text, page, 0, width + 1, width, scale,
                                                      1)
        except model.Refused as r:
            words = "draw: the %s is refused, %d at %d: %s\n" % (refused, r.number, r.place, c_words()[r.number])
            expect(what, got, 1, b"", re.escape(words))
            if os.path.exists(out):
                fail("draw, %s: a picture of a refused text" % what)
            return
        expect(what, got, 0, b"height %d, dropped rows %d\n" % (tall, dropped), "")
        with open(out, "rb") as f:
            if f.read() != picture(page, width):
                fail("draw, %s: another picture than the model's" % what)

    f = two_digits()
    for text, width, height, scale in PAGES:
        drawn("%r" % text[:20], f, text, width, height, scale)
    for long in (4095, 4096, 4097, 1000000):
        drawn("%d bytes" % long, f + bytes(long - len(f)), b"01", 6, 4, 1)
    seen = set()
    for of, font in dump.font_files().items():
        kind = of[:10]
        if kind not in seen:
            seen.add(kind)
            drawn(of, font, b"01A", 20, 9, 1)

    def trouble(what, said, *words, **more):
        got = subprocess.run([*program, *words], **{"stdout": subprocess.PIPE, **more}, stderr=subprocess.PIPE)
        expect(what, got, 2, None if "stdout" in more else b"", said)

    with open(name, "wb") as file:
        file.write(f)
    trouble("no words", "usage: draw .*\n")
    trouble("a word too many", "usage: draw .*\n", name, "0", "3", "3", "1", out, out)
    trouble("no font", "draw: .*: No such file.*\n", name + "x", "0", "3", "3", "1", out)
    trouble("a folder", "draw: .*: (cannot be read|Is a directory)\n", folder, "0", "3", "3", "1", out)
    for width in ("0", "65536", "3x", "", "-1", "+1", " 1", "18446744073709551617"):
        trouble("a page %s wide" % width, "draw: WIDTH: .*\n", name, "0", width, "3", "1", out)
    trouble("scale 65", "draw: SCALE: .*\n", name, "0", "3", "3", "65", out)
    nowhere = os.path.join(folder, "none", "page.pbm")
    trouble("no folder for the picture", "draw: .*: No such file.*\n", name, "0", "3", "3", "1", nowhere)
    trouble("no room for the picture", "draw: /dev/full: .*\n", name, "0", "3", "3", "1", "/dev/full")
    with open("/dev/full", "wb") as full:
        trouble("no room for the answer", "draw: standard output: .*\n", name, "0", "3", "3", "1", out, stdout=full)
    print("exports: draw.c: %d pictures, %d refusals, %d other faults" % (tried[0], tried[1], tried[2]))
