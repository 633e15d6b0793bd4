"""Pictures read back: those that `show` writes, and the one in docs/."""
import os
import zlib

import model
from command.script import count, expect, run
from command.shows import drawn_by_model, panel_of
from common import ROOT, fail
from panel import expected as panel

PICTURE = os.path.join(ROOT, "docs", "panel.png")


def read_pbm(path):
    """the rows of a plain PBM picture, with no line over 70 characters"""
    with open(path, encoding="ascii") as f:
        text = f.read()
    kind, width, height, *digits = text.split()
    pixels = [int(digit) for digit in "".join(digits)]
    if kind != "P1" or len(pixels) != int(width) * int(height) or max(map(len, text.split("\n"))) > 70:
        fail("%s is no such picture" % path)
    return [pixels[i:i + int(width)] for i in range(0, len(pixels), int(width))]


def read_png(path):
    """the lines of a PNG picture with a palette, as lists of colour numbers"""
    with open(path, "rb") as f:
        content = f.read()
    at, parts = 8, {}
    while at < len(content):
        size = int.from_bytes(content[at:at + 4], "big")
        parts[content[at + 4:at + 8]] = content[at + 8:at + 8 + size]
        at += 12 + size
    width, height = (int.from_bytes(parts[b"IHDR"][i:i + 4], "big") for i in (0, 4))
    lines = zlib.decompress(parts[b"IDAT"])
    if parts[b"IHDR"][8:] != bytes([8, 3, 0, 0, 0]) or len(lines) != (width + 1) * height or any(lines[::width + 1]):
        fail("%s is no such picture" % path)
    return [lines[i + 1:i + 1 + width] for i in range(0, len(lines), width + 1)]


def pictures(folder):
    font = panel.meter.stored_font()
    plain, by_default = (model.PLAIN, []), (panel.DEFAULT, ["--default"])
    for text, width, height, scale, (mode, more) in (
            ("12 345 kWh", 72, 20, 1, plain), ("12\n34", 64, 21, 2, plain), ("1", 1, 1, 1, plain),
            ("0°", 128, 5, 1, plain), ("süß", 30, 12, 1, plain), ("süß", 30, 12, 1, by_default),
            (panel.TEXT.decode(), 200, 300, 3, plain)):
        rows, dropped = drawn_by_model(font, text.encode(), width, height, scale, "", mode)
        got = run("show", text, "--width=%d" % width, "--height=%d" % height, "--scale=%d" % scale, "--pbm",
                  "a folder/a picture.pbm", *more, folder=folder)
        expect("a picture beside the panel", got, 0, panel_of(rows, dropped, font, text.encode(), mode), None)
        if read_pbm(os.path.join(folder, "a folder/a picture.pbm")) != rows:
            fail("the picture of %s is not the panel" % text)
    rows, _ = drawn_by_model(font, panel.TEXT, panel.WIDTH, panel.HEIGHT, 1, "")
    lines, margin, cell = read_png(PICTURE), 12, 8
    inside = [line[margin:margin + cell * panel.WIDTH] for line in lines[margin:margin + cell * panel.HEIGHT]]
    for y, line in enumerate(inside):
        for x, colour in enumerate(line):
            gap = x % cell == cell - 1 or y % cell == cell - 1
            if colour != (0 if gap else 1 + rows[y // cell][x // cell]):
                fail("docs/panel.png is not the panel with the text of crates/panel")
    count()
