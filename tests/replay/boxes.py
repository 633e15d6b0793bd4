"""Fonts given by the boxes and rows of their glyphs."""
import random

from pcf.font_f import THREE
from pcf.numbers import BIG, NO_GLYPH, TOP
from pcf.tables import (PADS, accelerators, bitmaps, codes, font, laid_out, names, narrow_metrics, properties,
                        wide_metrics)


def of_glyphs(form, pad, top, boxes, offsets, data, metrics=wide_metrics, bits=TOP):
    """codes from 0x41 on; `boxes` has left bearing, width, ascent, descent of each glyph; `bits` are of the bitmaps'
    format alone"""
    picked = PADS.index(pad)
    sizes = [0] * 4
    sizes[picked] = len(data)
    record = (lambda *m: m[:5]) if metrics is narrow_metrics else (lambda *m: m)
    return font([
        properties(form, [], b""),
        accelerators(form, [0] * 8, top, 0, 0, THREE, (0, 0, 9, top, 0, 0)),
        metrics(form, [record(left, 0, width, ascent, descent, 0) for left, width, ascent, descent in boxes]),
        bitmaps(form | bits | picked, offsets, sizes, data),
        codes(form, (0x41, 0x40 + len(boxes)), (0, 0), 0x41, list(range(len(boxes)))),
        names(form, [0] * len(boxes), b"x\0"),
    ])


def widths(pad, form):
    """glyphs 1 to 40 wide and 1 to 3 high; the bits past the width and in the padding are set as others are"""
    rng = random.Random(pad)
    boxes = [(w % 3, w, 1 + w % 2, w // 2 % 2) for w in range(1, 41)]
    offsets, size = laid_out(boxes, pad)
    data = bytes(rng.choice((0, 255, rng.randrange(256), rng.randrange(256))) for _ in range(size))
    return of_glyphs(form, pad, 3, boxes, offsets, data, narrow_metrics if pad < 4 else wide_metrics)


def mixed(seed, bits=TOP):
    """a dozen small glyphs, sparse and dense, some with too little data; units are at most as wide as the row pad"""
    rng = random.Random(seed)
    pad, form = rng.choice(PADS[bits >> 4:]), rng.choice((0, BIG))
    boxes = []
    for _ in range(12):
        ascent = rng.randrange(4)
        boxes.append((rng.randrange(3), rng.choice((0, 1, 3, 5, 8, 9, 12, 17)), ascent, rng.randrange(-ascent, 3)))
    offsets, size = laid_out(boxes, pad)
    data = bytes(rng.randrange(256) & rng.choice((0, 0x11, 0x80, 0x81, 255)) for _ in range(size))
    short = rng.randrange(12)
    offsets[short] = max(0, size - rng.randrange(4))
    return of_glyphs(form, pad, 4, boxes, offsets, data, bits=bits)


def units():
    """glyphs as wide as units of 1, 2 and 4 bytes, and a column less or more; 1 or 2 high"""
    rng = random.Random(9)
    boxes = [(w % 2, w, 1, w // 8 % 2) for w in (1, 7, 8, 9, 15, 16, 17, 24, 25, 31, 32, 33, 40)]
    offsets, size = laid_out(boxes, 1)
    return of_glyphs(0, 1, 2, boxes, offsets, rng.randbytes(size), narrow_metrics)


def large():
    """glyph 0 is 32,767 wide with its first column set, glyph 1 with its last one; glyph 2 is 32,767 high with
    column 0 of its first two rows set, and ends where the data ends; glyph 3 is blank and has the largest pads"""
    data = bytearray(4096 + 4096 + 32767)
    data[0] = 0x80
    data[8191] = 0x02
    data[8192] = data[8193] = 0x80
    boxes = [(0, 32767, 1, 0), (0, 32767, 1, 0), (0, 8, 32767, 0), (32767, 8, 0, 8)]
    return of_glyphs(0, 1, 32767, boxes, [0, 4096, 8192, 9000], bytes(data))


def shapes():
    """what the cuts are shown on, all 5 wide; the data ends with row 1 of glyph 6"""
    rows = [
        b"\xf8\xf8\xf8\xf8",  # 0: full
        b"\xc0\xc0\xc0\xc0",  # 1: columns 0 and 1, the others blank
        b"\x07\x07\x07\x07",  # 2: set bits past the width alone
        b"\x80\0\0\x08",      # 3: row 0 column 0, and row 3 column 4
        b"\xa8" + bytes(11),   # 4: its first row alone
        b"\x50\xa8" + bytes(10),  # 5: its first two rows
        b"\xf8\x88",          # 6: two of four rows
    ]
    boxes = [(0, 5, 4, 0)] * 4 + [(0, 5, 12, 0)] * 2 + [(0, 5, 4, 0)]
    return of_glyphs(0, 1, 12, boxes, laid_out(boxes, 1)[0], b"".join(rows))


def letters():
    """glyphs by what becomes of them in a text. A is drawn, B has pads, C has no column, D no row, E is 9 wide,
    O is below the baseline, S is blank. N has data for its first row alone; W, X, Y, Z have metrics out of range;
    J has no bitmap, K neither that nor metrics in range; L has no metrics, M no glyph. Newline and carriage
    return have glyphs too, those of A and E. The bounds are 3 and 1, so that a line is 4 high"""
    boxes = {
        "A": (0, 3, 3, 0), "B": (1, 2, 2, 1), "C": (0, 0, 3, 0), "D": (2, 5, 1, -1), "E": (0, 9, 3, 1),
        "O": (0, 2, 0, 2), "S": (0, 2, 3, 0), "N": (0, 4, 3, 0),
        "W": (0, -1, 3, 0), "X": (0, 3, 4, 0), "Y": (-1, 3, 3, 0), "Z": (0, 3, 1, -2),
        "J": (0, 4, 3, 0), "K": (0, -4, 3, 0),
    }
    offsets = {"A": 0, "B": 3, "C": 6, "D": 6, "E": 6, "O": 14, "S": 16, "N": 19, "W": 0, "X": 0, "Y": 0, "Z": 0}
    data = b"\xe0\xa0\xe0" + b"\xc0\x80\x40" + b"\xff\x80\x80\x80\x80\xff\xaa\x00" + b"\xc0\x40" + bytes(3) + b"\x90"
    glyphs = {ord(name): number for number, name in enumerate(boxes)}
    glyphs.update({10: glyphs[ord("A")], 13: glyphs[ord("E")], ord("L"): len(boxes)})
    return font([
        properties(0, [], b""),
        accelerators(0, [0] * 8, 3, 1, 0, THREE, (0, 0, 9, 3, 1, 0)),
        wide_metrics(0, [(left, 0, width, ascent, descent, 0) for left, width, ascent, descent in boxes.values()]),
        bitmaps(TOP, list(offsets.values()), [len(data), 0, 0, 0], data),
        codes(0, (10, 0x5a), (0, 0), 10, [glyphs.get(code, NO_GLYPH) for code in range(10, 0x5b)]),
        names(0, [0] * len(boxes), b"x\0"),
    ])
