"""What is called on a glyph or a character: a file's name, and its fonts with their calls."""
import json
import os
import random

import model
from fonts import make as fonts
from pcf.font_f import two_digits
from pcf.numbers import BIG
from pcf.tables import row_bytes
from replay.boxes import large, mixed, shapes, widths
from replay.calls import (DRAWING, LAST, MOST, PLAIN, bitmap, box, but, char, damages, each, fitting, glyph, prep,
                          show, unpack)

CASES = os.path.join(os.path.dirname(os.path.dirname(os.path.abspath(__file__))), "definitions")


def marked():
    """P1 to P4 of document 01, and the same by the other calls"""
    for length, stride, scale in ((9, 3, 1), (8, 3, 1), (24, 6, 2), (11, 6, 2)):
        yield char(0x30, length, stride, scale)
        yield bitmap(0, 3, 3, length, stride, scale)
        yield glyph(box(0, 3, 3), length, stride, scale)
        yield show(box(0, 3, 3), length, stride, scale)
    yield unpack(box(0, 3, 3), 24, 8)
    yield unpack(box(0, 3, 3), 9, 3)
    yield prep(0x30)
    yield prep(0x31)
    yield prep(0x32)
    yield char(0x32, 9, 3)


def lengths():
    """every length of the buffer for the '0' and the '1' of F"""
    for code, stride, scale, most in ((0x30, 3, 1, 12), (0x31, 2, 1, 9), (0x30, 6, 2, 38), (0x31, 1, 2, 14)):
        for length in range(most):
            yield char(code, length, stride, scale)
    for length in range(0, 84):
        yield bitmap(1, 3, 3, length, 9, 3)
    for length in range(0, 24):
        yield unpack(box(1, 3, 3, 1, 2), length, 4)
        yield glyph(box(0, 3, 3, 1, 2), length, 4)


def records():
    f = two_digits()
    calls = each(box(1, 3, 3), 0x31, 9, 3)
    for changes in damages(f):
        yield from (but(call, **changes) for call in calls[:5])
    for changes in fitting(f):
        yield from (but(call, **changes) for call in calls)


def without_drawing(changes):
    """13, what comes before it, and that it comes before 14 and 16"""
    for call in each(box(1, 3, 3), 0x31, 2, 1):
        for more in ({}, {"bitmaps__size": 0}, {"bitmaps__count": 1}, {"bitmaps__count": 1, "stride": 0}):
            yield but(call, **changes, **more)


def refusals():
    """of the digits, each number for each call that has it, and of two at once the one that comes first"""
    for changes in ({"bitmaps__unit": 1}, {"bitmaps__unit": 3, "bitmaps__pad": 8},
                    {"bitmaps__unit": 2, "bitmaps__pad": 2, "bitmaps__top": False}):
        yield from (call for call in without_drawing(changes)
                    if call["call"] != "show_glyph" or call["stride"] > 0)
    calls = [call for call in each(box(1, 3, 3), 0x31, 8, 1) if call["call"] not in ("prep_char", "show_glyph")]
    for call in calls:
        # 6 before 15 before 12, and 14 before 16
        yield but(call, bitmaps__pad=3, stride=0)
        yield but(call, bitmaps__count=1, stride=0)
        yield but(call, bitmaps__size=5)
        yield but(call, bitmaps__size=5, len=3)
        yield but(call, bitmaps__size=0)
        yield but(call, bitmaps__size=0, len=0)
        yield but(call, len=3)
        yield but(call, len=0)
        yield but(call, bitmaps__count=0)
        yield but(call, bitmaps__count=0, bitmaps__unit=1)
    # 15 before 9, 10, 11, each before 12 to 16
    for changes in ({"codes__low2": 0x30, "codes__high2": 0x30}, {"metrics__count": 1},
                    {"accel__maxbounds__ascent": 2}):
        for more in ({}, {"stride": 0}, {"scale": 65}, {"bitmaps__pad": 0}, {"bitmaps__unit": 1},
                     {"bitmaps__size": 0}, {"bitmaps__count": 0}, {"len": 2}):
            yield but(char(0x31, 9, 1), **changes, **more)
        yield but(prep(0x31), **changes)
        yield but(prep(0x31), **changes, bitmaps__pad=0)
    for code in (0, 0x2f, 0x32, 0x130, 0x3000, 65535, 65536, 65536 + 0x30, 4294967295):
        yield prep(code)
        yield char(code, 9, 3)
    for number in (1, 2, 3, 65534, 65535):
        yield bitmap(number, 3, 3, 9, 3)
        yield glyph(box(number, 3, 3), 9, 3)
        yield unpack(box(number, 3, 3), 9, 3)
        yield show(box(number, 3, 3), 9, 3)


def arguments():
    """each argument at its limits and beyond, also where its lower bytes alone would pass"""
    start = (2147483647, 2147483648, 4294967296, LAST)
    stride = (0, 1, 3, 65535, 65536, 65539, LAST)
    scale = (0, 1, 2, 64, 65, 256, 257, LAST)
    size = (0, 1, 32767, 32768, 65535)
    calls = [call for call in each(box(0, 3, 3), 0x30, 9, 3) if call["call"] not in ("prep_char", "show_glyph")]
    for call in calls:
        yield from (but(call, start=n) for n in start)
        yield from (but(call, stride=n) for n in stride)
        if "scale" in call:
            yield from (but(call, scale=n) for n in scale)
        if "info" in call:
            for name in ("width", "height", "pad_top", "pad_left"):
                yield from (but(call, **{name: n}) for n in size)
                yield from (but(call, **{name: n}, bitmaps__count=0) for n in size)
        elif "g" in call:
            for name in ("width", "height"):
                yield from (but(call, **{name: n}) for n in size + (65536, 65539, 4294967296, LAST))
    # where no row is drawn none needs data, so that the largest width and height pass
    yield from (bitmap(0, n, 32767, 2, 3) for n in (32767, 32768))
    yield from (bitmap(0, 3, n, 0, 1) for n in (32767, 32768))


def extremes():
    """the largest glyphs, buffers and places; of buffers over 4,096 pixels the dry run alone"""
    for length in (0, 1, 32766, 32767, 32768):
        yield bitmap(0, 32767, 1, length, 1)
        yield bitmap(1, 32767, 1, length, 1)
        yield char(0x42, length, 1)
        yield unpack(box(1, 32767, 1), length, 1)
    yield unpack(box(0, 32767, 1), 1, 65535)
    yield bitmap(1, 32766, 1, 1, 1)
    for length in (0, 1, 2, 4096, 32766, 32767, 32768, 2147483647):
        yield bitmap(2, 8, 32767, length, 1)
        yield glyph(box(2, 1, 32767), length, 1)
        yield unpack(box(2, 8, 32767), length, 1)
        yield unpack(box(2, 9, 32767), length, 1)
    for height in (32766, 32767):
        yield bitmap(2, 8, height, 2 ** 40, 65535, 64)
        yield bitmap(2, 9, height, 2 ** 40, 65535, 64)
        yield unpack(box(2, 9, height), 2 ** 40, 65535)
    yield prep(0x43)
    yield prep(0x44)
    yield char(0x44, 4096, 1)
    # the widest and the highest glyph whole, and with the data moved, so that they have no set bit or one
    bits = model.load(large())["bitmaps"]["bits"]
    for code, length in ((0x42, 65533), (0x42, 65532), (0x43, 32767), (0x43, 32766)):
        yield from (but(char(code, length, 1), bitmaps__bits=bits + moved) for moved in (-1, 0, 1, 2))
    # a block of 64 by 64 pixels at the end of 4,096
    for length in (4095, 4096):
        yield bitmap(0, 1, 1, length, 64, 64)
        yield bitmap(0, 8, 1, length, 64, 64)
        yield bitmap(2, 1, 2, length, 64, 64)
        yield bitmap(0, 1, 1, length, 65, 63)
    yield bitmap(0, 1, 1, 4096, 1, 64, 4096 - 127)
    yield bitmap(0, 1, 1, 4096, 1, 64, 4096 - 126)
    yield bitmap(0, 1, 1, 4096, 32, 64)
    yield bitmap(2, 1, 64, 4096, 1, 64)
    # places far beyond any buffer
    far = box(3, 8, 8, 32767, 32767)
    for make in (glyph, show):
        yield make(far, 4096, 65535, 64, 2147483647)
        yield make(far, 2 ** 62, 65535, 64, 2147483647)
    yield unpack(far, 4096, 65535, 2147483647)
    yield unpack(far, 2 ** 62, 65535, 2147483647)
    yield unpack(box(2, 8, 2, 32767, 32767), 4096, 65535, 2147483647)
    for start in (LAST - 10, LAST - 9, LAST - 8, LAST - 2, LAST - 1, LAST):
        for info in (box(2, 8, 3), box(2, 8, 3, 1, 0), box(3, 8, 3, 0, 1), box(3, 8, 3, 32767, 32767), box(9, 8, 3)):
            yield show(info, LAST, 3, 1, start)
            yield show(info, 4096, 65535, 255, start)


def by_widths():
    """each glyph by its code, as a bitmap and unpacked, in buffers that just hold it and that do not"""
    for w in range(1, 41):
        number, height, top, left = w - 1, 1 + w % 2 + w // 2 % 2, 2 - w % 2, w % 3
        at = top * (w + left) + left
        yield char(0x40 + w, at + height * (w + left), w + left)
        yield char(0x40 + w, at + height * (w + left) - 1, w + left)
        scale = (1, 2, 3, 4, 5, 8)[w % 6]
        yield bitmap(number, w, 1, scale * scale * w, scale * w, scale)
        yield bitmap(number, w, height, 64 + w, max(1, w // 2), 1, 5)
        whole = 8 * row_bytes(w)
        yield unpack(box(number, w, height, 1, 2), whole + 2 + height * whole, whole)
        yield unpack(box(number, w, height), max(1, height * whole - 3), whole)


def by_scales():
    """the shapes at each scale: lines as wide as the glyph, wider, narrower; ends around the last block"""
    for scale in (1, 2, 3, 4, 5, 8):
        for stride in (1, 2 * scale, 5 * scale, 5 * scale + 3):
            for number in (0, 1, 3):
                end = (4 * scale - 1) * stride + 5 * scale
                for height, length in ((4, end + stride), (4, end), (2, end - 1), (1, scale * stride)):
                    if length <= 400 or number == 3:
                        yield bitmap(number, 5, height, length, stride, scale, 1)


def cuts():
    # blank columns beyond the buffer do not count, nor do bits past the width
    for number in (0, 1, 2, 3):
        for length in (7, 8, 9, 10, 11, 13):
            yield bitmap(number, 5, 4, length, 2)
        yield bitmap(number, 5, 4, 8, 1, 2)
        yield bitmap(number, 5, 1, 2, 1, 2)
        yield bitmap(number, 8, 1, 5, 5)
    # data for two rows: no refusal while the others are dropped; 14 also where 16 is true
    for scale in (1, 2, 3):
        for length in (5, 9, 10, 14, 15, 20, 40, 45, 90):
            yield bitmap(6, 5, 4, length, 5, scale)
            yield but(char(0x47, length, 5, scale), accel__maxbounds__ascent=4)
    for length in range(0, 8):
        yield bitmap(6, 5, 4, length, 1)
        yield unpack(box(6, 5, 4), length, 1)
        yield unpack(box(6, 5, 2), length, 1)
        yield bitmap(6, 9, 1, length, 1)
        yield bitmap(6, 9, 2, length, 1)
    # no column, no row, no pixel, and starts at the end and beyond
    for width, height in ((0, 4), (5, 0), (0, 0)):
        for length in (0, 4, 20):
            for number in (0, 6):
                yield bitmap(number, width, height, length, 5)
                yield glyph(box(number, width, height, 1, 1), length, 5, 2)
                yield unpack(box(number, width, height, 1, 1), length, 5)
    for start in (0, 1, 19, 20, 21, 39, 40, 41, 2147483647):
        yield bitmap(0, 5, 4, 40, 5, 1, start)
        yield glyph(box(0, 5, 4, 0, 0), 40, 5, 2, start)
        yield but(char(0x41, 40, 5, 1, start), accel__maxbounds__ascent=4)
        yield unpack(box(3, 5, 4), 40, 8, start)
        yield unpack(box(3, 5, 1), 40, 8, start)
        yield unpack(box(2, 5, 4, 0, 0), 40, 8, start)
    # rows cut at scales above 1: the lines left count in groups, and so many rows are drawn
    for scale in (2, 3, 4, 5, 8):
        for lines in range(0, 4 * scale + 1, 1 if scale < 5 else 2):
            yield bitmap(1, 2, 4, lines * 10 + 3, 10, scale)
            yield bitmap(4, 5, 12, lines * 10 + 3, 10, scale)
            yield glyph(box(5, 5, 12, 1, 1), lines * 7, 7, scale)
            yield char(0x45, lines * 5 + 1, 5, scale, 1)
            # the data ends within the rows that are drawn, or with the last of them
            yield but(bitmap(4, 5, 12, lines * 10 + 3, 10, scale), bitmaps__size=16 + 4)


def reach(b, call):
    """the first place behind the glyph in an endless buffer"""
    info = call.get("info") or box(call["g"], call["width"], call["height"])
    rec = model.load(b)
    seen = model.glyph_picture(b, rec, info, 10 ** 9, call["start"], call["stride"], call.get("scale", 1))
    if isinstance(seen, int) or not seen[2]:
        return call["start"] + 2 * call["stride"]
    return max(seen[2]) + 1


def drawn_by_lot(seed, b, count):
    """buffers that end around the last pixel or around a line"""
    rng = random.Random(seed)
    rec = model.load(b)
    for _ in range(count):
        number = rng.randrange(13)
        if number < 12:
            m = model.metrics_at(b, rec, number)
            info = box(number, m["width"], m["ascent"] + m["descent"], 4 - m["ascent"], m["left"])
        else:
            info = box(number, 3, 3)
        scale = rng.choice((1, 1, 1, 2, 2, 3, 4, 5))
        stride = rng.choice((1, 2, 3, 5, 7, 8 * scale, max(1, info["width"] * scale), info["width"] * scale + 3))
        start = rng.randrange(6)
        call = rng.choice((
            bitmap(number, info["width"], info["height"], 0, stride, scale, start),
            glyph(dict(info, pad_top=rng.randrange(3)), 0, stride, scale, start),
            show(info, 0, stride, scale, start),
            char(0x41 + number, 0, stride, scale, start),
            unpack(dict(info, pad_top=rng.randrange(3)), 0, stride, start)))
        end = reach(b, call if "code" not in call else glyph(info, 0, stride, scale, start))
        if rng.randrange(3):
            length = end + rng.choice((-2, -1, 0, 0, 1, stride, stride * scale))
        else:
            length = rng.randrange(end + 1) // stride * stride + rng.choice((0, start, start - 1))
        yield but(call, len=min(MOST, max(0, length)))


def cases_of_fonts(kinds, mode):
    """the cases beside the model that make these calls in this mode, a font after the other"""
    with open(os.path.join(CASES, "fonts.txt"), encoding="ascii") as f:
        listed = [bytes.fromhex(line.strip()) for line in f]
    with open(os.path.join(CASES, "cases.jsonl"), encoding="ascii") as f:
        cases = [json.loads(line) for line in f]
    for number, b in enumerate(listed):
        # a record of another font is no record that this one's loading gives
        yield b, [c for c in cases if c["call"] in kinds and c.get("font") == number and "of" not in c
                  and c.get("mode", PLAIN) == mode]


def of_definitions(kinds, mode=PLAIN):
    """those that have no text"""
    for b, cases in cases_of_fonts(kinds, mode):
        calls = [c for c in cases if "text" not in c]
        if calls:
            yield b, calls


def two_bytes():
    """codes of two bytes, and metrics that are out of range"""
    for code in (0x2030, 0x2031, 0x2032, 0x2130, 0x2131, 0x2132, 0x2033, 0x2230, 0x30, 0x12030):
        yield prep(code)
        yield char(code, 90, 9)
        yield char(code, 300, 16, 2, 3)


def few_codes():
    for code in range(0, 6):
        yield prep(code)
        yield char(code, 50, 10)


def topics():
    f = two_digits()
    yield "marked", [(f, marked())]
    yield "definitions", of_definitions(DRAWING)
    yield "lengths", [(f, lengths())]
    yield "records", [(f, records())]
    yield "refusals", [(f, refusals())]
    yield "arguments", [(f, arguments())]
    yield "extremes", [(large(), extremes())]
    for pad, form in ((1, 0), (2, BIG), (4, BIG), (8, 0)):
        yield "widths_in_rows_of_%d" % pad, [(widths(pad, form), by_widths())]
    yield "scales", [(shapes(), by_scales())]
    yield "cuts", [(shapes(), cuts())]
    yield "codes", [(fonts.big_two_byte(), two_bytes()), (fonts.wide(), few_codes()), (fonts.repeated(), few_codes()),
                    (f[:7], few_codes())]
    yield "by_lot", [(mixed(seed), drawn_by_lot(seed, mixed(seed), 60)) for seed in range(8)]
