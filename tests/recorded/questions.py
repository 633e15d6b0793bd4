"""What 000 is asked, file by file: fonts, and calls about each, in the form of replay/calls.py.

Not asked is what docs/DIFFERENCES.md lists, where the port departs from 000 on purpose: so codes above 65,535 are none
whose lower bytes have a glyph, no row whose width is a multiple of 8 ends the data, no directory has over 64
entries, no text has a code below the table's first one, and no font is drawn whose rows are in an order that the port
alone draws. Nor is a value asked that refusal 11 refuses, where 000 answers it."""
import random

from pcf.numbers import BIG, TOP
from recorded import twins
from replay import calls
from replay.calls import asks


# ---- reading

LOADS = [asks("load_pcf")]


def reading(codes=(), glyphs=(), properties=(), placed=3):
    """the questions that draw nothing; so many of the codes are placed too"""
    yield asks("dimensions")
    for code in codes:
        yield asks("get_glyph", code=code)
    for code in codes[:placed]:
        yield calls.prep(code)
    for number in glyphs:
        yield asks("get_name", g=number)
        yield asks("get_metrics", g=number)
    for number in properties:
        yield asks("prop_at", code=number)


def readings():
    digit = [0x30, 0x31, 0x2f, 0x32, 0x33, 0x34, 0xffff, 0x10030, 0x10ffff]
    yield twins.digits(), [*LOADS, *reading(digit, (0, 1, 2, 65535), (0, 1, 4294967295))]
    pairs = [0x2030, 0x2031, 0x2032, 0x2130, 0x2131, 0x2132, 0x202f, 0x2033, 0x1f30, 0x2230, 0x2430, 0x30, 0x3020,
             0x12041]
    yield twins.big_two_byte(), [*LOADS, *reading(pairs, range(6), range(6), 7)]
    for pad, form in ((1, BIG), (2, 0), (4, BIG), (8, 0)):
        yield twins.widths(pad, form), [*LOADS, *reading((0x4e, 0x4f), (13,), range(3), 1)]
    letters = (0x41, 0x42, 0x43, 0x30, 0x44)
    yield twins.repeated(256), [*LOADS, *reading(letters, range(4), range(3))]
    yield twins.repeated(2), [*LOADS, *reading(letters[:1])]
    yield twins.askew(), [*LOADS, *reading((0x61, 0x62), (0, 1), (0, 1))]
    yield twins.sizes_beyond(), [*LOADS, *reading((0x30, 0x31), (1, 2), (0,))]
    names = (asks("get_name", g=number) for number in range(8))
    yield twins.strings_broken(), [*LOADS, *reading(properties=range(10)), *names]
    yield twins.few(), [*LOADS, *reading(range(0x41, 0x49), (0, 1, 5, 6), placed=8)]
    yield twins.not_drawn(0), [*LOADS, *reading((0x30, 0x31))]
    for form, n in ((BIG, 3), (0, 0)):
        yield twins.wide(form, n), reading(range(0x30, 0x33), (0, 1, 2, 5), placed=2)
    for ascent, descent in ((32767, 1), (16384, 16384), (3, 32767)):
        yield twins.high_bounds(ascent, descent), [*LOADS, *reading()]


def damages():
    for bytes_ in twins.damaged():
        yield bytes_, LOADS


# ---- drawing


def bitmap(glyph, width, height, size, start, stride, scale):
    return calls.bitmap(glyph, width, height, size, stride, scale, start)


def glyph(number, sides, size, start, stride, scale=None):
    """a placed glyph to draw, or to unpack where there is no scale"""
    info = calls.box(number, *sides)
    return calls.unpack(info, size, stride, start) if scale is None else calls.glyph(info, size, stride, scale, start)


def char(code, size, start, stride, scale):
    return calls.char(code, size, stride, scale, start)


def text(content, size, stride, scale=1, start=0, wrap=None):
    return calls.text(content.encode(), size, stride, scale, start, wrap)


def digit_drawings():
    """P1 to P4; each scale with room, with a row less, and with a pixel less than the last one; beyond the buffer"""
    for size, stride, scale in ((9, 3, 1), (8, 3, 1), (24, 6, 2), (11, 6, 2)):
        yield char(0x30, size, 0, stride, scale)
    for scale in (1, 2, 3, 4, 7):
        line = 3 * scale + 1
        whole = 3 * scale * line
        for size in (whole + scale, whole, whole - line, 2 * scale * line, line * scale - 1):
            yield char(0x30 + scale % 2, size, 0, line, scale)
        yield bitmap(1, 3, 3, whole + 5, 5, line, scale)
    for start in (8, 9, 10, 2147483647):
        yield char(0x31, 9, start, 3, 1)
        yield bitmap(0, 3, 3, 9, start, 3, 1)
    for code in (0x2f, 0x32, 0x33, 0x34):
        yield char(code, 9, 0, 3, 1)
    for number in (2, 65535):
        yield bitmap(number, 3, 3, 9, 0, 3, 1)
        yield glyph(number, (3, 3, 0, 0), 9, 0, 3, 1)
        yield glyph(number, (3, 3, 0, 0), 9, 0, 3)
    for width, height in ((1, 1), (3, 0), (3, 6), (3, 7), (3, 8), (5, 2), (8, 3), (9, 3), (12, 3), (17, 2), (32767, 1),
                          (1, 32767)):
        yield bitmap(0, width, height, 200, 3, 20, 1)
    for stride, scale in ((0, 1), (3, 0), (1, 1), (2, 1), (65535, 1), (65535, 64), (1, 64)):
        yield char(0x30, 20, 0, stride, scale)
    for box in ((3, 3, 1, 0), (3, 3, 0, 2), (3, 3, 2, 5), (7, 3, 0, 0), (3, 2, 32767, 0), (3, 2, 0, 32767)):
        yield glyph(0, box, 150, 1, 15, 2)
        yield glyph(0, box, 80, 1, 15)


def cuts():
    """every length of the buffer around the end of a glyph, at two scales; then of an unpacked one"""
    for size in range(7, 15):
        yield char(0x30, size, 1, 4, 1)
    for size in range(35, 47, 2):
        yield char(0x30, size, 1, 7, 2)
    for size in range(16, 22):
        yield glyph(0, (3, 3, 0, 1), size, 2, 4)


def wide_drawings(pad):
    """each width at one scale or another; some placed elsewhere, and unpacked with the bits past the width"""
    for number, (left, width, ascent, descent) in enumerate(twins.BOXES):
        scale = (1, 2, 3, 1, 4)[number % 5] if width < 10 else 1 + number % 2
        stride = (width + left) * scale + 2
        if pad < 4 or width > 7:
            yield char(0x41 + number, 5 * scale * stride, number, stride, scale)
        if number % 5 == pad % 5:
            box = (width, ascent + descent, 1, left)
            yield glyph(number, box, 4 * 50, 1, 50)
            yield glyph(number, box, 9 * (stride + 9), 1, stride + 9, min(scale, 2))
            yield bitmap(number, 13, 1, 200, 3, 40, 2)


def few_drawings():
    for code in range(0x41, 0x49):
        yield char(code, 60, 0, 6, 1)
    for number in (0, 3, 4, 5):
        yield glyph(number, (4, 2, 0, 0), 40, 0, 6, 1)
        yield glyph(number, (4, 2, 0, 0), 40, 0, 6)
        yield bitmap(number, 4, 1, 40, 0, 6, 2)
    for content in ("A", "AG", "AC", "AB", "ABA", "AD", "AE", "AFA", "CCA", "GHA"):
        yield text(content, 90, 15)


def not_drawings():
    yield char(0x30, 9, 0, 3, 1)
    yield bitmap(1, 3, 3, 9, 0, 3, 1)
    yield bitmap(2, 3, 3, 9, 0, 3, 1)
    yield glyph(0, (3, 3, 0, 0), 9, 0, 3, 1)
    yield glyph(0, (3, 3, 0, 0), 9, 0, 3)
    yield text("01", 18, 6)
    yield text("3", 18, 6)


def drawings():
    yield twins.digits(), [*digit_drawings(), *cuts()]
    for pad, form in ((1, BIG), (2, 0), (4, BIG), (8, 0)):
        yield twins.widths(pad, form), wide_drawings(pad)
    yield twins.big_two_byte(), (char(code, 260, 2, 20, scale) for scale in (1, 2)
                                 for code in (0x2030, 0x2031, 0x2032, 0x2130, 0x2131, 0x2132))
    for kind in (2, 256):
        yield twins.repeated(kind), (char(code, 300, 0, 17, 3) for code in (0x41, 0x42, 0x43, 0x30))
    yield twins.askew(), [char(0x61, 120, 4, 40, 1), char(0x61, 120, 4, 40, 2), text("aa\na", 400, 41)]
    yield twins.sizes_beyond(), [char(0x31, 9, 0, 3, 1), text("01", 36, 6, wrap=6)]
    yield twins.few(), few_drawings()
    for form in (TOP | 16, 48):
        yield twins.not_drawn(form), not_drawings()
    yield twins.wide(BIG, 3), [*(char(0x30 + k, 130, 0, 13, 1) for k in range(4)), text("01\n2", 200, 14)]
    yield twins.wide(0, 0), [char(0x30, 9, 0, 3, 1), text("01\n0", 9, 3)]
    for ascent, descent in ((32767, 1), (32766, 1)):
        yield twins.high_bounds(ascent, descent), [text("", 9, 3), text("\n", 9, 3), text("0", 9, 3)]


# ---- texts


def digit_texts():
    """P5 to P8; each scale with wraps around the first two places"""
    for content, size, wrap in (("01", 36, 6), ("01", 36, 7), ("", 36, 7), ("01", 18, None)):
        yield text(content, size, 6, wrap=wrap)
    for scale in (1, 2, 3, 4, 7):
        reached, stride = 6 * scale, 6 * scale + 1
        some = (None, 0, reached - 1, reached, reached + 1, 18446744073709551615) if scale < 4 else (None, reached)
        for wrap in some:
            yield text("01\n10", 9 * scale * stride, stride, scale, wrap=wrap)
    for size in range(12, 20):
        yield text("10", size, 6)
    for size in range(5, 13):
        yield text("10", size, 2)
    for size in range(30, 80, 8):
        yield text("01", size, 12, 2)
    for start in (17, 18, 2147483647):
        yield text("1", 18, 6, start=start)


def breaks():
    """returns, newlines and what has no glyph, the longer ones also wrapped"""
    contents = ["", "\r", "\n", "\r\n", "\n\r", "\n\n", "A\r\nA", "A\nB", "\nA", "A\n", "A\r", "AAA",
                "A\n\nAA\r\nA", "B", "ABA", "CA", "ACA", "D", "ADA", "E", "EAE", "J", "AJA", "JJ\nJA", "O", "AOA", "SA",
                "EB\nBE", "ABCDEJOS", "A\xe9A", "\xe9\xe9\r\n\xe9", "A\u20acA", "A\u07ff\uffffA", "A\U0001f600A",
                "\xe9\n\u20ac\r\U0001f600\xe9", "A\0\x7f\x80A", "A\U0010ffffA", "A M~A"]
    for content in contents:
        yield text(content, 200, 20)
        if len(content) > 4:
            yield text(content, 200, 20, wrap=7)


def narrow():
    """strides shorter than the glyphs, buffers that end in a text, and larger scales"""
    for content in ("EO", "AB\n\xe9"):
        for stride, scale, wrap in ((1, 1, None), (2, 1, 4), (5, 2, 9), (9, 1, 9), (23, 3, 24), (40, 4, 30)):
            yield text(content, 9 * scale * stride, stride, scale, 3, wrap)
        for size in (0, 4, 20, 40, 41, 59, 61):
            yield text(content, size, 20)


def by_lot(seed, alphabet, count):
    rng = random.Random(seed)
    for _ in range(count):
        content = "".join(rng.choice(alphabet) for _ in range(rng.randrange(1, 9)))
        scale = rng.choice((1, 1, 1, 2, 3))
        stride = rng.choice((3, 8 * scale, 17, 9 * scale + 3, 24))
        wrap = rng.choice((None, None, rng.randrange(12) * scale, rng.randrange(30)))
        yield text(content, rng.randrange(14 * stride), stride, scale, rng.randrange(6), wrap)


def texts():
    yield twins.digits(), digit_texts()
    yield twins.letters(), [*LOADS, *breaks(), *narrow(), *by_lot(1, "AABBEOS\xe9J\n\r \u20ac", 24)]
    yield twins.big_two_byte(), (
        text(content, 400, 20, scale, wrap=wrap) for content in (
            "\u2030\u2132", "\u2030\u2031\u2132\n\u2130", "\u2131\u2132 \u2230\u2030", "0\u20302\U0001f600\u2032")
        for scale, wrap in ((1, None), (1, 9), (2, 20)))


def topics():
    """a file's name, and its fonts with their calls"""
    yield "recorded_reading", readings()
    yield "recorded_damaged", damages()
    yield "recorded_drawing", drawings()
    yield "recorded_texts", texts()
