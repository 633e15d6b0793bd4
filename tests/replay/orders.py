"""What is called on fonts whose rows have scan units of 1, 2 and 4 bytes in either byte order, with the top or the
lowest bit leftmost: a file's name, and its fonts with their calls."""
import model
from pcf.font_f import two_digits
from pcf.numbers import BIG, TOP
from pcf.orders import ORDERS, UNITS, needed, unit_bytes
from pcf.rewriting import reordered
from pcf.tables import PADS, row_stride
from replay import glyphs, texts
from replay.boxes import mixed, units
from replay.calls import bitmap, box, but, char, glyph, prep, show, text, unpack

# the format bits of orders that are not the usual one, whatever the byte order and the row pad
OTHER = [UNITS.index(unit) << 4 | top for unit in UNITS for top in (TOP, 0) if (unit, top) != (1, TOP)]


def pictures():
    """every glyph of units(), whole, cut, enlarged and unpacked: the answers are the same in each order"""
    yield text(b"ABCDEFGHIJKLM", 3 * 300, 300)
    yield char(0x47, 55, 18)
    yield char(0x49, 60, 26, 1, 1)
    yield bitmap(4, 13, 1, 26, 13)
    yield bitmap(10, 32, 1, 3 * 96, 96, 3)
    yield glyph(box(11, 33, 1, 1), 70, 35)
    yield show(box(6, 17, 1, 0, 1), 18, 18)
    for number, width in ((1, 7), (6, 17), (8, 25), (12, 40)):
        yield unpack(box(number, width, 1), 40, 40)


def ends(b, form, turn):
    """the data ends with the last byte that holds a column, or one byte before it, and the font ends with the data"""
    widths = (1, 8, 9, 16, 17, 25, 33)
    for k in (turn, turn + 3):
        width = widths[k % len(widths)]
        size = row_stride(width, PADS[form & 3]) + needed(width, form)
        drawn = bitmap(0, width, 2, 100, 50) if k % 2 else unpack(box(0, width, 2), 100, 50)
        for less in (0, 1):
            yield but(drawn, bitmaps__size=size - less, bitmaps__bits=len(b) - size + less)


def forged():
    """unit codes from 3 on, of which a file can have 3 alone, are refused; and each unit beside each row pad: by turns
    in the four calls that draw or unpack one glyph"""
    nil = box(0, 3, 3)
    turns = [bitmap(0, 3, 3, 9, 3), glyph(nil, 9, 3), char(0x30, 9, 3), unpack(nil, 9, 3)]
    for k, code in enumerate((3, 4, 7, 8, 31, 32, 33, 63, 64, 65, 128, 255)):
        yield but(turns[k % 4], bitmaps__unit=code, bitmaps__pad=8)
        yield but(text(b"0", 9, 3), bitmaps__unit=code, bitmaps__pad=8)
    for code in range(4):
        for k, pad in enumerate(PADS):
            yield but(turns[(code + k) % 4], bitmaps__unit=code, bitmaps__pad=pad, bitmaps__top=code % 2 == 0)


def last_glyph(b):
    """is placed in any order, also in one that is not drawn; is refused 14 without the data's last byte, which in the
    usual order is padding; and is not refused without a bitmap"""
    yield prep(0x4d)
    yield but(prep(0x4d), bitmaps__unit=3)
    rec = model.load(b)["bitmaps"]
    yield but(text(b"AM", 400, 100), bitmaps__size=rec["size"] - 1)
    yield but(char(0x4d, 300, 100), bitmaps__count=12)


def by_lot():
    """the orders by turns, the byte order and the row pad by lot"""
    for seed, bits in enumerate(OTHER * 2, 20):
        b = mixed(seed, bits)
        yield b, glyphs.drawn_by_lot(seed, b, 20)
    for seed, bits in enumerate(OTHER, 40):
        b = mixed(seed, bits)
        yield texts.held(b, texts.drawn_by_lot(seed, b, 14, [bytes([code]) for code in range(0x41, 0x4d)]))


def topics():
    for pad in PADS:
        fonts = [reordered(units(), form) for form in ORDERS if PADS[form & 3] == pad]
        yield "orders_in_rows_of_%d" % pad, [texts.held(b, pictures()) for b in fonts]
    turns = [form for form in ORDERS if unit_bytes(form) > 1 or PADS[form & 3] == 8]
    digits = [(reordered(two_digits(), form), form) for form in turns]
    yield "orders_ends", [(b, ends(b, form, turn)) for turn, (b, form) in enumerate(digits)]
    whole = reordered(units(), OTHER[-1] | BIG | 3)
    yield "orders_refused", [texts.held(two_digits(), forged()), texts.held(whole, last_glyph(whole))]
    yield "orders_by_lot", by_lot()
