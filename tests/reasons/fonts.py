"""Fonts in which every reason occurs: each character of the first has its own, and the others differ in one number."""
from pcf.font_f import two_digits
from pcf.numbers import NO_GLYPH, TOP
from pcf.rewriting import with_bitmap_format
from pcf.tables import PADS, accelerators, bitmaps, codes, font, names, properties, wide_metrics

TOP_LINE = 3  # the ascent of the bounds

# left, right, width, ascent, descent, attributes of each glyph, and its rows, a byte each
GLYPHS = [
    ((0, 3, 3, 3, 0, 0), [0xE0, 0xA0, 0xE0]),  # "0": a box
    ((1, 3, 2, 2, 1, 0), [0xC0, 0x40, 0xC0]),  # "1": lower and to the right
    ((0, 2, 2, 3, 0, 0), [0x00, 0x00, 0x20]),  # "2": a set bit beyond its width only
    ((0, 4, 4, 0, 0, 0), []),                  # "3": no rows
    ((0, 3, 3, 3, 12, 0), [0xE0] + [0] * 14),  # "4": high, and set at its top
    ((0, 3, 3, 3, 6, 0), [0xE0] * 9),          # "5": high, and set to its end
    ((0, 3, -1, 3, 0, 0), []),                 # "6" to ";": metrics out of range
    ((0, 3, 3, -1, 3, 0), []),
    ((-1, 3, 3, 3, 0, 0), []),
    ((0, 3, 3, 4, 0, 0), []),
    ((0, 3, 3, 3, -4, 0), []),
    ((0, 3, 3, 3, 32767, 0), []),
    ((0, 3, 3, 3, 0, 0), [0xE0, 0xA0]),        # "<": the last rows, and one too few
    ((0, 3, 3, 3, 0, 0), None),                # "=": without a bitmap
]
WITHOUT_METRICS = len(GLYPHS)                  # ">"
FIRST_BYTES, SECOND_BYTES = (0, 1), (0x30, 0x3F)
ENTRIES = [*range(len(GLYPHS)), WITHOUT_METRICS, NO_GLYPH] + [0] + [NO_GLYPH] * 15

# of the first font: every character with an entry, and after them codes outside its bounds, in characters of one to
# four bytes, seen and unseen; newline and return are not looked up
TEXT = "".join(map(chr, range(0x30, 0x40))) + "İĿ \x7fĀ€\ufeff😀\r\n"


def every(default=0x30):
    """codes of two bytes, and for each reason but 13 a character"""
    rows = [rows for _, rows in GLYPHS if rows is not None]
    offsets = [sum(map(len, rows[:k])) for k in range(len(rows))]
    data = bytes(byte for glyph in rows for byte in glyph)
    strings = b"".join(b"%d\0" % k for k in range(len(GLYPHS)))
    starts = [strings.index(b"%d\0" % k) for k in range(len(GLYPHS))]
    return font([
        properties(0, [], b""),
        accelerators(0, [0] * 8, 3, 0, 0, GLYPHS[0][0], (0, 3, 3, TOP_LINE, 0, 0)),
        wide_metrics(0, [measure for measure, _ in GLYPHS]),
        bitmaps(TOP, offsets, [len(data) * pad for pad in PADS], data),
        codes(0, SECOND_BYTES, FIRST_BYTES, default, ENTRIES),
        names(0, starts, strings),
    ], padding_counts=False)


def bad_orders():
    """13: two scan units that are wider than the row pad, and one that is none"""
    return [with_bitmap_format(two_digits(), TOP | form) for form in (0x10, 0x20, 0x30)]
