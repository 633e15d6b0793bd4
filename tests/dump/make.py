#!/usr/bin/env python3
"""Writes the inputs of crates/dump_files/data: fonts as lines of hexadecimal digits, and texts that are no
such lines.

An input is named after what it shows; refused_NN_.. is one that is refused with NN, by_lot_.. one that may be."""
import os
import random
import sys

sys.path.insert(0, os.path.dirname(os.path.dirname(os.path.abspath(__file__))))

import stored  # noqa: E402
from fonts import make as fonts  # noqa: E402
from pcf import font_f, numbers, orders  # noqa: E402
from pcf.font_f import DIGITS, THREE  # noqa: E402
from pcf.numbers import BIG, NO_GLYPH, TOP, padded  # noqa: E402
from pcf.rewriting import askew, reordered, with_format, with_size  # noqa: E402
from pcf.tables import (PADS, accelerators, bitmaps, codes, font, laid_out, names, narrow_metrics,  # noqa: E402
                        properties, row_stride, wide_metrics)

MOST = 49152  # the bytes that a font may have


def lines(content, digits=64):
    return numbers.lines(content, digits).encode()


# ---- fonts: the two digits, with some tables in place of their own


def digits_but(*tables):
    mine = {kind: (kind, form, content) for kind, form, content in tables}
    return font([mine.get(table[0], table) for table in DIGITS])


def bounds(m, form=0):
    """accelerators with these maximum bounds"""
    return accelerators(form, [0] * 8, 3, 0, 0, THREE, m)


def metrics(*of_glyphs):
    """of the glyphs in order: left bearing, width, ascent, descent"""
    return wide_metrics(0, [(left, 0, width, ascent, descent, 0) for left, width, ascent, descent in of_glyphs])


def one_glyph(left, width, ascent, descent, top=None, rows=b"", form=0):
    """code 0x41 alone, with these metrics and rows; `top` is the bounds' ascent"""
    return font([
        properties(form, [], b""),
        bounds((0, 0, width, ascent if top is None else top, 0, 0), form),
        wide_metrics(form, [(left, 0, width, ascent, descent, 0)]),
        bitmaps(form | TOP, [0], [len(rows)] * 4, rows),
        codes(form, (0x41, 0x41), (0, 0), 0x41, [0]),
        names(form, [0], b"A\0"),
    ])


def with_codes(second, first, entries, form=0):
    return digits_but(codes(form, second, first, 0, entries))


def sizes_for(form, size):
    """of the bitmap data: the one that the row pad picks; the others are not looked at"""
    return [size if code == form & 3 else 0 for code in range(4)]


def of_rows(boxes, rows, form=0):
    """codes from 0x61 on: glyphs of these boxes, named after their letters, and this table of their rows"""
    count = len(boxes)
    return font([
        properties(form, [], b""),
        bounds((0, 0, 42, 2, 0, 0), form),
        narrow_metrics(form, [(left, 0, width, ascent, descent) for left, width, ascent, descent in boxes]),
        rows,
        codes(form, (0x61, 0x60 + count), (0, 0), 0x61, list(range(count))),
        names(form, [2 * k for k in range(count)], b"".join(b"%c\0" % (0x61 + k) for k in range(count))),
    ])


def in_rows(pad, form, widths=(1, 8, 9, 16)):
    """glyphs of these widths, two rows high; no two bytes of the data are the same"""
    boxes = [(0, width, 1, 1) for width in widths]
    offsets, size = laid_out(boxes, pad)
    order = form | TOP | PADS.index(pad)
    return of_rows(boxes, bitmaps(order, offsets, sizes_for(order, size), bytes(255 - k for k in range(size))), form)


def around_units():
    """glyphs as wide as units of 1, 2 and 4 bytes, and a column less or more"""
    return in_rows(1, 0, (1, 7, 8, 9, 15, 16, 17, 25, 31, 32, 33, 40))


def ending(form, width, more=0):
    """one glyph of two rows; the data ends with the last byte that holds a column, or so many bytes after it"""
    size = row_stride(width, PADS[form & 3]) + orders.needed(width, form) + more
    data = bytes(0x12 + 0x13 * k for k in range(size))
    return of_rows([(0, width, 1, 1)], bitmaps(form, [0], sizes_for(form, size), data))


def by_lot(seed):
    """some glyphs in any order, now and then one that is refused (13); data that may end too early"""
    rng = random.Random(seed)
    form = rng.choice(orders.ORDERS) if rng.randrange(4) else rng.randrange(64)
    boxes = [(0, rng.randrange(42), rng.randrange(3), rng.randrange(2)) for _ in range(4)]
    offsets, size = laid_out(boxes, PADS[form & 3])
    size = max(0, size - rng.choice((0, 0, 0, 1, 2, 3, 4, 7)))
    return of_rows(boxes, bitmaps(form, offsets, sizes_for(form, size), rng.randbytes(size)))


def padded_rows(size):
    """one glyph of 3 rows, 4 bytes apart, and so many bytes of data: 9 are needed"""
    rows = bytes(range(1, size + 1))
    return font([
        *DIGITS[:2], narrow_metrics(0, [THREE[:5]]),
        bitmaps(TOP | 2, [0], [0, 0, size, 0], rows),
        codes(0, (0x30, 0x30), (0, 0), 0x30, [0]), names(0, [0], b"nil\0"),
    ])


def last_tables():
    """three kinds twice, the later ones with other contents"""
    return font(DIGITS + [
        narrow_metrics(BIG, [(1, 0, 2, 2, 0), (0, 0, 4, 1, 2)]),
        codes(BIG, (0x41, 0x43), (0, 0), 0x41, [1, NO_GLYPH, 0]),
        names(BIG, [3, 0], b"is\0was\0"),
    ])


def mixed_orders():
    """the tables of a font, every second one big-endian"""
    return [
        properties(BIG, [(0, 1, 5)], b"FONT\0F\0"),
        bounds((0, 0, 8, 4, 0, 0), 0),
        wide_metrics(BIG, [(1, 0, 8, 2, 1, 0), (0, 0, 4, 4, 0, 0)]),
        bitmaps(TOP, [4, 0], [7, 0, 0, 0], bytes(range(0x10, 0x17))),
        codes(BIG, (0x30, 0x31), (0, 0), 0x30, [1, 0]),
        names(0, [4, 0], b"one\0nil\0"),
    ]


def glyph_256():
    """257 glyphs of which the last alone has a code"""
    return digits_but(
        narrow_metrics(0, [(0, 0, 1, 1, 0)] * 257), bitmaps(TOP, [0] * 256 + [1], [2] * 4, b"\x7f\x80"),
        codes(0, (0x41, 0x41), (0, 0), 0x41, [256]), names(0, [1] * 256 + [0], b"A\0"))


def largest_frame():
    """49,152 bytes; one glyph, whose rows and name are the same bytes, all that other tables leave"""
    at = 8 + 16 * 6
    small = [
        properties(0, [], b""),
        bounds((0, 0, 16, 32767, 0, 0)),
        codes(0, (0x41, 0x41), (0, 0), 0x41, [0]),
    ]
    body = b"".join(padded(content) for _, _, content in small)
    fixed = at + len(body) + 8 + 12 + 8 + 4 + 16 + 8 + 4 + 4  # up to the strings
    size = MOST - fixed
    rows = (size - 1) // 2
    strings = bytes(1 + k % 255 for k in range(size - 1)) + b"\0"
    name = names(0, [0], strings)
    bits = len(name[2])
    tables = small + [
        wide_metrics(0, [(0, 0, 16, rows, 0, 0)]),
        bitmaps(TOP, [16], [bits] * 4, b""),
        name,
    ]
    made = font(tables)
    # the bitmap data goes on over the names table, whose strings begin with its byte 16
    made = with_size(made, 4, len(tables[4][2]) + bits)
    assert len(made) == MOST and made[fixed:] == strings
    return made


# ---- the inputs


def texts():
    f = font_f.two_digits()
    whole = font_f.LINES.encode()
    full = f + bytes(MOST - len(f))
    yield "f", whole
    yield "lines_of_2", lines(f, 2)
    yield "lines_of_62", lines(f, 62)
    yield "lines_of_64", lines(f, 64)
    yield "refused_20_line_of_66", lines(f, 66)
    yield "refused_20_line_of_1", whole + b"0\n"
    yield "refused_20_line_of_3", whole + b"000\n"
    yield "refused_20_two_odd_lines", lines(f, 63)
    yield "refused_20_empty_line", whole.replace(b"\n", b"\n\n", 1)
    yield "refused_20_empty_line_first", b"\n" + whole
    yield "refused_20_empty_line_last", whole + b"\n"
    yield "refused_20_newline_alone", b"\n"
    yield "refused_20_carriage_returns", whole.replace(b"\n", b"\r\n")
    yield "refused_20_lower_case", whole.replace(b"E0A0E0", b"e0a0e0")
    yield "refused_20_last_line_without_newline", whole[:-1]
    yield "refused_20_space_in_line", whole.replace(b"01666370", b"0166 6370")
    yield "refused_20_space_at_end", whole[:-1] + b" \n"
    for character in b"\x00/:@Gaf\x80\xff":
        yield "refused_20_character_%02X" % character, b"01\n" + bytes([0x30, character]) + b"\n"
    yield "refused_20_before_01", b"01\nA\n"
    yield "refused_20_after_a_good_font", whole + b"00\nXX\n"
    yield "bytes_49152_in_147456_characters", lines(full, 2)
    yield "refused_20_bytes_49153", lines(full + b"\0")
    yield "refused_20_over_147457_characters", lines(full + b"\0", 2)


def loading():
    about = ["7_bytes", "first_bytes", "65_entries", "directory_past_end", "offset_past_end",
             "table_of_47_bytes", "low_above_high", "no_names"]
    for number, (what, damaged) in enumerate(zip(about, fonts.refusals()), 1):
        yield "refused_%02d_%s" % (number, what), damaged
    yield "refused_01_no_input", b""
    yield "refused_08_no_entries", b"\x01fcp" + bytes(4)
    yield "entries_64", fonts.limits(64)
    yield "last_tables_serve", last_tables()
    yield "refused_12_last_bitmaps_serve", fonts.repeated()
    yield from fonts.of_two_formats().items()
    yield "refused_27_mixed_orders", font([askew(table) for table in mixed_orders()])


def vetting():
    open_name = properties(0, [(0, 0, 9)], b"AB")
    no_glyphs = codes(0, (0x30, 0x31), (0, 0), 0x30, [NO_GLYPH, NO_GLYPH])
    bad_bounds = bounds((0, 0, -1, 3, 0, 0))
    # 13, and that it is first once the font is loaded
    units_of_code_3 = bitmaps(TOP | 48 | 3, [0, 3], [6] * 4, bytes(6))
    yield "refused_13_unit_code_3", digits_but(units_of_code_3)
    yield "refused_27_before_13", with_format(digits_but(units_of_code_3), 3, TOP)
    yield "refused_13_unit_code_3_lowest_bit_left", digits_but(bitmaps(48 | 3, [0, 3], [6] * 4, bytes(6)))
    for unit, pad in ((2, 1), (4, 1), (4, 2)):
        for top in (True, False):
            wider = bitmaps(orders.order_bits(False, top, unit, pad), [0, 3], [6] * 4, bytes(6))
            yield "refused_13_unit_%d_pad_%d_%s" % (unit, pad, "top" if top else "lowest"), digits_but(wider)
    yield "refused_13_before_11", digits_but(units_of_code_3, bad_bounds)
    yield "refused_13_without_glyphs", digits_but(bitmaps(TOP | 48, [], [0] * 4, b""), no_glyphs)
    # 11 of the bounds
    yield "refused_11_bounds_ascent", digits_but(bounds((0, 0, 3, -1, 9, 0)))
    yield "refused_11_bounds_width", digits_but(bad_bounds)
    yield "refused_11_bounds_sum_negative", digits_but(bounds((0, 0, 3, 3, -4, 0)))
    yield "refused_11_bounds_sum_32768", digits_but(bounds((0, 0, 3, 32767, 1, 0)))
    yield "refused_11_bounds_without_glyphs", digits_but(bad_bounds, no_glyphs)
    yield "refused_11_bounds_before_18", digits_but(bad_bounds, open_name)
    yield "bounds_sum_32767", digits_but(bounds((0, 0, 3, 32766, 1, 0)))
    yield "bounds_sum_0", digits_but(bounds((0, 0, 0, 3, -3, 0)))
    # 18 of the properties
    yield "refused_18_property_name", digits_but(open_name)
    yield "refused_18_property_value", digits_but(properties(0, [(0, 1, 2)], b"A\0open"))
    yield "refused_18_property_name_beyond", digits_but(properties(0, [(2, 0, 0)], b"A\0"))
    yield "refused_18_property_value_beyond", digits_but(properties(0, [(0, 1, 2)], b"A\0"))
    yield "refused_18_last_property", digits_but(properties(0, [(0, 0, 0), (0, 1, 0), (0, 1, 9)], b"A\0"))
    yield "refused_18_property_before_10", digits_but(open_name, narrow_metrics(0, []))
    yield "properties", digits_but(properties(0, [(0, 0, 4294967295), (0, 1, 2), (2, 255, 1)], b"A\0B\0"))
    # then code by code
    yield "refused_10_glyph_at_count", digits_but(codes(0, (0x30, 0x31), (0, 0), 0x30, [2, 1]))
    yield "refused_10_last_code", digits_but(codes(0, (0x30, 0x31), (0, 0), 0x30, [0, 2]))
    yield "refused_10_last_code_of_two_bytes", with_codes((0x30, 0x31), (0x20, 0x21), [0, 1, 0, 2])
    yield "refused_10_code_65535", with_codes((0xFFFE, 0xFFFF), (0, 0), [0, 2])
    yield "refused_10_before_12", digits_but(narrow_metrics(0, []), bitmaps(TOP, [], [0] * 4, b""))
    good = (0, 3, 3, 0)
    yield "refused_11_width", digits_but(metrics((0, -1, 3, 0), good))
    yield "refused_11_ascent", digits_but(metrics((0, 3, -1, 3), good))
    yield "refused_11_left_bearing", digits_but(metrics((-1, 3, 3, 0), good))
    yield "refused_11_height_negative", digits_but(metrics((0, 3, 2, -3), good))
    yield "refused_11_height_32768", digits_but(metrics((0, 0, 1, 32767), good))
    yield "refused_11_ascent_above_bounds", digits_but(metrics((0, 3, 4, -1), good))
    yield "refused_11_last_code", digits_but(metrics(good, (0, 3, 4, -1)))
    yield "refused_11_before_12", digits_but(metrics((0, -1, 3, 0), good), bitmaps(TOP, [], [0] * 4, b""))
    yield "refused_12_glyph_at_count", digits_but(bitmaps(TOP, [0], [6] * 4, bytes(6)))
    yield "refused_12_empty_glyph", digits_but(metrics((0, 0, 0, 0), (0, 0, 0, 0)), bitmaps(TOP, [], [0] * 4, b""))
    yield "refused_12_before_17", digits_but(bitmaps(TOP, [], [0] * 4, b""), names(0, [], b""))
    yield "refused_14_last_row", digits_but(bitmaps(TOP, [0, 3], [5] * 4, bytes(5)))
    yield "refused_14_last_row_by_offset", digits_but(bitmaps(TOP, [4, 0], [6] * 4, bytes(6)))
    yield "refused_14_last_byte_of_row", one_glyph(0, 9, 2, 0, rows=bytes(3))
    yield "refused_14_padded_last_row", padded_rows(8)
    yield "refused_14_offset_4294967295", digits_but(bitmaps(TOP, [0, 4294967295], [6] * 4, bytes(6)))
    yield "refused_14_before_18", digits_but(bitmaps(TOP, [4, 0], [6] * 4, bytes(6)), names(0, [0, 0], b"nil"))
    yield "rows_to_the_last_byte", digits_but(bitmaps(TOP, [1, 0], [4] * 4, b"\x20\x40\x60\x80"))
    yield "last_row_without_padding", padded_rows(9)
    yield "offset_beyond_of_an_empty_glyph", digits_but(
        metrics((0, 0, 3, 0), (0, 3, 1, -1)), bitmaps(TOP, [9, 9], [0] * 4, b""))
    yield "refused_17_glyph_at_count", digits_but(names(0, [0], b"nil\0"))
    yield "refused_18_glyph_name", digits_but(names(0, [0, 4], b"nil\0one"))
    yield "refused_18_glyph_name_beyond", digits_but(names(0, [8, 4], b"nil\0one\0"))
    yield "refused_18_first_code_before_10", digits_but(
        codes(0, (0x30, 0x31), (0, 0), 0x30, [0, 2]), names(0, [0, 0], b"nil"))
    yield "unreached_glyphs", digits_but(
        metrics((-1, -1, -1, -1), good, (0, 3, 4, -1)), bitmaps(TOP, [9, 0], [3] * 4, b"\xa0\x40\xa0"),
        codes(0, (0x30, 0x31), (0, 0), 0x30, [1, NO_GLYPH]), names(0, [99, 0], b"x\0open"))


def frames():
    two = [0, 1]
    # codes
    yield "no_glyphs", with_codes((0x30, 0x31), (0, 0), [NO_GLYPH, NO_GLYPH])
    yield "entry_65535", with_codes((0x30, 0x32), (0, 0), [0, NO_GLYPH, 1])
    yield "code_0", with_codes((0, 1), (0, 0), two)
    yield "code_65535", with_codes((0xFFFE, 0xFFFF), (0, 0), two)
    yield "surrogate_codes", with_codes((0xD7FF, 0xD800), (0, 0), two)
    yield "one_glyph_for_two_codes", with_codes((0x30, 0x32), (0, 0), [1, 0, 1])
    yield "two_byte_codes", with_codes((0x30, 0x31), (0x20, 0x22), [0, NO_GLYPH, 1, 1, NO_GLYPH, 0])
    yield "two_byte_codes_big_endian", fonts.big_two_byte()
    yield "two_byte_codes_from_0", with_codes((0, 1), (0, 1), [0, 1, 1, 0])
    yield "two_byte_code_65535", with_codes((0xFE, 0xFF), (0xFF, 0xFF), two)
    yield "two_byte_bounds_above_255", with_codes((255, 257), (255, 257), [1] + [500] * 8)
    yield "first_byte_bounds_above_255", with_codes((0, 1), (256, 257), [500] * 4)
    yield "second_byte_bounds_above_255", with_codes((256, 257), (1, 2), [500] * 4)
    yield "glyph_256", glyph_256()
    # sizes, pads, names and rows
    yield "width_0", one_glyph(1, 0, 3, 2)
    yield "height_0", one_glyph(0, 3, 4, -4, top=6)
    yield "width_and_height_0", one_glyph(0, 0, 0, 0)
    yield "height_32767", one_glyph(0, 0, 32767, 0)
    yield "height_of_descent_alone", one_glyph(0, 8, 0, 2, rows=b"\x0f\xf0")
    yield "width_32767", one_glyph(0, 32767, 1, 0, rows=bytes(k % 251 for k in range(4096)))
    yield "pads", one_glyph(2, 3, 1, 1, top=10, rows=b"\x40\xe0")
    yield "pads_big_endian", one_glyph(258, 3, 1, 1, top=772, rows=b"\x40\xe0", form=BIG)
    yield "pads_of_32767", one_glyph(32767, 1, 0, 1, top=32767, rows=b"\x80")
    yield "ascent_of_the_bounds", one_glyph(0, 1, 5, -4, top=5, rows=b"\x80")
    yield "empty_name", digits_but(names(0, [3, 4], b"nil\0one\0"))
    yield "every_byte", digits_but(
        metrics((0, 8, 3, 253), (0, 3, 3, 0)), bitmaps(TOP, [0, 0], [256] * 4, bytes(range(256))),
        names(0, [0, 254], bytes(range(1, 256)) + b"\0"))
    for pad, form in ((1, 0), (2, BIG), (4, 0), (8, BIG)):
        yield "row_pad_%d_%s_endian" % (pad, "big" if form else "little"), in_rows(pad, form)
    yield "mixed_orders", font(mixed_orders())
    yield "largest_frame", largest_frame()


def in_orders():
    """one font in every order; then 14, which concerns the byte that holds the column"""
    for form in orders.ORDERS:
        yield "order_" + orders.told(form), reordered(around_units(), form)
    for form in orders.ORDERS:
        for width in {(2, 2): [3], (4, 4): [9, 16], (4, 8): [3]}.get((orders.unit_bytes(form), PADS[form & 3]), []):
            yield "ends_with_column_%d_%s" % (width, orders.told(form)), ending(form, width)
            yield "refused_14_column_%d_%s" % (width, orders.told(form)), ending(form, width, -1)
    for seed in range(20):
        yield "by_lot_%d" % seed, by_lot(seed)


def font_files():
    """the fonts themselves"""
    groups = loading(), vetting(), frames(), in_orders()
    return {name + ".pcf": content for group in groups for name, content in group}


def files():
    """in the order in which the program takes them"""
    made = {name + ".hex": text for name, text in texts()}
    for name, content in font_files().items():
        made[name.replace(".pcf", ".hex")] = lines(content)
    return made


if __name__ == "__main__":
    stored.store_data("dump_files", files())
