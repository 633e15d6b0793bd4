"""Fonts that 000 and the port read alike: twins, as tests/pcf/twins.py says.

000 also reads 12-byte metrics two bytes early, and shifts the scan unit bits by one less: so metrics are of 5 bytes,
but for two fonts whose numbers are the same either way, and fonts with other scan units are not asked about their
record."""
from pcf import reading, rewriting, twins
from pcf.font_f import THREE
from pcf.numbers import BIG, NO_GLYPH, TOP, word
from pcf.rewriting import with_bytes, with_offset, with_size
from pcf.tables import (PADS, accelerators, bitmaps, font, names, narrow_metrics, other, properties, row_stride,
                        wide_metrics)
from pcf.twins import codes as twin_codes


def twin_bitmaps(form, offsets, data):
    """the sizes that the row pad does not pick are not looked at"""
    return twins.bitmaps(form | TOP, offsets, (1, 2, 3, 4), data, b"\xff")


def bounds(form, width, ascent, descent, kind=2):
    return accelerators(form, [0] * 8, ascent, descent, 0, THREE, (0, width, width, ascent, descent, 0), kind)


NO_PROPERTIES = properties(0, [], b"")
DIGIT_METRICS = narrow_metrics(0, [THREE[:5], THREE[:5]])
DIGIT_ROWS = twin_bitmaps(0, [0, 3], b"\xe0\xa0\xe0\x40\x40\x40")
DIGIT_CODES = twin_codes(0, (0x30, 0x31), (0, 0), 0x30, [0, 1])
DIGIT_NAMES = names(0, [0, 4], b"nil\0one\0")
DIGITS = [NO_PROPERTIES, bounds(0, 3, 3, 0), DIGIT_METRICS, DIGIT_ROWS, DIGIT_CODES, DIGIT_NAMES]


def digits():
    """the twin of font F"""
    return font(DIGITS)


def big_two_byte():
    """every table big-endian; codes of two bytes, of which 0x2031 has no glyph; row pad 2; pads"""
    form = BIG
    return font([
        properties(form, [(0, 1, 7), (13, 0, 305419896), (7, 255, 17), (13, 0, 4294967295)],
                   b"FAMILY\0Meter\0SIZE\0"),
        accelerators(form, [1, 0, 0, 1, 1, 0, 255, 9], 6, -2, 2147483647, (-1, 4, 4, 1, -2, 65535),
                     (2, 7, 8, 6, 2, 258)),
        narrow_metrics(form, [(0, 4, 4, 6, 0), (1, 5, 6, 6, 1), (2, 7, 8, 1, 2), (0, 0, 4, 0, 0), (3, -1, 9, 2, -1)]),
        twin_bitmaps(form | 1, [0, 12, 26, 0, 4], bytes(7 * k % 256 for k in range(32))),
        twin_codes(form, (0x30, 0x32), (0x20, 0x21), 0x2030, [0, NO_GLYPH, 1, 2, 3, 4]),
        names(form, [0, 5, 9, 13, 2], b"zero\0one\0two\0\0"),
    ])


def row(width, pad, seed):
    """a row's bytes: the bits past the width and in the padding are set as others are"""
    return bytes((seed * 37 + 11 * k) % 251 for k in range(row_stride(width, pad)))


# left bearing, width, ascent and descent of glyphs of many widths, 1 to 3 high
BOXES = [(w % 3, w, 1 + w % 2, w // 2 % 2) for w in (1, 2, 3, 5, 7, 8, 9, 15, 16, 17, 23, 24, 25, 33)]


def widths(pad, form):
    """those glyphs with rows of a pad; codes from 0x41 on"""
    offsets, data = [], b""
    for number, (_, width, ascent, descent) in enumerate(BOXES):
        offsets.append(len(data))
        data += b"".join(row(width, pad, 3 * number + r) for r in range(ascent + descent))
    return font([
        properties(form, [(0, 1, 0), (0, 0, pad)], b"\0"),
        other(16, b"ink metrics"),
        bounds(form, 33, 3, 1),
        other(64, b"widths"),
        narrow_metrics(form, [(left, 0, width, ascent, descent) for left, width, ascent, descent in BOXES]),
        twin_bitmaps(form | PADS.index(pad), offsets, data),
        twin_codes(form, (0x41, 0x40 + len(BOXES)), (0, 0), 0x41, list(range(len(BOXES)))),
        names(form, [0] * len(BOXES), b"x\0"),
    ])


def repeated(last_kind):
    """each kind twice, with other contents; the accelerators once of type 2 and once of 256; the last serves"""
    first_kind = 258 - last_kind
    return font([
        NO_PROPERTIES, bounds(0, 3, 3, 0, first_kind), DIGIT_METRICS, DIGIT_ROWS, DIGIT_CODES, DIGIT_NAMES,
        other(512),
        properties(0, [(0, 0, 1)], b"old\0"),
        bounds(BIG, 5, 4, 1, last_kind),
        narrow_metrics(BIG, [(1, 4, 4, 3, 1), (1, 4, 5, 4, 1), (0, 1, 2, 3, -1)]),
        twin_bitmaps(BIG | 3, [0, 8, 40], bytes(range(200, 256))),
        twin_codes(BIG, (0x41, 0x43), (0, 0), 0x43, [2, 1, 0]),
        names(BIG, [0, 2, 4], b"c\0b\0a\0"),
        properties(BIG, [(4, 0, 2), (0, 1, 4)], b"new\0served\0"),
    ])


def askew():
    """in every table the format word that does not count says otherwise"""
    return font([rewriting.askew(table, BIG | TOP | 3) for table in (
        properties(BIG, [(1, 1, 0)], b"\0A\0"), bounds(BIG, 9, 2, 1), narrow_metrics(BIG, [(0, 9, 9, 2, 1)]),
        twin_bitmaps(BIG | 2, [0], b"\x80\x80\0\0\xff\x00\0\0\x55\x80\0\0"),
        twin_codes(0, (0x61, 0x61), (0, 0), 0x61, [0]), names(BIG, [1], b"\0a\0"))])


def sizes_beyond():
    """tables whose sizes run past the file's end, and an unknown one that starts there"""
    made = font([other(1024, b"first")] + DIGITS + [other(16)])
    for number in range(8):
        made = with_size(made, number, 4294967295)
    return made


def strings_broken():
    """properties and names whose strings begin beyond their data, at its end, or do not end"""
    return font([
        properties(0, [(0, 0, 4294967295), (10, 0, 1), (2, 1, 4), (0, 1, 9), (5, 0, 1), (0, 1, 8), (9, 0, 0),
                       (4, 1, 1), (0, 1, 4294967295)], b"A\0BC\0open"),
        bounds(0, 3, 3, 0), narrow_metrics(0, [THREE[:5]] * 2), DIGIT_ROWS, DIGIT_CODES,
        names(0, [0, 6, 10, 11, 4294967295, 5, 3], b"first\0last"),
    ])


def few():
    """'B' has no metrics, 'C' has no bitmap, 'D' is higher than the bounds, 'E' has rows beyond the data, 'F' has a
    row of two there, 'G' a row in the last byte"""
    return font([
        NO_PROPERTIES, bounds(0, 3, 3, 1),
        narrow_metrics(0, [(0, 3, 3, 3, 0), (0, 3, 3, 4, 0), (0, 3, 3, 3, 0), (1, 3, 4, 2, 0), (0, 9, 7, 1, 0),
                           (0, 4, 4, 3, 0)]),
        bitmaps(TOP, [0, 0, 5, 4, 4], [5, 0, 0, 0], b"\xe0\xa0\xe0\x40\xf0"),
        twin_codes(0, (0x41, 0x47), (0, 0), 0x41, [0, 6, 5, 1, 2, 3, 4]),
        names(0, [0], b"a\0"),
    ])


def not_drawn(form):
    """a scan unit of more bytes than a row is padded to, or of code 3; or the lowest bit leftmost, which 000 does not
    draw"""
    rows = bitmaps(form, [0, 3], [7, 0, 0, 0], b"\xe0\xa0\xe0\x40\x40\x40\0")
    return font([NO_PROPERTIES, bounds(0, 3, 3, 0), DIGIT_METRICS, rows, DIGIT_CODES, DIGIT_NAMES])


def wide(form, n):
    """12-byte metrics all of whose numbers are n. What stands two bytes before a record is n too: big-endian the
    count, which is n, and little-endian 0"""
    count = n or 2
    rows = twin_bitmaps(form, [6 * k for k in range(count)], bytes(range(0x3c, 0x3c + 6 * count)))
    return font([
        NO_PROPERTIES, bounds(form, n, n, n), wide_metrics(form, [(n,) * 6] * count), rows,
        twin_codes(form, (0x30, 0x2f + count), (0, 0), 0x30, list(range(count))),
        names(form, [0] * count, b"n\0"),
    ])


def high_bounds(ascent, descent):
    """the sum of the bounds' ascent and descent is what 000 has no number for"""
    return font([NO_PROPERTIES, bounds(0, 3, ascent, descent), *DIGITS[2:]])


def letters():
    """codes 0 to 0xff, newline and carriage return among them. A and B have pads, C no column, D no row, E is 9
    wide, O below the baseline, S blank; é has a glyph, J no bitmap; the bounds are 3 and 1"""
    boxes = {
        "A": (0, 3, 3, 0), "B": (1, 2, 2, 1), "C": (0, 0, 3, 0), "D": (2, 5, 1, -1), "E": (0, 9, 3, 1),
        "O": (0, 2, 0, 2), "S": (0, 2, 3, 0), "\xe9": (1, 4, 3, 0), "J": (0, 4, 3, 0),
    }
    data = (b"\xe0\xa0\xe0" + b"\xc0\x80\x40" + b"\xff\x80\x80\x80\x80\xff\xaa\x00" + b"\xc0\x40" + bytes(3)
            + b"\x90\x60\xf0")
    glyphs = {ord(name): number for number, name in enumerate(boxes)}
    glyphs.update({10: 0, 13: 4})
    return font([
        NO_PROPERTIES, bounds(0, 9, 3, 1),
        narrow_metrics(0, [(left, 0, width, ascent, descent) for left, width, ascent, descent in boxes.values()]),
        twin_bitmaps(0, [0, 3, 6, 6, 6, 14, 16, 19], data),
        twin_codes(0, (0, 0xff), (0, 0), 0, [glyphs.get(code, NO_GLYPH) for code in range(256)]),
        names(0, [0] * len(boxes), b"x\0"),
    ])


def damaged():
    """files that are not loaded: each is a good one but for one number or one byte, or a table less"""
    good = digits()
    entries = len(DIGITS)
    at = [start for _, _, _, start in reading.directory(good)]
    for size in (0, 7, 8, 8 + 16 * entries - 1):
        yield good[:size]
    for place in range(4):
        yield with_bytes(good, place, bytes([good[place] ^ 32]))
    yield with_bytes(good, 4, word(64))
    for number in range(entries):
        yield with_offset(good, number, len(good) + 1)
    extra = font(DIGITS + [other(64)])
    yield with_offset(extra, entries, len(extra) + 1)
    for number, size in ((0, 7), (0, 11), (1, 47), (2, 5), (2, 15), (3, 7), (3, 31), (3, 38), (4, 13), (4, 14), (5, 7),
                         (5, 15), (5, 27)):
        yield with_size(good, number, size)
    for number, offset in ((0, 4), (0, 8), (3, 4), (5, 4), (5, 16)):  # counts and sizes
        yield with_bytes(good, at[number] + offset, word(4294967295))
    for low, high in ((4, 6), (8, 10)):  # the second byte's bounds, then the first one's
        yield with_bytes(with_bytes(good, at[4] + low, b"\2\0"), at[4] + high, b"\1\0")
    for number in range(entries):
        yield font(DIGITS[:number] + DIGITS[number + 1:])
    yield font([])
