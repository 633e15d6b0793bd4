"""Changes a font's bytes, or a table that is to stand in a font."""
import struct

from pcf import orders, reading
from pcf.numbers import BIG, COMPRESSED, word
from pcf.tables import BITMAPS, CODES, METRICS, PADS, bitmaps, font, row_stride

LAST_BIT = 31  # of a format word; it means nothing


def with_bytes(b, at, new):
    return b[:at] + new + b[at + len(new):]


def with_size(b, number, size):
    """the size in the directory of the table with this number"""
    return with_bytes(b, 8 + 16 * number + 8, word(size))


def with_offset(b, number, offset):
    return with_bytes(b, 8 + 16 * number + 12, word(offset))


def with_format(b, number, form):
    """the format in the directory"""
    return with_bytes(b, 8 + 16 * number + 4, word(form))


def with_own_format(b, number, form):
    """the format that the table itself has"""
    return with_bytes(b, reading.directory(b)[number][3], word(form))


def with_format_bit(b, number, bit):
    """one bit changed of the format in the directory"""
    return with_format(b, number, reading.directory(b)[number][1] ^ 1 << bit)


def with_own_format_bit(b, number, bit):
    """and of the one that the table itself has"""
    form, _ = reading.own_format(b[reading.directory(b)[number][3]:])
    return with_own_format(b, number, form ^ 1 << bit)


def with_default(b, code):
    """another default code"""
    start = next(start for kind, _, _, start in reading.directory(b) if kind == CODES)
    _, sign = reading.own_format(b[start:])
    return with_bytes(b, start + 12, struct.pack(sign + "H", code))


def askew(table, bits=BIG):
    """the format word that does not count says otherwise, in these bits: the directory's, or the metrics' own"""
    kind, form, content = table
    if kind == METRICS:
        return kind, form, word(form ^ BIG ^ COMPRESSED) + content[4:]
    return kind, form ^ bits, content


# ---- another order of the bitmaps


def by_character(left, right, width, ascent, descent):
    """how wide a glyph's rows are: as document 01 has it"""
    return width


def by_box(left, right, width, ascent, descent):
    """and as X11 has it, whose fonts are written so"""
    return right - left


def bitmap_format(b):
    return next(reading.own_format(table)[0] for kind, _, table in reading.tables(b) if kind == BITMAPS)


def with_bitmap_format(b, form):
    """another format of the bitmap table, all else as it was"""
    return font([(kind, form, word(form) + content[4:]) if kind == BITMAPS else (kind, its, content)
                 for kind, its, content in reading.tables(b)])


def rows_of(data, offset, width, height, form):
    """a glyph's rows, each as bytes"""
    stride = row_stride(width, PADS[form & 3])
    return [data[at:at + stride] for at in range(offset, offset + height * stride, stride)]


def reordered_table(table, measures, form, width_of):
    """a bitmap table whose rows, as many and as wide as the metrics say, have the order of the format's bits"""
    old, offsets, _, data = reading.bitmaps(table)
    starts, made, sizes, seen = [], [], [0] * 4, {}
    for offset, measure in zip(offsets, measures):
        width, height = width_of(*measure), measure[3] + measure[4]
        starts.append(sizes[form & 3])
        for row in rows_of(data, offset, width, height, old):
            if (row, width) not in seen:  # rows are often the same, and a font may have a million
                seen[row, width] = orders.written(orders.padded(orders.pixels(row, old), width, form), form)
            made.append(seen[row, width])
        sizes = [size + height * row_stride(width, pad) for size, pad in zip(sizes, PADS)]
    return bitmaps(form, starts, sizes, b"".join(made))


def reordered(b, form, width_of=by_character):
    """the same font with its bitmaps in another order"""
    listed = reading.tables(b)
    measures = next(reading.metrics(its, table) for kind, its, table in listed if kind == METRICS)
    return font([reordered_table(content, measures, form, width_of) if kind == BITMAPS else (kind, its, content)
                 for kind, its, content in listed])
