"""Twins: fonts that 000, the Rust original, and the port read alike.

000 takes the code table's count of entries for their bytes, so it sees half of them: a twin has twice the codes, and
those of the second half have no glyph. 000 asserts one byte past a row whose width is a multiple of 8: a twin has bytes
more after the bitmaps. All else is as it was, and both sides find the same glyph for each code of the first half."""
from pcf import reading, tables
from pcf.numbers import COMPRESSED, NO_GLYPH


def codes(form, second, first, default, entries):
    """the code table: one-byte codes have the second byte's range doubled, others the first one's"""
    if first == (0, 0):
        second = doubled(second)
    else:
        first = doubled(first)
    return tables.codes(form, second, first, default, entries + [NO_GLYPH] * len(entries))


def doubled(byte_range):
    low, high = byte_range
    return low, high + (high - low + 1)


def bitmaps(form, offsets, sizes, data, after):
    """the bitmap table with so many bytes after the data; the sizes that the row pad does not pick are as they were"""
    sizes, data = list(sizes), data + after
    sizes[form & 3] = len(data)
    return tables.bitmaps(form, offsets, sizes, data)


def twin(font, rows=None):
    """the twin of a font's bytes; with a count of rows, of those first rows of two-byte codes alone"""
    made = []
    for kind, form, content in reading.tables(font):
        if kind == tables.METRICS and not form & COMPRESSED:
            raise ValueError("000 reads 12-byte metrics from another place; no twin of such a font")
        if kind == tables.CODES:
            read = reading.codes(content)
            _, _, content = codes(*(read if rows is None else reading.first_rows(rows, *read)))
        if kind == tables.BITMAPS:
            _, _, content = bitmaps(*reading.bitmaps(content), bytes(4))
        made.append((kind, form, content))
    return tables.font(made, padding_counts=False)
