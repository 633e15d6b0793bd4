"""Writes the six tables of a font, and the font. A table is built by the function of its kind and stands in a font as
(type, format, bytes)."""
from pcf.numbers import COMPRESSED, i16, i32, padded, u16, u32, word

PROPERTIES, ACCELERATORS, METRICS, BITMAPS, CODES, NAMES = 1, 2, 4, 8, 32, 128


def properties(form, records, strings):
    """a record is (name offset, string flag, value)"""
    body = b"".join(u32(form, name) + bytes([flag]) + u32(form, value) for name, flag, value in records)
    return PROPERTIES, form, padded(word(form) + u32(form, len(records)) + body) + u32(form, len(strings)) + strings


def measure(form, m):
    """left, right, width, ascent, descent, attributes: 12 bytes"""
    return i16(form, *m[:5]) + u16(form, m[5])


def accelerators(form, flags, ascent, descent, overlap, minimum, maximum, kind=ACCELERATORS):
    body = word(form) + bytes(flags) + i32(form, ascent, descent, overlap)
    return kind, form, body + measure(form, minimum) + measure(form, maximum)


def narrow_metrics(form, records):
    """five numbers a glyph, each from -128 to 127"""
    body = b"".join(bytes(n + 128 for n in m) for m in records)
    return METRICS, form | COMPRESSED, word(form | COMPRESSED) + u16(form, len(records)) + body


def wide_metrics(form, records):
    return METRICS, form, word(form) + u32(form, len(records)) + b"".join(measure(form, m) for m in records)


def bitmaps(form, offsets, sizes, bits):
    """sizes: of the data for row pads of 1, 2, 4 and 8 bytes"""
    return BITMAPS, form, word(form) + u32(form, len(offsets), *offsets) + u32(form, *sizes) + bits


def codes(form, second, first, default, entries):
    """second, first: the least and the greatest of a code's bytes, the second byte's and the first one's"""
    return CODES, form, word(form) + u16(form, *second, *first, default, *entries)


def names(form, offsets, strings):
    return NAMES, form, word(form) + u32(form, len(offsets), *offsets) + u32(form, len(strings)) + strings


def other(kind, content=b""):
    """a table that the library does not read"""
    return kind, 0, content


# ---- rows of bitmaps

PADS = (1, 2, 4, 8)  # a row takes a multiple of so many bytes; the format's lowest two bits say which


def row_bytes(width):
    return (width + 7) // 8


def row_stride(width, pad):
    return -(-row_bytes(width) // pad) * pad


def laid_out(boxes, pad):
    """where the rows of glyphs, each left bearing, width, ascent and descent, begin if they follow each other, and how
    many bytes they have together"""
    offsets, size = [], 0
    for _, width, ascent, descent in boxes:
        offsets.append(size)
        size += (ascent + descent) * row_stride(width, pad)
    return offsets, size


# ---- a font


def font(tables, padding_counts=True):
    """the directory, then the tables in its order, each padded to a multiple of 4; whether the padding counts for the
    size in the directory is the writer's choice"""
    at = 8 + 16 * len(tables)
    directory, body = b"", b""
    for kind, form, content in tables:
        size = len(padded(content)) if padding_counts else len(content)
        directory += word(kind) + word(form) + word(size) + word(at + len(body))
        body += padded(content)
    return b"\x01fcp" + word(len(tables)) + directory + body
