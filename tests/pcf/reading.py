"""Reads a font's bytes again: its directory, its tables as bytes, and tables in the words of tables.py."""
import struct

from pcf.numbers import BIG, COMPRESSED, NO_GLYPH
from pcf.tables import CODES


def directory(font):
    """type, format, size and start of each table"""
    count, = struct.unpack_from("<I", font, 4)
    return [struct.unpack_from("<4I", font, 8 + 16 * k) for k in range(count)]


def tables(font):
    """type, format and bytes of each table"""
    return [(kind, form, font[start:start + size]) for kind, form, size, start in directory(font)]


def own_format(table):
    """a table's own format word, and how struct names the byte order that it says"""
    form, = struct.unpack_from("<I", table)
    return form, ">" if form & BIG else "<"


def codes(table):
    """format, the ranges of the second and the first byte, default and entries of a code table"""
    form, sign = own_format(table)
    low2, high2, low1, high1, default = struct.unpack_from(sign + "5H", table, 4)
    count = (high2 - low2 + 1) * (high1 - low1 + 1)
    return form, (low2, high2), (low1, high1), default, list(struct.unpack_from("%s%dH" % (sign, count), table, 14))


def first_rows(rows, form, second, first, default, entries):
    """of a code table so many first bytes alone"""
    high = min(first[1], first[0] + rows - 1)
    kept = (second[1] - second[0] + 1) * (high - first[0] + 1)
    return form, second, (first[0], high), default, entries[:kept]


def codes_with_glyph(font, rows):
    """how many codes of a font's first rows have a glyph"""
    *_, entries = first_rows(rows, *next(codes(table) for kind, _, table in tables(font) if kind == CODES))
    return sum(entry != NO_GLYPH for entry in entries)


def metrics(form, table):
    """left and right bearing, width, ascent and descent of each glyph; the format is the directory's"""
    sign = ">" if form & BIG else "<"
    if form & COMPRESSED:
        count, = struct.unpack_from(sign + "H", table, 4)
        return [tuple(n - 128 for n in table[at:at + 5]) for at in range(6, 6 + 5 * count, 5)]
    count, = struct.unpack_from(sign + "I", table, 4)
    return [struct.unpack_from(sign + "5h", table, 8 + 12 * k) for k in range(count)]


def bitmaps(table):
    """format, offsets, sizes and data of a bitmap table"""
    form, sign = own_format(table)
    count, = struct.unpack_from(sign + "I", table, 4)
    *offsets, size1, size2, size4, size8 = struct.unpack_from("%s%dI" % (sign, count + 4), table, 8)
    sizes, start = [size1, size2, size4, size8], 24 + 4 * count
    return form, offsets, sizes, table[start:start + sizes[form & 3]]
