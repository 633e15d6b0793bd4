"""Rows of bitmaps in every order: pixels as bytes, and bytes as pixels. A row is units from its start, each a number in
the table's byte order; its leftmost pixel is the top bit, or the lowest one where bit 8 of the format is clear."""
from pcf.numbers import BIG, TOP, order
from pcf.tables import PADS, row_stride

UNITS = (1, 2, 4)  # bytes of a scan unit, by the code in the format's bits 16 and 32


def unit_bytes(form):
    return UNITS[form >> 4 & 3]


def order_bits(big, top, unit, pad):
    """of a bitmap table's format"""
    return PADS.index(pad) | BIG * big | TOP * top | UNITS.index(unit) << 4


# every order in which rows can be written and drawn; the usual ones have one-byte units, top bit leftmost
ORDERS = [order_bits(big, top, unit, pad) for pad in PADS for unit in UNITS if unit <= pad
          for top in (True, False) for big in (False, True)]


def told(form):
    """the order in words"""
    return "%s_endian_%s_bit_left_unit_%d_pad_%d" % (
        order(form), "top" if form & TOP else "lowest", unit_bytes(form), PADS[form & 3])


def written(pixels, form):
    """the bytes of a row of whole units"""
    n, made = 8 * unit_bytes(form), b""
    for start in range(0, len(pixels), n):
        unit = pixels[start:start + n]
        number = sum(pixel << (n - 1 - k if form & TOP else k) for k, pixel in enumerate(unit))
        made += number.to_bytes(n // 8, order(form))
    return made


def pixels(row, form):
    """of the bytes of a row of whole units"""
    n, made = unit_bytes(form), []
    for start in range(0, len(row), n):
        number = int.from_bytes(row[start:start + n], order(form))
        unit = [number >> k & 1 for k in range(8 * n)]
        made += unit[::-1] if form & TOP else unit
    return made


def needed(width, form):
    """how many bytes of a row are there up to the last one that holds a column below the width"""
    whole_units = 8 * row_stride(width, unit_bytes(form))
    return len(written([1] * width + [0] * (whole_units - width), form).rstrip(b"\0"))


def padded(row_pixels, width, form):
    """the pixels of a row's bytes, then set ones up to the row pad: who reads the padding will be seen"""
    kept = row_pixels[:8 * row_stride(width, 1)]
    return kept + [1] * (8 * row_stride(width, PADS[form & 3]) - len(kept))
