"""Fonts in which a table's own format word and its directory entry's differ: loading takes one of them, strict loading
and vetting refuse the font (27)."""
import functools
import random

import model
from dump import make as dump
from fonts import make as fonts
from pcf.font_f import DIGITS, two_digits
from pcf.numbers import word
from pcf.reading import directory
from pcf.rewriting import LAST_BIT, with_format_bit, with_offset, with_own_format_bit, with_size

BITS = range(LAST_BIT + 1)


@functools.lru_cache(maxsize=None)
def kinds():
    """fonts whose formats agree: F, a big-endian one with codes of two bytes, one with 12-byte metrics, one with the
    lowest bit leftmost, and one with repeated and unknown tables"""
    made = [two_digits(), fonts.big_two_byte(), dump.one_glyph(2, 3, 1, 1, top=10, rows=b"\x40\xe0"),
            fonts.lowest_bit_left(), fonts.repeated()]
    for b in made:
        model.load(b, strict=True)  # else a bit changed might make the formats agree
    return made


@functools.lru_cache(maxsize=None)
def one_bit():
    """these with one bit changed: each bit of each table's own word, unknown tables' too, and in the first and the last
    font each bit of each of the directory's. They are in an order by lot, so that a share of them has some of every
    sort"""
    made = [with_own_format_bit(b, e, bit) for b in kinds() for e, (_, _, size, _) in enumerate(directory(b))
            if size >= 4 for bit in BITS]
    made += [with_format_bit(b, e, bit) for b in (kinds()[0], kinds()[-1]) for e in range(len(directory(b)))
             for bit in BITS]
    random.Random(27).shuffle(made)
    return made


def alike():
    """F with one bit changed in both words of a table: they agree, whatever the bit means"""
    f = two_digits()
    return [with_format_bit(with_own_format_bit(f, e, bit), e, bit) for e in range(len(DIGITS)) for bit in BITS]


def short(entry):
    """F with a table of 0, 3, 4 or 5 bytes, by its size or by the file's end, where it is moved to; what it has of its
    format is the directory's, or has another first bit. And with a table that starts past the file"""
    f = two_digits()
    for b in (f, with_own_format_bit(f, entry, 0)):
        for size in (0, 3, 4, 5):
            yield with_size(b, entry, size)
    form, moved = directory(f)[entry][1], with_offset(f, entry, len(f))
    yield moved
    for own in (form, form ^ 1):
        for size in (3, 4, 5):
            yield moved + (word(own) + b"\0")[:size]
    yield with_offset(f, entry, len(f) + 1)


def together():
    """27 and another refusal true together, of one entry or of two"""
    f, entries = two_digits(), range(len(DIGITS))
    for e in entries:
        yield from short(e)
        changed = with_own_format_bit(f, e, LAST_BIT)
        for other in entries:
            if other != e:
                yield with_size(changed, other, 3)
            if other > e:
                yield with_own_format_bit(changed, other, 0)
    low_above_high, no_names = fonts.refusals()[6:]
    yield with_own_format_bit(low_above_high, 4, LAST_BIT)
    yield with_own_format_bit(no_names, 0, LAST_BIT)
