"""Fonts that the tests are asked about, each from a description of its tables."""
from pcf.font_f import DIGITS, THREE, two_digits
from pcf.numbers import BIG, NO_GLYPH, TOP, word
from pcf.orders import order_bits
from pcf.rewriting import askew, reordered, with_bytes, with_format, with_offset, with_own_format, with_size
from pcf.tables import (accelerators, bitmaps, codes, font, names, narrow_metrics, other, properties,
                        wide_metrics)


def big_two_byte():
    """every table big-endian; codes of two bytes, of which 0x2031 has no glyph; row pad 2"""
    form = BIG
    strings = b"FAMILY\0Meter\0SIZE\0"
    return font([
        properties(form, [(0, 1, 7), (13, 0, 305419896), (7, 255, 17)], strings),
        accelerators(form, [1, 0, 0, 1, 1, 0, 255, 9], 6, 2, 1, (0, 4, 4, 1, 0, 0), (2, 7, 8, 6, 2, 258)),
        narrow_metrics(form, [(0, 4, 4, 6, 0), (1, 5, 6, 6, 1), (2, 7, 8, 1, 2), (0, 0, 4, 0, 0)]),
        bitmaps(form | TOP | 1, [0, 12, 26, 32], [16, 32, 64, 128], bytes(range(32))),
        codes(form, (0x30, 0x32), (0x20, 0x21), 0x2030, [0, NO_GLYPH, 1, 2, 3, 0]),
        names(form, [0, 5, 9, 13], b"zero\0one\0two\0\0"),
    ])


def wide():
    """12-byte metrics, some negative; strings that do not end, bounds out of range, fewer names than
    metrics and fewer metrics than glyphs; a format word that misleads in every table"""
    return font([askew(table) for table in (
        properties(0, [(0, 0, 4294967295), (10, 0, 1), (2, 1, 4), (0, 1, 9), (5, 0, 1)], b"A\0BC\0open"),
        accelerators(0, [0] * 8, -1, -2147483648, 2147483647,
                     (-32768, -1, -2, -3, -4, 65535), (0, 32767, 9, 32767, 1, 7)),
        wide_metrics(0, [(-3, 12, 9, 10, -2, 258), (0, 1, 2, 3, 4, 5), (-32768, 32767, -1, 0, 1, 65535)]),
        bitmaps(TOP | 16 | 2, [0, 1, 2], [1, 2, 4, 8], b"\x80\x40\x20\x10"),
        codes(0, (0, 4), (0, 0), 0, [0, 1, 2, 3, 300]),
        names(0, [0, 6], b"first\0last"),
    )])


def lowest_bit_left():
    """font F with rows of 8 bytes in units of 4, big-endian numbers whose lowest bit is leftmost"""
    return reordered(two_digits(), order_bits(True, False, 4, 8))


def repeated():
    """each kind twice, with other contents; types that are not read between them; the last serves"""
    return font(DIGITS + [
        other(16, b"ink metrics"),
        properties(0, [(0, 0, 1)], b"old\0"),
        other(512),
        accelerators(BIG, [1] * 8, 4, 1, 0, (1, 4, 4, 3, 1, 0), (1, 4, 5, 4, 1, 0), kind=256),
        narrow_metrics(BIG, [(1, 4, 4, 3, 1), (1, 4, 5, 4, 1), (0, 1, 2, 3, -1)]),
        bitmaps(BIG | TOP | 3, [0], [1, 2, 4, 8], bytes(8)),
        codes(BIG, (0x41, 0x43), (0, 0), 0x43, [2, 1, 0]),
        names(BIG, [0, 2, 4], b"c\0b\0a\0"),
        properties(BIG, [(4, 0, 2), (0, 1, 4)], b"new\0served\0"),
    ])


def limits(entries):
    """types 256 and then 2, and unknown types up to so many entries: the last of them starts where
    the file ends, and two tables, a known and an unknown one, are longer by far than the file"""
    tables = [accelerators(0, [2] * 8, 1, 1, 1, THREE, (0, 0, 0, 0, 0, 0), kind=256)] + DIGITS
    tables += [other(1024 + k) for k in range(len(tables), entries)]
    made = font(tables)
    made = with_size(made, 6, 4294967295)
    return with_size(made, entries - 1, 4294967295)


def refusals():
    """refusals 1 to 8 in order: each file is a good one but for one number or one byte"""
    f = two_digits()
    extra = font(DIGITS + [other(64)])
    return [
        f[:7],
        with_bytes(f, 3, b"q"),
        limits(65),
        f[:8 + 16 * 6 - 1],
        with_offset(extra, 6, len(extra) + 1),
        with_size(f, 1, 47),
        font(DIGITS[:4] + [codes(0, (0x32, 0x31), (0, 0), 0x30, [0, 1])] + DIGITS[5:]),
        font(DIGITS[:5]),
    ]


def unread():
    """tables of types that are not read, each with another format in the directory: some have bits of known types"""
    return [other(kind, word(BIG)) for kind in (0, 3, 16, 64, 257, 512, 2 ** 24, 2 ** 31 + 1)]


def of_two_formats():
    """a table's format is not the directory's, as strict loading refuses it with 27; and what is tested before and
    after that. A name says what strict loading says"""
    f, top = two_digits(), 2 ** 31
    low_above_high, no_names = refusals()[6:]
    empty_last = font(DIGITS[:5] + [names(0, [], b"")])
    after_4_bytes = len(empty_last) - 8  # of its last table
    twice = font(DIGITS + [names(0, [0, 2], b"a\0b\0")])
    of_256 = font(DIGITS[:1] + [accelerators(0, [0] * 8, 3, 0, 0, THREE, THREE, kind=256)] + DIGITS[2:])
    made = {"refused_27_type_%d" % kind: with_format(f, k, form ^ BIG) for k, (kind, form, _) in enumerate(DIGITS)}
    made.update({
        "refused_27_type_256": with_format(of_256, 1, BIG),
        # the accelerators' numbers are big-endian, as the directory says, and are read as little-endian ones
        "refused_27_wild_bounds": with_own_format(big_two_byte(), 1, 0),
        "refused_27_top_bit_of_the_directory": with_format(f, 1, top),
        "refused_27_top_bit_of_the_table": with_own_format(f, 4, top),
        "top_bit_of_both": with_own_format(with_format(f, 1, top), 1, top),
        "refused_27_first_of_a_type": with_format(twice, 5, BIG),
        "refused_27_last_of_a_type": with_format(twice, 6, BIG),
        "unread_types_differ": font(unread()[:4] + DIGITS + unread()[4:]),
        "refused_06_in_3_bytes_of_table": with_size(with_format(f, 4, BIG), 4, 3),
        "refused_27_in_4_bytes_of_table": with_size(with_format(f, 4, BIG), 4, 4),
        "refused_06_in_4_bytes_of_table": with_size(f, 4, 4),
        "refused_06_in_3_bytes_of_file": with_format(empty_last, 5, BIG)[:after_4_bytes - 1],
        "refused_27_in_4_bytes_of_file": with_format(empty_last, 5, BIG)[:after_4_bytes],
        "refused_06_in_4_bytes_of_file": empty_last[:after_4_bytes],
        "refused_27_before_06": with_size(with_format(f, 1, BIG), 1, 47),
        "refused_27_before_07": with_format(low_above_high, 4, BIG),
        "refused_27_before_08": with_format(no_names, 4, BIG),
        "refused_27_before_a_later_05": with_offset(with_format(f, 0, BIG), 5, len(f) + 1),
        "refused_27_before_a_later_27": with_format(with_format(f, 5, BIG), 2, 0),
        "refused_05_before_27": with_offset(with_format(f, 3, 0), 3, len(f) + 1),
        "refused_06_before_a_later_27": with_format(with_size(f, 1, 47), 2, 0),
        "refused_07_before_a_later_27": with_format(low_above_high, 5, BIG),
    })
    return made


def files():
    made = {
        "f.pcf": two_digits(),
        "big_two_byte.pcf": big_two_byte(),
        "wide_metrics.pcf": wide(),
        "lowest_bit_left.pcf": lowest_bit_left(),
        "repeated.pcf": repeated(),
        "limits.pcf": limits(64),
    }
    for number, damaged in enumerate(refusals(), 1):
        made["refusal_%d.pcf" % number] = damaged
    return made

