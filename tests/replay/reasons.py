"""Characters to draw for the reason that is told with each: a file's name, and its fonts with their calls."""
from pcf.font_f import DIGITS, two_digits
from pcf.numbers import NO_GLYPH, TOP
from pcf.orders import ORDERS, needed
from pcf.rewriting import reordered
from pcf.tables import PADS, codes, font, row_stride
from replay import glyphs
from replay.boxes import letters, mixed, of_glyphs
from replay.calls import LAST, PLAIN, but, char, damages
from replay.orders import OTHER

# of a code's first byte, and of its second one or of the whole code; some are bounds that no byte reaches
BOUNDS = [
    ((0, 0), (0x30, 0x34)), ((0, 0), (0, 4)), ((0, 0), (253, 258)), ((0, 0), (0xfffb, 0xffff)),
    ((0x20, 0x22), (0x30, 0x34)), ((0, 1), (0x30, 0x34)), ((1, 1), (0, 4)), ((0xfe, 0xff), (0xfb, 0xff)),
    ((0x20, 0x20), (253, 258)), ((255, 256), (0x30, 0x32)), ((256, 257), (0, 1)), ((1, 2), (256, 257)),
]


# ---- codes


def coded(first, second):
    """the digits under codes with these bounds; by turns with 65,535 and with glyphs that are none"""
    count = (first[1] - first[0] + 1) * (second[1] - second[0] + 1)
    entries = [(0, NO_GLYPH, 1, NO_GLYPH - 1, 2)[k % 5] for k in range(count)]
    return font(DIGITS[:4] + [codes(0, second, first, 0, entries)] + DIGITS[5:])


def around(first, second):
    """the codes whose bytes are at a bound or one step outside, the same above 65,535, and the last ones"""
    firsts = {n + k for n, k in zip(first * 2, (0, 0, -1, 1))}
    seconds = {n + k for n, k in zip(second * 2, (0, 0, -1, 1))} | set(range(second[0], second[1]))
    near = {256 * byte1 + byte2 for byte1 in firsts for byte2 in seconds}
    above = {65536 + 256 * first[0] + second[0], 65535, 65536, 2 ** 31, 2 ** 32 - 1}
    return [char(code, 9, 3) for code in sorted(near | above) if code >= 0]


def by_letters():
    """each letter in one-byte and in two-byte codes: in room enough, in none, with rows cut and with pixels beyond"""
    for first in (0, 0x21):
        for code in (9, 10, *b"ABCDEJKLMNOSWXYZ", 0x5b):
            for length, stride, scale in ((320, 20, 1), (0, 20, 1), (45, 20, 1), (5, 1, 1), (640, 40, 2), (140, 40, 2)):
                call = char(256 * first + code, length, stride, scale)
                yield but(call, codes__low1=first, codes__high1=first) if first else call


# ---- 6, 15, and the limits of a place


def limits():
    """of '0', of a code without a glyph and of one above all: each limit from both sides, in the longest buffer; 6
    before 15 before a reason"""
    for code in (0x30, 0x32, 65536):
        call = char(code, LAST, 3)
        yield from (but(call, start=n) for n in (0, 2147483647, 2147483648, LAST))
        yield from (but(call, stride=n) for n in (0, 1, 65535, 65536, LAST))
        yield from (but(call, scale=n) for n in (0, 1, 64, 65, LAST))
    yield from (but(char(65536, LAST, 0), **changes) for changes in damages(two_digits()))


def farthest():
    """'0' and '1' from the last start on, in the longest lines and in the largest blocks: buffers that end with the
    last pixel and before, and with the lines by which rows are drawn"""
    start, stride, scale = 2147483647, 65535, 64
    for code, column in ((0x30, 2), (0x31, 1)):
        end = start + stride * (3 * scale - 1) + (column + 1) * scale
        lines = (0, 1, scale - 1, scale, 2 * scale)
        for length in (end, end - 1, *(start + n * stride + k for n in lines for k in (-1, 0))):
            yield char(code, length, stride, scale, start)


# ---- orders


def ninth_column():
    """two glyphs of two rows, nine wide: A has the last column of its last row set, B only bits past its width"""
    return of_glyphs(0, 1, 2, [(0, 9, 2, 0)] * 2, [0, 4], b"\0\0\0\x80" + b"\0\x7f" * 2, bits=TOP)


def in_order(form):
    """A drawn, and blank as B; one pixel or one byte of the data too few; a row cut; in rows of this order"""
    yield char(0x41, 10, 1)
    yield char(0x41, 9, 1)
    yield char(0x41, 1, 1)
    yield char(0x42, 2, 1)
    size = row_stride(9, PADS[form & 3]) + needed(9, form)
    yield from (but(char(0x41, 10, 1), bitmaps__size=size - less) for less in (0, 1))


# ---- by lot, and the cases beside the model


def by_lot(seed, b):
    """around the last pixel and around lines"""
    return (call for call in glyphs.drawn_by_lot(seed, b, 200) if call["call"] == "draw_char")


def of_definitions(mode=PLAIN):
    for b, cases in glyphs.of_definitions(["why"], mode):
        yield b, [dict(case, call="draw_char") for case in cases]


def topics():
    f = two_digits()
    yield "reasons_by_letters", [(letters(), by_letters())]
    yield "reasons_by_codes", [(coded(*bounds), around(*bounds)) for bounds in BOUNDS]
    yield "reasons_at_limits", [(f, [*limits(), *farthest()])]
    yield "reasons_in_orders", [(reordered(ninth_column(), form), in_order(form)) for form in ORDERS]
    fonts = [mixed(seed, bits) for seed, bits in enumerate([TOP] * 5 + OTHER * 2, 60)]
    yield "reasons_by_lot", [(b, by_lot(seed, b)) for seed, b in enumerate(fonts, 60)]
    yield "reasons_of_definitions", of_definitions()
