"""Font F, the two digits that document 01 is written around: as it is printed there, and as a description."""
from pcf.numbers import TOP
from pcf.tables import accelerators, bitmaps, codes, font, names, narrow_metrics, properties

LINES = """\
0166637006000000
01000000000000000C00000068000000
02000000000000003000000074000000
040000000001000010000000A4000000
080000000800000028000000B4000000
200000000000000014000000DC000000
80000000000000001C000000F0000000
000000000000000000000000
000000000000000000000000030000000000000000000000
000003000300030000000000000003000300030000000000
00010000020080838383808083838380
08000000020000000000000003000000
060000000C0000001800000030000000
E0A0E04040400000
0000000030003100000000003000000001000000
00000000020000000000000004000000
080000006E696C006F6E6500
"""

THREE = (0, 3, 3, 3, 0, 0)  # a glyph of 3 by 3 pixels
DIGITS = [
    properties(0, [], b""),
    accelerators(0, [0] * 8, 3, 0, 0, THREE, THREE),
    narrow_metrics(0, [THREE[:5], THREE[:5]]),
    bitmaps(TOP, [0, 3], [6, 12, 24, 48], b"\xe0\xa0\xe0\x40\x40\x40"),
    codes(0, (0x30, 0x31), (0, 0), 0x30, [0, 1]),
    names(0, [0, 4], b"nil\0one\0"),
]


def two_digits():
    made = font(DIGITS)
    assert made == bytes.fromhex(LINES), "the tables above do not make font F"
    return made
