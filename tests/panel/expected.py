#!/usr/bin/env python3
"""Holds crates/panel/stdout, which the program must write, to what the model of document 01 draws for
crates/panel/stdin, a reading and a second line in the meter's font, and to what that font lacks of them. The rules for
that and for what the default character shows, which tests/command asks too, are held to cases that are written out.

With --write the input and the output are stored anew."""
import os
import sys

TESTS = os.path.dirname(os.path.dirname(os.path.abspath(__file__)))
sys.path[:0] = [TESTS, os.path.join(os.path.dirname(TESTS), "meter-font")]

import make as meter  # noqa: E402
import model  # noqa: E402
import stored  # noqa: E402
from common import fail  # noqa: E402
from pcf.font_f import two_digits  # noqa: E402
from pcf.rewriting import with_default  # noqa: E402

BLOCKS, PICTURE = 0, 1
WIDTH, HEIGHT = 72, 21
TEXT = "12 345 kWh\n3.07 m³  21 °C".encode()
# the same page: what is more has no letter there, characters of one to four bytes
LACKING = "12ü 345 kWh\r\n3.07 m³ €😀 21 °C\0\x1b".encode()
NO_WRAP = 2 ** 64 - 1
DEFAULT = model.Mode(default=True)

# codes that are written as such: nothing would be seen of the character, or a terminal might obey it
UNSEEN = [(0, 0x20), (0x7F, 0xA0), (0xAD, 0xAD), (0x34F, 0x34F), (0x61C, 0x61C), (0x115F, 0x1160), (0x1680, 0x1680),
          (0x17B4, 0x17B5), (0x180B, 0x180F), (0x2000, 0x200F), (0x2028, 0x202F), (0x205F, 0x206F), (0x2800, 0x2800),
          (0x3000, 0x3000), (0x3164, 0x3164), (0xFE00, 0xFE0F), (0xFEFF, 0xFEFF), (0xFFA0, 0xFFA0), (0xFFF0, 0xFFFB),
          (0x1BCA0, 0x1BCA3), (0x1D173, 0x1D17A), (0xE0000, 0xE0FFF)]

# a text, and what is named of it: with the meter's font, which has printable ASCII and ° ² ³ µ
OF_METER = [
    ("", []),
    ("12 345 kWh\r\n3.07 m³", []),
    ("grün", ["ü"]),
    ("süß, ß", ["ü", "ß", "ß"]),
    ("\x7f1é2€3😀4\U0010FFFF", ["U+007F", "é", "€", "😀", "\U0010FFFF"]),
    ("ä\r\nö\n\n\rü", ["ä", "ö", "ü"]),
    ("\x1b[31m5\t\x1b", ["U+001B", "U+0009", "U+001B"]),
    ("¡«\xa0»\xad®", ["¡", "«", "U+00A0", "»", "U+00AD", "®"]),
    ("1\u200b\u20282\u2010\ufeff\ufffd\U000e0041", ["U+200B", "U+2028", "\u2010", "U+FEFF", "\ufffd", "U+E0041"]),
]

# and with font F, which has 0 and 1
OF_F = [
    ("0\r\n1", []),
    ("0 1", ["U+0020"]),
    ("0a ß€😀1", ["a", "U+0020", "ß", "€", "😀"]),
    ("\\n%s*&/$HOME", ["\\", "n", "%", "s", "*", "&", "/", "$", "H", "O", "M", "E"]),
]


# in default mode: a text, what the default character shows of it, and what is skipped all the same: with the meter's
# font, whose default character is the question mark
DEFAULT_OF_METER = [
    ("", [], []),
    ("12 345 kWh\r\n3.07 m³", [], []),
    ("Grüße", ["ü", "ß"], []),
    ("What?", [], []),
    ("é?é", ["é", "é"], []),
    ("ä\r\nö\n\n\rü", ["ä", "ö", "ü"], []),
    ("€\uffff\U00010000😀\U0010FFFF", ["€", "\uffff", "\U00010000", "😀", "\U0010FFFF"], []),
    ("\t5\x1b\x7f\xa0\u200b\U000e0041", ["U+0009", "U+001B", "U+007F", "U+00A0", "U+200B", "U+E0041"], []),
]

# with font F, whose default character is 0
DEFAULT_OF_F = [
    ("01", [], []),
    ("1a", ["a"], []),
    ("a b😀", ["a", "U+0020", "b", "😀"], []),
    ("\r\n\n\r", [], []),
    ("\r2\n0\r\n2", ["2", "2"], []),
]

# and with font F and another default code: one that is below, above or far above its bounds has no glyph, and 1 has one
DEFAULT_OF_OTHERS = [
    (0x00, "0\x01a1", [], ["U+0001", "a"]),
    (0x0A, "0\n1\ra", [], ["a"]),
    (0x2F, "/01/", [], ["/", "/"]),
    (0x32, "02\r\n😀", [], ["2", "😀"]),
    (0xFFFF, "\uffff1\U0010FFFF", [], ["\uffff", "\U0010FFFF"]),
    (0x31, "12\n3/", ["2", "3", "/"], []),
]


def default_cases():
    """the font, the text, what its default character shows of it, and what it lacks even so"""
    f = two_digits()
    yield from ((meter.stored_font(), *case) for case in DEFAULT_OF_METER)
    yield from ((f, *case) for case in DEFAULT_OF_F)
    yield from ((with_default(f, default), *case) for default, *case in DEFAULT_OF_OTHERS)


def request(kind, width, height, scale, wrap, mode, text, font):
    """the program's input; `wrap` is a number or None"""
    end = NO_WRAP if wrap is None else wrap
    numbers = [kind, width, height, scale, end % 2 ** 32, end // 2 ** 32, mode, len(text)]
    return b"".join(n.to_bytes(4, "little") for n in numbers) + text + font


def drawn(font, width, height, scale, wrap, text, mode=model.PLAIN):
    """the height, the rows dropped, and the rows of pixels; or Refused"""
    buf = [0] * (width * height)
    (high, dropped), buf = model.draw_string(font, model.vet(font), mode, text, buf, 0, wrap, width, scale, 1)
    return high, dropped, [buf[i:i + width] for i in range(0, len(buf), width)]


def half_blocks(rows):
    """two rows a line; below an odd last row there is nothing"""
    clear = [0] * len(rows[0])
    lines = ("".join({(0, 0): " ", (1, 0): "▀", (0, 1): "▄", (1, 1): "█"}[pair] for pair in zip(upper, lower))
             for upper, lower in zip(rows[0::2], rows[1::2] + [clear]))
    return "".join(line + "\n" for line in lines).encode()


def looked_up(font, text, mode):
    """each character of a text but return and newline, and what the lookup gives for it"""
    rec = model.vet(font)
    return [(c, model.serve(font, rec, mode, ord(c))) for c in text.decode() if c not in "\r\n"]


def named(characters):
    return ["U+%04X" % ord(c) if any(low <= ord(c) <= high for low, high in UNSEEN) else c for c in characters]


def skipped(font, text, mode=model.PLAIN):
    """what names each character that the font lacks, in the text's order"""
    return named(c for c, served in looked_up(font, text, mode) if served is None)


def by_default(font, text, mode=model.PLAIN):
    """and each that the default one shows"""
    return named(c for c, served in looked_up(font, text, mode) if served is not None and served[2])


def default_of(font):
    return "U+%04X" % model.load(font)["codes"]["default"]


def main():
    font = meter.stored_font()
    for of, cases in ((font, OF_METER), (two_digits(), OF_F)):
        for text, names in cases:
            if skipped(of, text.encode()) != names:
                fail("of %r is skipped %s" % (text, skipped(of, text.encode())))
    for of, text, *names in default_cases():
        got = [by_default(of, text.encode(), DEFAULT), skipped(of, text.encode(), DEFAULT)]
        if got != names:
            fail("of %r the default shows, and is skipped, %s" % (text, got))
    wrap = WIDTH + 1
    high, dropped, rows = drawn(font, WIDTH, HEIGHT, 1, wrap, LACKING)
    lines = ["dropped %d height %d" % (dropped, high), "default 0 " + default_of(font),
             " ".join(["skipped", *skipped(font, LACKING)])]
    want = {
        ("panel", "stdin"): request(BLOCKS, WIDTH, HEIGHT, 1, wrap, 0, LACKING, font),
        ("panel", "stdout"): half_blocks(rows) + "".join(line + "\n" for line in lines).encode(),
    }
    stored.hold(want, sys.argv[1:] == ["--write"])
    print("panel: %d pixels of %d set, as the model draws them; %d texts of which characters are skipped, and %d in "
          "default mode" % (sum(map(sum, rows)), WIDTH * HEIGHT, len(OF_METER + OF_F), len([*default_cases()])))


if __name__ == "__main__":
    main()
