"""What is called on a text: a file's name, and its fonts with their calls. A call's text stands among the
font's bytes, after its tables."""
import json
import os
import random

import model
from fonts import make as fonts
from pcf.font_f import two_digits
from replay.boxes import letters, mixed
from replay.calls import LAST, MOST, PLAIN, but, damages, fitting, step, text, with_texts

CASES = os.path.join(os.path.dirname(os.path.dirname(os.path.abspath(__file__))), "definitions", "cases.jsonl")

# sequences that are no character: bytes that start none, a character that is cut short or goes on wrongly,
# overlong ones, surrogates, and codes above U+10FFFF
ILL_FORMED = [bytes.fromhex(digits) for digits in """
    80 BF C080 C1BF F5808080 F8888080 FE FF
    C2 DF C241 C27F C2C0 DF7F DFC0
    E0 E1 ED EF E0A0 E180 ED80 EFBF E0A041 E1807F EC80C0 ED9FC0 EFBF7F E18041 E24180 E27F80 E2C080 EF7FBF
    F0 F1 F4 F090 F180 F48F F09080 F18080 F48FBF F0908041 F180807F F18080C0 F4808041 F1804180 F1807F80 F180C080
    F1418080 F17F8080 F3C08080
    E08080 E09FBF F0808080 F08FBFBF
    EDA080 EDBFBF
    F4908080 F4BFBFBF""".split()]

# the first and the last character of each line of Unicode's table
WELL_FORMED = [bytes.fromhex(digits) for digits in """
    00 7F C280 DFBF E0A080 E0BFBF E18080 ECBFBF ED8080 ED9FBF EE8080 EFBFBF
    F0908080 F0BFBFBF F1808080 F3BFBFBF F4808080 F48FBFBF""".split()]


def held(b, calls):
    calls = list(calls)
    return with_texts(b, calls), calls


# ---- where the pen goes


def marked():
    """P1 to P8 of document 01, the first four as texts of one character"""
    for length, stride, scale in ((9, 3, 1), (8, 3, 1), (24, 6, 2), (11, 6, 2)):
        yield text(b"0", length, stride, scale)
    for content, length, wrap in ((b"01", 36, 6), (b"01", 36, 7), (b"", 36, 7), (b"", 36, 6), (b"01", 18, None)):
        yield text(content, length, 6, wrap=wrap)


def breaks():
    """returns, newlines, skipped characters, and glyphs of every kind, with wraps at and around their widths"""
    contents = [b"", b"\r", b"\n", b"\r\n", b"\n\r", b"\n\n"]
    contents += [b"A" + content + b"A" for content in contents]
    contents += [b"\nA", b"\rA", b"A\n", b"A\r", b"AAA", b"A\n\nAA\r\nA"]
    for letter in (b"B", b"C", b"D", b"E", b"J", b"O", b"S"):
        contents += [letter, b"A" + letter + b"A"]
    contents += [b"CCC", b"CA", b"JJ\nJA", b"EB\nBE", b"ABCDEJOS"]
    skipped = ["M", " ", "\0", "\x7f", "\x80", "\xe9", "\u07ff", "\u0800", "\u20ac", "\uffff", "\U00010000",
               "\U00010041", "\U0010ffff", "\xe9\n\u20ac\r\U0001f600"]
    contents += [("A" + character + "A").encode() for character in skipped]
    for content in contents:
        for wrap in (None, 0, 3, 4, 6, 7, 10, LAST):
            yield text(content, 320, 20, wrap=wrap)


def wraps():
    """of F at each scale: at and around the place that the first glyph reaches, and the second"""
    for scale in (1, 2, 3, 4, 8):
        reached = (3 * scale, 6 * scale, 9 * scale)
        for content in (b"01", b"010", b"0\n10", b"0 \r1"):
            for wrap in (0, 1, *(n + k for n in reached for k in (-1, 0, 1)), 2 ** 32, 2 ** 63, LAST, None):
                if scale < 8 or content == b"01":
                    yield text(content, min(MOST, 6 * scale * 9 * scale), 6 * scale, scale, wrap=wrap)


def lengths():
    """every length of the buffer around the end of a text"""
    for content, stride, scale, wrap, least, most in (
            (b"01", 6, 1, None, 0, 26), (b"0\n1", 3, 1, None, 0, 20), (b"01", 12, 2, None, 0, 76),
            (b"01", 6, 1, 6, 0, 40), (b"10", 2, 1, None, 0, 12), (b"01", 1, 2, None, 0, 20),
            (b"1", 9, 3, None, 54, 90), (b"01", 24, 4, None, 225, 292), (b"01", 48, 8, None, 1120, 1156),
            (b"0\r\n1", 13, 2, None, 120, 160)):
        for length in range(least, most):
            yield text(content, length, stride, scale, wrap=wrap)


def lengths_with_pads():
    for content, stride, scale, wrap, start, most in (
            (b"BA", 7, 1, None, 2, 40), (b"OB", 5, 1, 2, 0, 70), (b"EO", 9, 1, None, 3, 50),
            (b"JBA", 11, 1, 9, 1, 80)):
        for length in range(most):
            yield text(content, length, stride, scale, start, wrap)


# ---- refusals


def refused():
    """in letters(): each number at the first character and at later ones, and of two in a text the first"""
    for letter in (b"W", b"X", b"Y", b"Z", b"K", b"L", b"N"):
        before = (b"", b"A", b"J", b"\n", b"\r\n", b"M", "\xe9".encode(), "\u20ac".encode(), "A\U0001f600".encode())
        for content in [start + letter for start in before] + [letter + b"A", b"A" + letter + b"A"]:
            yield text(content, 320, 20)
            yield text(content, 320, 20, wrap=0)
        for other in (b"W", b"K", b"L", b"N", b"\x80"):
            yield text(b"A" + letter + other, 320, 20)
        # in five pixels the first A can be drawn and the second cannot
        for content in (b"AA" + letter, b"A" + letter + b"A", letter + b"AA", b"AJ\r" + letter + b"A"):
            yield text(content, 5, 1)
            yield text(content, 5, 1, wrap=5)
    for content in (b"A", b"AA", b"JA", b"JAA", b"\xc3\xa9AA", b"A\xc3\xa9A", b"SA", b"CCA", b"A\nA", b"A\nAA",
                    b"E", b"BE"):
        for length in range(4, 16):
            yield text(content, length, 1)
    # where no row of N is drawn it needs no data, and its first row has them
    for length in range(40, 101, 4):
        yield text(b"N", length, 20, 1, 20)
        yield text(b"AN", length, 20, 1)


def without_drawing():
    """13 at the first glyph that has a bitmap"""
    for changes in ({"bitmaps__unit": 1}, {"bitmaps__unit": 2, "bitmaps__pad": 2},
                    {"bitmaps__unit": 3, "bitmaps__top": False, "bitmaps__pad": 8}):
        for content in (b"", b"A", b"J", b"JA", b"J\r\nMA", b"C", b"JC", b"D", b"JL", b"LJ", b"JN", b"KA", b"A\x80"):
            yield but(text(content, 320, 20), **changes)
            yield but(text(content, 0, 1), **changes)


def few_glyphs():
    """the bitmaps and the metrics end earlier"""
    for content in (b"A", b"AB", b"BA", b"ABE", b"EJA", b"SNA", b"NA"):
        for count in (0, 1, 2, 4, 5, 8):
            yield but(text(content, 320, 20, wrap=9), bitmaps__count=count)
            yield but(text(content, 320, 20, wrap=9), metrics__count=count)
        for size in (0, 2, 3, 5, 6, 13, 14):
            yield but(text(content, 320, 20), bitmaps__size=size)


def bounds():
    """out of range, at the ends of their range, and with lines of no height"""
    for ascent, descent, width in (
            (-1, 0, 9), (-32768, 0, 9), (-1, 1, 9), (3, 0, -1), (3, 0, -32768), (3, -4, 9), (0, -1, 9), (32767, 1, 9),
            (1, 32767, 9), (32767, -32768, 9), (3, -3, 9), (0, 0, 0), (3, 1, 0), (2, 0, 9), (4, 0, 9), (32767, 0, 9),
            (0, 32767, 32767), (1, -1, 9), (4, 3, 1)):
        changes = {"accel__maxbounds__ascent": ascent, "accel__maxbounds__descent": descent,
                   "accel__maxbounds__width": width}
        for content in (b"", b"\n\n", b"A", b"A\nA", b"O\nO", b"OO\r\n\nO", b"L", b"A\x80"):
            yield but(text(content, 200, 20), **changes)
        yield but(text(b"O\nOO", 2 ** 40, 65535, 64, 2147483647, 100), **changes)
        yield but(text(b"O\nO", 50, 5, wrap=2), **changes)


def ill_formed():
    """19 comes before all that a character or the bounds refuse, and after 6 and 15"""
    for sequence in ILL_FORMED:
        for content in (sequence, b"A" + sequence, b"L" + sequence + b"A", b"\xc3\xa9\r\n" + sequence,
                        sequence + b"A", b"A" + sequence + b"\xff"):
            yield text(content, 60, 20)
    for sequence in (b"\x80", b"A\xff"):
        yield text(sequence, 2, 1)
        yield but(text(sequence, 60, 20), accel__maxbounds__ascent=-1)
        yield but(text(sequence, 60, 0), accel__maxbounds__ascent=-1)
        yield but(text(sequence, 60, 20, 65), bitmaps__pad=3)
    for sequence in WELL_FORMED:
        yield text(b"A" + sequence + b"A", 60, 20)


def orders():
    """6, 15, 19, the bounds, a character: each before the next ones"""
    wrong = [{"bitmaps__pad": 3}, {"stride": 0}, {"text": b"L\xe2\x82"}, {"accel__maxbounds__width": -1},
             {"text": b"ML"}]
    for number, changes in enumerate(wrong):
        for others in ([], wrong[number + 1:number + 2], wrong[number + 1:]):
            both = {name: value for other in (*reversed(others), changes) for name, value in other.items()}
            for content in (b"", b"A"):
                yield but(text(content, 60, 20), **both)


def records(b):
    calls = [text(content, 18, 6) for content in (b"01", b"", b"\x80")]
    for changes in damages(b):
        yield from (but(call, **changes) for call in calls)
    for changes in fitting(b):
        yield from (but(call, **changes) for call in calls[:2])
        yield but(text(b"10", 80, 12, 2, wrap=8), **changes)


def arguments():
    """each argument at its limits and beyond, also where its lower bytes alone would pass"""
    for content in (b"01", b"", b"0\n1"):
        for length in (18, 0):
            call = text(content, length, 3)
            yield from (but(call, start=n) for n in (1, 2147483647, 2147483648, 4294967296, 2 ** 63, LAST))
            yield from (but(call, stride=n) for n in (0, 1, 2, 65535, 65536, 65539, 2 ** 32 + 3, LAST))
            yield from (but(call, scale=n) for n in (0, 1, 2, 63, 64, 65, 255, 256, 257, 2 ** 32 + 1, LAST))
            yield from (but(call, wrap=n) for n in (0, 3, 255, 256, 2 ** 32, 2 ** 32 + 3, LAST))
    # a later glyph may stand beyond the limit of the start
    for length in (2 ** 31, 2 ** 40, 2 ** 62):
        for content in (b"01", b"0\n1", b"1\n\n0"):
            yield text(content, length, 65535, 64, 2147483647)
            yield text(content, length, 3, 1, 2147483647, 4)


# ---- characters


def codes():
    """F's two glyphs under other codes: the characters are found exactly where they are decoded right"""
    for low in (0x00, 0x41, 0x7e, 0x7f, 0x80, 0xbf, 0xff, 0x3ff, 0x555, 0x7fe, 0x7ff, 0x800, 0xfff, 0x1000, 0x20ac,
                0x3fff, 0x4000, 0x5a5a, 0xa5a5, 0xd7fe, 0xe000, 0xe001, 0xfeff, 0xfffd, 0xfffe):
        characters = (low, low + 1, low, 0x10000 + low, 0x10001 + low, 0x100000 + low, low + 1)
        content = "".join(map(chr, characters)).encode()
        yield but(text(content, 60, 20), codes__low2=low, codes__high2=low + 1)
        if low >= 256 and low % 256 < 255:
            both = {"codes__low1": low // 256, "codes__high1": low // 256}
            yield but(text(content, 60, 20), **both, codes__low2=low % 256, codes__high2=low % 256 + 1)
    # as the first byte's and the second byte's alone
    yield but(text("01\u3030\u3031\u0130".encode(), 60, 20), codes__low1=0x30, codes__high1=0x31, codes__high2=0x30)


def two_bytes():
    for content in ("\u2030\u2132", "\u2030\u2031\u2132\n\u2130", "\u2131\u2132 \U00012030\u2230", "0\u20302"):
        for wrap in (None, 0, 4, 8, 9, 10):
            yield text(content.encode(), 400, 20, wrap=wrap)


def steps():
    """a step from each first byte, and through characters and what is none"""
    for first in range(256):
        yield step(bytes([first]) + b"\x90" * 3, 0)
    for first in (0xc2, 0xdf, 0xe0, 0xe1, 0xec, 0xed, 0xee, 0xef, 0xf0, 0xf1, 0xf3, 0xf4):
        edges = (0x00, 0x7f, 0x80, 0x8f, 0x90, 0x9f, 0xa0, 0xbf, 0xc0, 0xff)
        yield from (step(bytes((first, second, 0xb1, 0x9e)), 0) for second in edges)
        good = 0xaf if first == 0xe0 else 0x8f if first in (0xed, 0xf4) else 0x9f
        yield from (step(bytes((first, good, third, 0x9e)), 0) for third in edges)
        yield from (step(bytes((first, good, 0xb1, fourth)), 0) for fourth in edges)
        yield from (step(bytes((first, good, 0xb1, 0x9e))[:n], 0) for n in (1, 2, 3))
    content = "A\xe9\u20ac\U0001f600\n".encode()
    yield from (step(content, at) for at in (*range(len(content) + 3), 2 ** 32, 2 ** 63, LAST - 3, LAST))
    for sequence in WELL_FORMED + ILL_FORMED:
        yield step(b"A" + sequence, 1)
        yield step(sequence + b"A", 0)


# ---- by lot


def end_of(b, call):
    """the first place behind a text in an endless buffer"""
    try:
        _, seen = model.text_check(b, model.load(b), model.mode_of(call["mode"]), call["text"], 10 ** 9, call["start"],
                                   call["wrap"], call["stride"], call["scale"])
    except model.Refused:
        seen = []
    return max(seen, default=call["start"] + 2 * call["stride"]) + 1


def drawn_by_lot(seed, b, count, alphabet, mode=PLAIN):
    """texts of up to nine characters; buffers that end around the last pixel or around a line"""
    rng = random.Random(seed)
    others = [b"\n", b"\n", b"\r\n", b"\r", b"~", b" ", "\xe9".encode(), "\u20ac".encode(), "\U00010041".encode()]
    for _ in range(count):
        drawn = rng.sample(alphabet, 3)  # so that some texts have no refusal
        content = b"".join(rng.choice(drawn if rng.randrange(3) else others) for _ in range(rng.randrange(10)))
        if rng.randrange(20) == 0:
            content += rng.choice(ILL_FORMED) + b"A"
        scale = rng.choice((1, 1, 1, 1, 2, 2, 3, 4))
        stride = rng.choice((1, 2, 3, 5, 8 * scale, 17, 9 * scale + 3, 24))
        wrap = rng.choice((None, None, rng.randrange(12) * scale, rng.randrange(30), 17 * scale))
        call = dict(text(content, 0, stride, scale, rng.randrange(6), wrap), mode=mode)
        end = end_of(b, call)
        if rng.randrange(3):
            length = end + rng.choice((-2, -1, 0, 0, 1, stride, stride * scale))
        else:
            length = rng.randrange(end + 1) // stride * stride + rng.choice((0, 1, call["start"]))
        call = but(call, len=min(MOST, max(0, length)))
        if rng.randrange(8) == 0:
            call = but(call, **rng.choice(({"bitmaps__count": rng.randrange(9)}, {"metrics__count": rng.randrange(9)},
                                           {"accel__maxbounds__descent": rng.randrange(-3, 4)},
                                           {"accel__maxbounds__ascent": rng.randrange(6)}, {"bitmaps__unit": 2})))
        yield call


# ---- the files


def long():
    """a walk down 40,000 lines, and along 4,000 glyphs that have no bitmap"""
    down, along = b"\n" * 40000, b"01" * 2000
    for content in (down, down + b"0", down + b"0\x80"):
        yield text(content, MOST, 6)
        yield text(content, MOST, 65535, 64, 2147483647)
        yield text(content, 2 ** 62, 65535, 64, 2147483647)
        yield but(text(content, MOST, 6), accel__maxbounds__descent=-3)
    for content in (along, along + b"\n"):
        for wrap in (None, 0, 3 * 64, 300):
            yield but(text(content, MOST, 65535, 64, 2147483647, wrap), bitmaps__count=0)
        yield text(content, MOST, 65535, 64, 2147483647, 0)


def of_definitions():
    """the cases beside the model that are plain and about F, or about no font"""
    with open(CASES, encoding="ascii") as f:
        cases = [json.loads(line) for line in f]
    for case in cases:
        if "more" in case or case.get("mode", PLAIN) != PLAIN:
            continue
        if case["call"] == "draw_string" and case["font"] == 0:
            yield dict(case, text=case["text"].encode("latin-1"))
        if case["call"] == "utf8_step":
            yield step(case["text"].encode("latin-1"), case["i"])


def topics():
    f, some = two_digits(), letters()
    yield "texts", [held(f, [*marked(), *of_definitions(), *arguments()]), held(fonts.big_two_byte(), two_bytes())]
    yield "texts_breaks", [held(some, breaks())]
    yield "texts_wraps", [held(f, wraps())]
    yield "texts_lengths", [held(f, lengths()), held(some, lengths_with_pads())]
    yield "texts_refused", [held(some, [*refused(), *without_drawing(), *few_glyphs()])]
    yield "texts_bounds", [held(some, [*bounds(), *orders()])]
    yield "texts_ill_formed", [held(some, ill_formed())]
    whole = held(f, [text(b"0110", 0, 1), text(b"\x80", 0, 1)])[0]
    yield "texts_records", [(whole, records(whole))]
    yield "texts_codes", [held(f, codes())]
    yield "steps", [held(f, steps())]
    yield "texts_by_lot", [
        *(held(mixed(seed), drawn_by_lot(seed, mixed(seed), 80, [bytes([code]) for code in range(0x41, 0x4d)]))
          for seed in range(6)),
        held(some, drawn_by_lot(6, some, 160, [bytes([code]) for code in b"ABCDEOSABEJN"]))]
    yield "texts_long", [held(f, long())]
