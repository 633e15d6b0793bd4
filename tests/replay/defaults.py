"""What is called in default mode: a file's name, and its fonts with their calls; and calls in modes that there are none
of. A font's default code is its own, or is changed in the record."""
import os
import random

import model
from common import ROOT
from fonts import make as fonts
from pcf.font_f import two_digits
from pcf.numbers import TOP
from replay import glyphs, reasons, texts
from replay.boxes import letters, mixed
from replay.calls import (DEFAULT, DRAWING, IN_A_MODE, LAST, MOST, asks, box, but, char, damages, fitting, glyph,
                          in_default_mode, prep, text, unpack)
from replay.orders import OTHER

LETTERS = b"ABCDEJKLMNOSWXYZ"  # of letters(), which says what becomes of each
PLACES = ((320, 20, 1), (0, 20, 1), (45, 20, 1), (5, 1, 1), (640, 40, 2), (140, 40, 2))


def with_default(call, code):
    return but(call, codes__default=code)


# ---- codes


def edges(first, second):
    """in coded(): a code with a glyph and its four neighbours, of which one has none and one a glyph that is none;
    then one outside in its second byte or as a number, one in its first byte, and some above 65,535"""
    start = 256 * first[0] + second[0]
    outside = [256 * first[0] + second[1] + 1, 256 * (first[1] + 1) + second[0], start - 1]
    return [*range(start, start + 4), *(code for code in outside if code >= 0), 65535, 65536 + start, 2 ** 32 - 1]


def by_codes(first, second):
    """each code with every other of them as the default, by turns in the three calls that answer about a code"""
    turns = (lambda code: asks("get_glyph", code=code), prep, lambda code: char(code, 9, 3))
    for k, code in enumerate(edges(first, second)):
        for n, default in enumerate(c for c in edges(first, second) if c <= 65535):
            if (k + n) % 2 == 0:
                yield with_default(turns[(k + n) // 2 % 3](code), default)


# ---- a character


def by_letters():
    """a code without a glyph, in the table, beside it or above all, that takes each letter: in room enough, in none,
    with rows cut and with pixels beyond; then each letter itself, where the default is another one, and two bytes"""
    for default in (9, 10, 13, *LETTERS, 0x5b, 0x2141, 65535):
        for k, place in enumerate(PLACES):
            yield with_default(char((0x4d, 0x5b, 9, 0x10041, LAST % 2 ** 32)[k % 5], *place), default)
    for k, letter in enumerate(LETTERS):
        yield with_default(char(letter, *PLACES[0]), LETTERS[k - 1])
        yield with_default(char(letter, *PLACES[0]), letter)
        yield with_default(prep(letter), LETTERS[k - 1])
        yield with_default(prep(0x4d), letter)
        call = char(256 * 0x21 + 0x4d, *PLACES[k % 6])
        yield but(call, codes__low1=0x21, codes__high1=0x21, codes__default=256 * 0x21 + letter)
        yield but(call, codes__low1=0x21, codes__high1=0x21, codes__default=letter)


def order_of_refusals():
    """6, 15, then what the default's glyph lacks, 9 to 16, of two that are true the first"""
    lacks = [{"codes__default": 0x32}, {"metrics__count": 0}, {"accel__maxbounds__ascent": 2}, {"bitmaps__unit": 3},
             {"bitmaps__size": 2}, {"len": 4, "stride": 1}]
    before = [{}, {"bitmaps__pad": 3}, {"stride": 0}, {"scale": 65}, {"bitmaps__count": 0}]
    for code in (0x2f, 65536):
        for number, changes in enumerate(lacks):
            for first in before:
                yield but(char(code, 9, 3), **{**changes, **first})
            for later in lacks[number + 1:]:
                yield but(char(code, 9, 3), **{**later, **changes})
            if "len" not in changes:
                yield but(prep(code), **changes)


def by_records(b):
    """6 before the default, and records that pass their test; the default may be what such a record makes of it"""
    nil = box(0, 3, 3)
    calls = [asks("get_glyph", code=0x2f), prep(65536), char(0x32, 9, 3), text(b"0 1", 40, 10), glyph(nil, 9, 3),
             unpack(nil, 9, 3)]
    for changes in damages(b):
        yield from (but(call, **changes) for call in calls)
    for changes in fitting(b):
        yield from (but(call, **changes) for call in calls[1:4])


def by_lot(seed, b, count):
    """a character without a glyph, in buffers that end around the last pixel of the default's, or around a line"""
    rng = random.Random(seed)
    for call in glyphs.drawn_by_lot(seed, b, 9 * count):
        if call["call"] == "draw_char":
            code = rng.choice((0x40, 0x4d, 0x5a, 0xffff, 0x10041))
            yield with_default(dict(call, code=code), call["code"])


# ---- a text


def of_letters(default):
    """texts with characters that have no glyph, at the start, in the middle and at the end of lines, beside returns and
    newlines, which are looked up in no mode"""
    skipped = ("M", "\xe9", "\u20ac", "\U00010041", "\U0010ffff")
    for k, content in enumerate(("%s", "A%sA", "%s%s", "%s\nA%s", "A%s\r\n%sB", "\r%s\n\n", "A\nB\rA", "E%sE")):
        content = content.replace("%s", skipped[(k + default) % 5]).encode()
        for wrap in (None, 7) if k % 2 else (None,):
            yield with_default(text(content, 320, 20, wrap=wrap), default)
    yield with_default(text(b"MAM", 5 + default % 7, 1), default)
    yield with_default(text(b"AMMA", 400, 40, 2, wrap=17), default)


def refused_texts():
    """at the first character that takes a default which is refused, or before it; 6, 15 and 19 before all"""
    for letter in b"WXYZKLN":
        for content in (b"M", b"AM", b"AMN", b"NM", b"\n\rM", b"JM", "A\xe9".encode(), "\U0001f600A".encode(), b"MM"):
            yield with_default(text(content, 320, 20), letter)
        yield with_default(text(b"AAM", 5, 1), letter)
        yield with_default(text(b"MAA", 5, 1), letter)
        yield with_default(text(b"M\x80", 320, 20), letter)
        yield with_default(but(text(b"M", 320, 20), stride=0), letter)
        yield with_default(but(text(b"M\x80", 320, 20), bitmaps__pad=3), letter)
        yield with_default(but(text(b"M", 320, 20), accel__maxbounds__width=-1), letter)
    for length in range(0, 70, 3):
        yield with_default(text(b"M\nM", length, 20), 0x41)
        yield with_default(text(b"MM", length, 1), 0x41)
    for changes in ({"bitmaps__unit": 1}, {"bitmaps__unit": 3, "bitmaps__pad": 8}, {"bitmaps__count": 0},
                    {"bitmaps__size": 2}, {"metrics__count": 0}):
        for content in (b"M", b"JM", b"\nM", b"MJ"):
            yield but(text(content, 320, 20), codes__default=0x41, **changes)


def of_definitions():
    """the cases beside the model, characters with their reasons, then texts"""
    yield from glyphs.of_definitions([*DRAWING, "get_glyph"], DEFAULT)
    yield from reasons.of_definitions(DEFAULT)
    for b, cases in glyphs.cases_of_fonts(["draw_string"], DEFAULT):
        chosen = [dict(c, text=c["text"].encode("latin-1")) for c in cases if "more" not in c]
        if chosen:
            yield texts.held(b, chosen)


# ---- fonts as they are


def meter():
    with open(os.path.join(ROOT, "meter-font", "meter.pcf"), "rb") as f:
        return f.read()


def as_they_are(b):
    """codes at and around the ends of the table and the default, which is the font's own"""
    c = model.load(b)["codes"]
    near = [c["default"], 256 * c["low1"] + c["low2"], 256 * c["high1"] + c["high2"], 256 * c["low1"] + c["high2"] + 1]
    for code in sorted({n + k for n in near for k in (-1, 0, 1) if n + k >= 0} | {65535, 65536, 65536 + c["default"]}):
        yield asks("get_glyph", code=code)
        yield prep(code)
        yield char(code, 300, 20)


def metered():
    """the meter's texts, with the default that its font has, and with one that has no glyph"""
    for content in ("21.5 \xb0C", "\u20ac 3,50", "a\u2009b\U0001f600c", "kWh\r\n\u2192\n\u2190", "?\xb6?"):
        for scale, wrap in ((1, None), (1, 30), (2, 40)):
            call = text(content.encode(), MOST, 64, scale, wrap=wrap)
            yield call
            yield with_default(call, 0x7f)


# ---- modes that there are none of


def unknown_modes():
    """each call that takes a mode, in modes that have a bit without a meaning"""
    nil = box(0, 3, 3)
    calls = [asks("get_glyph", code=0x30), prep(0x2f), glyph(nil, 9, 3), char(0x30, 9, 3), unpack(nil, 9, 3),
             text(b"01", 36, 6)]
    assert {call["call"] for call in calls} == {*IN_A_MODE}
    yield from (dict(call, mode=mode) for call in calls for mode in (2, 3, 128, 255))
    yield from (but(call, mode=2, bitmaps__pad=3, stride=0) for call in calls if "stride" in call)


# ---- the files


def topics():
    f, some = two_digits(), letters()
    whole = texts.held(f, [text(b"0 1", 0, 1)])[0]
    alphabet = [bytes([code]) for code in range(0x41, 0x4d)]
    lots = [mixed(seed, bits) for seed, bits in enumerate([TOP] * 3 + OTHER, 80)]
    made = [
        ("default_codes", [(reasons.coded(*bounds), by_codes(*bounds)) for bounds in reasons.BOUNDS]),
        ("default_letters", [(some, by_letters())]),
        ("default_refusals", [(f, [*order_of_refusals(), *glyphs.refusals()])]),
        ("default_records", [(whole, by_records(whole))]),
        ("default_limits", [(f, [*reasons.limits(), *(dict(call, code=0x32) for call in reasons.farthest())])]),
        ("default_by_lot", [(b, by_lot(seed, b, 15)) for seed, b in enumerate(lots, 80)]),
        ("default_texts", [texts.held(some, [call for default in (9, 10, 13, *LETTERS, 0x5b, 0xd800, 0xffff)
                                             for call in of_letters(default)])]),
        ("default_texts_refused", [texts.held(some, [*refused_texts(), *texts.orders()])]),
        ("default_texts_by_lot", [texts.held(b, texts.drawn_by_lot(seed, b, 30, alphabet, DEFAULT))
                                  for seed, b in enumerate(lots, 90)]),
        ("default_of_fonts", [*((b, as_they_are(b)) for b in (f, fonts.big_two_byte(), fonts.wide(), fonts.repeated())),
                              texts.held(meter(), [*as_they_are(meter()), *metered()])]),
        ("default_definitions", of_definitions()),
    ]
    for name, sections in made:
        yield name, [(b, in_default_mode(calls)) for b, calls in sections]


def without_mode():
    f = two_digits()
    yield "modes_unknown", [texts.held(f, unknown_modes())]
