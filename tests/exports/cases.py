"""Calls of the exported functions, and what the model of document 01 answers to each."""
import collections
import random
import struct

import model
from common import fail
from dump import make as dump
from exports import formats, layouts
from fonts import make as fonts
from model.drawing import place_of
from pcf import tables
from pcf.font_f import THREE, two_digits
from pcf.numbers import BIG, TOP
from pcf.rewriting import with_bytes, with_own_format_bit
from replay import calls, expected
from replay import make as replay

LAST = calls.LAST
# as tests/exports/replay.c numbers them
KINDS = ["thk_load", "thk_load_strict", "thk_vet", "thk_property", "thk_glyph", "thk_name", "thk_metrics", "thk_accel",
         "thk_dimensions", "thk_prep_char", "thk_draw_bitmap", "thk_draw_glyph", "thk_draw_char", "thk_why",
         "thk_unpack_glyph", "thk_draw_string", "thk_text_check", "thk_utf8_step"]
ANSWERS = {layouts.in_header(name): answer for name, (_, answer) in layouts.functions().items()}
NUMBERS = ["code", "glyph", "width", "height", "pad_top", "pad_left", "len", "start", "wrap", "stride", "scale",
           "colour", "mode"]
# those that take a mode, by itself or in a page
MODED = {"thk_vet", "thk_glyph", "thk_prep_char", "thk_draw_bitmap", "thk_draw_glyph", "thk_draw_char", "thk_why",
         "thk_unpack_glyph", "thk_draw_string", "thk_text_check"}
DEFAULT = 1  # the mode in which a code without a glyph takes the default code's


def zeros(kind):
    return 0 if kind in layouts.PLAIN else {name: zeros(of) for name, of in layouts.STRUCTS[kind]}


NO_RECORD = zeros("Record")

# ---- a call: the function, the font's bytes, the record, a text, the buffer before, and the numbers


def call(function, font=b"", rec=None, text=b"", buf=(), **numbers):
    return {"function": function, "font": font, "rec": rec or NO_RECORD, "text": text, "buf": list(buf), **numbers}


def info_of(c):
    return {name: c.get(name, 0) for name in ("glyph", "width", "height", "pad_top", "pad_left")}


def supplier(code, is_default):
    return {"code": code, "is_default": is_default}


def answered(c):
    """the answer's values, and the buffer after the call"""
    b, rec, buf, function = c["font"], c["rec"], c["buf"], c["function"]
    where = [c.get(name, 0) for name in ("start", "stride", "scale")]
    colour, mode = c.get("colour", 0), model.mode_of(c.get("mode", 0))
    if not model.is_known(c.get("mode", 0)) and function in MODED:
        if function != "thk_vet":
            model.check_record(b, rec)
        raise model.Refused(15)
    if function == "thk_load":
        return {"rec": model.load(b)}, buf
    if function == "thk_load_strict":
        return {"rec": model.load(b, strict=True)}, buf
    if function == "thk_vet":
        return {"rec": model.vet(b)}, buf
    if function == "thk_property":
        start, length, is_string, *value = model.prop_at(b, rec, c["code"])
        string = {"start": value[0], "len": value[1]} if is_string else {"start": 0, "len": 0}
        return {"name": {"start": start, "len": length}, "is_string": is_string,
                "number": 0 if is_string else value[0], "string": string}, buf
    if function == "thk_glyph":
        glyph, *by = model.get_glyph(b, rec, mode, c["code"])
        return {"glyph": glyph, "by": supplier(*by)}, buf
    if function == "thk_name":
        start, length = model.get_name(b, rec, c["glyph"])
        return {"name": {"start": start, "len": length}}, buf
    if function == "thk_metrics":
        return {"metrics": model.get_metrics(b, rec, c["glyph"])}, buf
    if function == "thk_accel":
        return {"accel": model.get_accelerators(b, rec)}, buf
    if function == "thk_dimensions":
        height, width = model.dimensions(b, rec)
        return {"extent": {"height": height, "width": width}}, buf
    if function == "thk_prep_char":
        info, *by = model.prep_char(b, rec, mode, c["code"])
        return {"info": info, "by": supplier(*by)}, buf
    if function == "thk_draw_bitmap":
        rows, new = model.draw_bitmap(b, rec, c["glyph"], c["width"], c["height"], buf, *where, colour)
        return {"rows": {"drawn": rows[0], "dropped": rows[1]}}, new
    if function == "thk_draw_glyph":
        rows, new = model.draw_glyph(b, rec, mode, info_of(c), buf, *where, colour)
        return {"rows": {"drawn": rows[0], "dropped": rows[1]}}, new
    if function == "thk_draw_char":
        (info, drawn, dropped, *by), new = model.draw_char(b, rec, mode, c["code"], buf, *where, colour)
        return {"info": info, "rows": {"drawn": drawn, "dropped": dropped}, "by": supplier(*by)}, new
    if function == "thk_why":
        number, cut, *by = model.why(b, rec, mode, c["code"], c["len"], *where)
        return {"reason": {"number": number, "cut": cut}, "by": supplier(*by)}, buf
    if function == "thk_unpack_glyph":
        rows, new = model.unpack_glyph(b, rec, mode, info_of(c), buf, *where[:2])
        return {"rows": rows}, new
    wrap = None if c.get("wrap", 0) == LAST else c.get("wrap", 0)
    if function == "thk_draw_string":
        rows, new = model.draw_string(b, rec, mode, c["text"], buf, where[0], wrap, *where[1:], colour)
        return {"rows": {"height": rows[0], "dropped": rows[1]}}, new
    if function == "thk_text_check":
        rows, _ = model.text_check(b, rec, mode, c["text"], c["len"], where[0], wrap, *where[1:])
        return {"rows": {"height": rows[0], "dropped": rows[1]}}, buf
    step = model.utf8_step(c["text"], c["start"])
    return {"found": step is not None, "code": step[0] if step else 0, "next": step[1] if step else 0}, buf


def expected_of(c):
    """the answer's numbers by their paths, and the buffer after the call"""
    kind = ANSWERS[c["function"]]
    try:
        values, buf = answered(c)
        return kind, layouts.flat(kind, {"refusal": 0, "place": 0, **values}), buf
    except model.Refused as r:
        none = {path: 0 for path, _, _ in layouts.leaves(kind)}
        return kind, {**none, ("refusal",): r.number, ("place",): r.place}, c["buf"]


def encoded(c, same_font):
    """as replay.c reads it"""
    words = [KINDS.index(c["function"]), LAST if same_font else len(c["font"]), len(c["text"]), len(c["buf"])]
    words += [c.get(name, 0) for name in NUMBERS]
    return (struct.pack("<%dQ" % len(words), *words) + layouts.put("Record", layouts.flat("Record", c["rec"]))
            + (b"" if same_font else c["font"]) + c["text"] + stored(c, c["buf"]))


def stored(c, buf):
    """the bytes of a call's buffer"""
    return struct.pack("<%d%s" % (len(buf), "B" if c["function"] == "thk_unpack_glyph" else "I"), *buf)


# ---- the calls


def drawn():
    """every call that draws of the program crates/replay whose function is exported, a text's also as a dry run; of a
    character also why"""
    for sections in replay.drawn().values():
        for b, of_font in sections:
            try:
                rec = model.load(b)
            except model.Refused:
                rec = NO_RECORD
            for k, c in enumerate(of_font):
                yield from as_exported(b, model.changed(rec, c.get("rec", {})), c, calls.colour(c, k))


def as_exported(b, rec, c, colour):
    kind, length = c["call"], c.get("len", 0)
    numbers = {name: c[name] for name in ("start", "stride", "scale", "code", "mode") if name in c}
    if kind == "step_at":
        yield call("thk_utf8_step", text=c["text"], start=c["start"])
    elif kind == "prep_char":
        yield call("thk_prep_char", b, rec, **numbers)
        yield call("thk_glyph", b, rec, **numbers)
    elif kind == "draw_string":
        numbers["wrap"] = LAST if c["wrap"] is None else c["wrap"]
        yield call("thk_text_check", b, rec, c["text"], len=length, **numbers)
        if length <= calls.MOST:
            yield call("thk_draw_string", b, rec, c["text"], expected.before(length), colour=colour, **numbers)
    elif kind != "show_glyph":
        if kind == "draw_char":
            yield call("thk_why", b, rec, len=length, **numbers)
        if length > calls.MOST:
            return
        numbers.update(c.get("info") or calls.box(c.get("g", 0), c.get("width", 0), c.get("height", 0)))
        yield call("thk_" + kind, b, rec, buf=expected.before(length), colour=colour, **numbers)


def distinct():
    """a font of whose record no two numbers of a kind are the same; its six kinds are preceded by other tables, so that
    they stand far from each other"""
    def gap(n):
        return tables.other(4096 + n, bytes(4 * n))
    form = BIG
    return tables.font([
        gap(1), tables.names(form, list(range(0, 33, 3)), b"".join(b"%02d\0" % k for k in range(11)) + b"\0"),
        gap(9), tables.codes(form, (5, 12), (2, 3), 0x1234, list(range(16))),
        gap(25), tables.properties(form, [(0, 1, 7), (13, 0, 305419896), (7, 255, 17)], b"FAMILY\0Meter\0SIZE\0"),
        gap(64), tables.accelerators(form | 512, [11, 12, 13, 14, 15, 16, 17, 18], 70001, -70002, 70003,
                                     (-21, 22, -23, 24, -25, 26), (31, 32, 33, 34, 35, 36)),
        gap(100), tables.narrow_metrics(form, [(k, k + 1, k + 2, 20, k + 4) for k in range(7)]),
        gap(5), tables.bitmaps(form | TOP | 2, [0, 4, 8, 12], [10, 20, 40, 80], bytes(range(200, 240))),
    ])


def one_big(big):
    """the two digits, with one table big-endian"""
    forms = [BIG if k == big else 0 for k in range(5)]
    return dump.digits_but(
        tables.properties(forms[0], [], b""), tables.narrow_metrics(forms[1], [THREE[:5]] * 2),
        tables.bitmaps(forms[2] | TOP, [0, 3], [6, 12, 24, 48], b"\xe0\xa0\xe0\x40\x40\x40"),
        tables.codes(forms[3], (0x30, 0x31), (0, 0), 0x30, [0, 1]), tables.names(forms[4], [0, 4], b"nil\0one\0"))


def test_fonts():
    own = {"distinct": distinct(), **{"big_%d" % k: one_big(k) for k in range(5)}}
    return {**own, **fonts.files(), **dump.font_files()}


def readings(b):
    """a font read in each way"""
    yield call("thk_load", b)
    yield call("thk_load_strict", b)
    yield call("thk_vet", b)


def read():
    """loading, vetting and every question of reading, of the fonts of other tests"""
    for b in test_fonts().values():
        yield from readings(b)
        try:
            rec = model.load(b)
        except model.Refused:
            continue
        yield from questions(b, rec)


def questions(b, rec):
    yield call("thk_accel", b, rec)
    yield call("thk_dimensions", b, rec)
    for number in sorted({0, 1, 2, 3, rec["props"]["count"], 2 ** 32 - 1}):
        yield call("thk_property", b, rec, code=number)
    for code in codes_around(rec):
        yield call("thk_glyph", b, rec, code=code)
        yield call("thk_prep_char", b, rec, code=code)
    for table, function in (("names", "thk_name"), ("metrics", "thk_metrics")):
        for glyph in sorted({0, 1, 2, 3, rec[table]["count"] % 65536, 65535}):
            yield call(function, b, rec, glyph=glyph)


def codes_around(rec):
    """codes around the corners of a code table"""
    c = rec["codes"]
    codes = {0, 0x30, 0x31, 0x41, 65535, 65536, 0x10041, 2 ** 32 - 1}
    for first, second in ((c["low1"], c["low2"]), (c["high1"], c["high2"]), (c["low1"], c["high2"])):
        codes |= {(256 * first + second + k) % 2 ** 32 for k in (-1, 0, 1)}
    return sorted(codes)


def wrong_records():
    """every question with records that do not fit, or fit though no loading gave them"""
    for b in (two_digits(), distinct()):
        rec = model.load(b)
        for change in [*calls.damages(b), *calls.fitting(b)]:
            made = model.changed(rec, {path.replace("__", "."): value for path, value in change.items()})
            yield call("thk_accel", b, made)
            yield call("thk_dimensions", b, made)
            for code in (0, 0x30, 0x205):
                yield call("thk_glyph", b, made, code=code)
                yield call("thk_prep_char", b, made, code=code)
                yield call("thk_why", b, made, code=code, len=99, start=0, stride=9, scale=1)
            for number in (0, 1):
                yield call("thk_name", b, made, glyph=number)
                yield call("thk_metrics", b, made, glyph=number)
                yield call("thk_property", b, made, code=number)


def empty():
    """nothing lent: no font, no text, no buffer, each for itself and together"""
    f = two_digits()
    rec = model.load(f)
    for b, of_font in ((f, rec), (b"", rec), (b"", NO_RECORD)):
        where = {"start": 0, "stride": 3, "scale": 1, "colour": 5}
        box = {"glyph": 1, "width": 3, "height": 3}
        yield from readings(b)
        yield from questions(b, of_font)
        for buf in ([], [7] * 9):
            yield call("thk_draw_bitmap", b, of_font, buf=buf, **box, **where)
            yield call("thk_draw_glyph", b, of_font, buf=buf, **box, **where)
            yield call("thk_draw_char", b, of_font, buf=buf, code=0x31, **where)
            yield call("thk_why", b, of_font, len=len(buf), code=0x31, **where)
            yield call("thk_unpack_glyph", b, of_font, buf=buf, **box, **where)
            for text in (b"", b"01"):
                for wrap in (0, LAST):
                    yield call("thk_draw_string", b, of_font, text, buf, wrap=wrap, **where)
                    yield call("thk_text_check", b, of_font, text, len=len(buf), wrap=wrap, **where)
    for i in (0, 1, LAST):
        yield call("thk_utf8_step", text=b"", start=i)


def orders_by_lot():
    """fonts whose rows have any order, half of them with a byte changed: vetted, drawn from and unpacked"""
    for seed in range(1000, 1120):
        rng, b = random.Random(seed), dump.by_lot(seed)
        if rng.randrange(2):
            b = with_bytes(b, rng.randrange(8, len(b)), rng.randbytes(1))
        yield from readings(b)
        try:
            rec = model.load(b)
        except model.Refused:
            continue
        where = {"start": 0, "stride": rng.choice((8, 17, 48)), "scale": 1, "colour": 5}
        for glyph in range(5):
            box = {"glyph": glyph, "width": rng.randrange(42), "height": rng.randrange(4)}
            yield call("thk_draw_bitmap", b, rec, buf=[7] * rng.randrange(200), **box, **where)
            yield call("thk_unpack_glyph", b, rec, buf=[7] * rng.randrange(200), **box, **where)
        yield call("thk_draw_string", b, rec, b"abcd", [7] * rng.randrange(100, 900), wrap=LAST, **where)


def unknown_modes():
    """every call that takes a mode, in some that are not there: with records that fit and that do not, with arguments
    within their limits and without, of texts that are UTF-8 and that are not"""
    f = two_digits()
    rec = model.load(f)
    unfit = model.changed(rec, {"names.strings": LAST})
    for mode in (2, 3, 256, 2 ** 31, 2 ** 31 + 1, 2 ** 32 - 1):
        yield call("thk_vet", f, mode=mode)
        yield call("thk_vet", f[:100], mode=mode)
        yield call("thk_vet", with_own_format_bit(f, 0, 0), mode=mode)
        for of_font in (rec, unfit):
            for code in (0x30, 0x32):
                yield call("thk_glyph", f, of_font, code=code, mode=mode)
                yield call("thk_prep_char", f, of_font, code=code, mode=mode)
            for stride in (0, 6, 65536):
                page = {"start": 0, "stride": stride, "scale": 1, "colour": 5, "mode": mode}
                box = {"glyph": 1, "width": 3, "height": 3}
                yield call("thk_draw_bitmap", f, of_font, buf=[7] * 30, **box, **page)
                yield call("thk_draw_glyph", f, of_font, buf=[7] * 30, **box, **page)
                yield call("thk_draw_char", f, of_font, buf=[7] * 30, code=0x31, **page)
                yield call("thk_why", f, of_font, len=30, code=0x31, **page)
                yield call("thk_unpack_glyph", f, of_font, buf=[7] * 30, **box, **page)
                for text in (b"01", b"0\xff"):
                    yield call("thk_draw_string", f, of_font, text, [7] * 30, wrap=LAST, **page)
                    yield call("thk_text_check", f, of_font, text, len=30, wrap=LAST, **page)


def two_formats():
    """fonts in which the two formats of a table differ, or agree though they are odd"""
    for b in [*formats.one_bit(), *formats.together(), *formats.alike()]:
        yield from readings(b)


def reasons():
    """why: of codes of every font, on pages by lot that end around a row or a pixel of their glyph; of F with each
    number around its limits"""
    rng = random.Random(1)
    for b in test_fonts().values():
        try:
            rec = model.load(b)
        except model.Refused:
            continue
        for code in codes_around(rec):
            yield call("thk_why", b, rec, code=code, **page_by_lot(rng, b, rec, code))
    f = two_digits()
    rec = model.load(f)
    limits = {"start": (0, 2 ** 31 - 1, 2 ** 31, LAST), "stride": (0, 1, 65535, 65536, LAST),
              "scale": (0, 1, 64, 65, LAST), "len": (0, 8, 9, LAST), "code": (0x2f, 0x30, 0x31, 0x32, 65535, 65536)}
    for of_font in (rec, model.changed(rec, {"names.strings": LAST})):
        for name, values in limits.items():
            for value in values:
                for code in (0x30, 65536):
                    page = {"start": 0, "stride": 3, "scale": 1, "len": 9, "code": code}
                    yield call("thk_why", f, of_font, **{**page, name: value})


# default codes for F, whose codes are 0x30 and 0x31: with a glyph, just outside the bounds, and far from them
DEFAULTS_OF_F = [{"codes.default": code} for code in (0x30, 0x31, 0x2f, 0x32, 0, 0x130, 65535)]
# what the glyph of 0x31 may lack
LACKS = [{"codes.default": 0x31, **lack} for lack in (
    {"metrics.count": 1}, {"accel.maxbounds.ascent": 2}, {"bitmaps.count": 1}, {"bitmaps.unit": 3},
    {"bitmaps.size": 5})]
TEXTS = (b"", b"0\xc3\xa91", b"\xf0\x9f\x92\xa11\r\n\xef\xbf\xbf0", b"\r\n", b"caf\xc3\xa9\n2\r3", b"\xc3\xa9\xff")


def default_codes():
    """records with every sort of default code: with a glyph, which may lack something, with an empty entry, outside the
    bounds of the first byte or of the second; codes with a glyph and without; in both modes"""
    f, big = two_digits(), fonts.big_two_byte()
    of_f, of_big = model.load(f), model.load(big)
    emptied = with_bytes(f, of_f["codes"]["entries"], b"\xff\xff")
    for changes in [*DEFAULTS_OF_F, *LACKS]:
        made = model.changed(of_f, changes)
        yield from looked_up(f, made, (0x30, 0x31, 0x32, 10, 13, 65535, 65536, 0x10031, 2 ** 32 - 1))
        yield from looked_up(emptied, made, (0x30, 0x31, 0x32))
    for default in codes_around(of_big):
        if default <= 65535:
            yield from looked_up(big, model.changed(of_big, {"codes.default": default}), codes_around(of_big))


def looked_up(b, rec, codes):
    """every call that looks codes up, in both modes"""
    page = {"start": 0, "stride": 12, "scale": 1, "colour": 5}
    for mode in (0, DEFAULT):
        for code in codes:
            yield call("thk_glyph", b, rec, code=code, mode=mode)
            yield call("thk_prep_char", b, rec, code=code, mode=mode)
            yield call("thk_draw_char", b, rec, buf=[7] * 60, code=code, mode=mode, **page)
            yield call("thk_why", b, rec, len=60, code=code, mode=mode, **page)
        for text in TEXTS:
            yield call("thk_draw_string", b, rec, text, [7] * 150, wrap=7, mode=mode, **page)
            yield call("thk_text_check", b, rec, text, len=150, wrap=LAST, mode=mode, **page)


# how F comes to have each reason: what is changed of its record, and of the question for '0' on 9 pixels
OF_F = {
    31: ({}, {"code": 65536}), 32: ({"codes.low1": 1, "codes.high1": 1}, {}), 33: ({}, {"code": 0x32}), 34: ({}, {}),
    10: ({"metrics.count": 0}, {}), 11: ({"accel.maxbounds.ascent": 2}, {}), 12: ({"bitmaps.count": 0}, {}),
    13: ({"bitmaps.unit": 3}, {}), 14: ({"bitmaps.size": 2}, {}), 16: ({}, {"len": 24, "stride": 6, "scale": 2}),
    35: ({}, {"len": 8}), 36: ({"bitmaps.bits": 0x68}, {}), 37: ({}, {}),
}


def reasons_of_f():
    """F with each reason, plainly and in default mode; 34 by its first entry, which is emptied. In default mode the
    first four are asked for with a default code outside the bounds, and the others of a code that '0' stands in for"""
    f = two_digits()
    for number, (changes, asked) in OF_F.items():
        rec = model.load(f)
        b = with_bytes(f, rec["codes"]["entries"], b"\xff\xff") if number == 34 else f
        page = {"code": 0x30, "len": 9, "start": 0, "stride": 3, "scale": 1, **asked}
        changes, in_default = {**changes, "codes.default": 0x30}, {"mode": DEFAULT, "code": 65536}
        if number in (31, 32, 33, 34):
            changes, in_default = {**changes, "codes.default": 0x40}, {"mode": DEFAULT}
        for more in ({}, in_default):
            c = call("thk_why", b, model.changed(rec, changes), **{**page, **more})
            if answered(c)[0]["reason"]["number"] != number:
                fail("F is not asked so that its reason is %d" % number)
            yield c


def page_by_lot(rng, b, rec, code):
    """numbers of a page that ends around a row or a pixel of a code's glyph, if it has one that can be placed"""
    where = {"start": rng.choice((0, 0, 1, 50)), "stride": rng.choice((1, 3, 8, 33)), "scale": rng.choice((1, 1, 2, 5))}
    try:
        info, _, _ = model.prep_char(b, rec, model.PLAIN, code)
    except model.Refused:
        return {**where, "len": rng.randrange(100)}
    first = place_of(info, **where)
    rows = rng.randrange(info["height"] * where["scale"] + 2)
    return {**where, "len": max(0, first + rows * where["stride"] + rng.choice((-1, 0, 1, info["width"])))}


def lacks_glyph(c):
    """whether a code that the call looks up has no glyph"""
    b, rec = c["font"], c["rec"]
    try:
        model.check_record(b, rec)
    except model.Refused:
        return False
    codes = {c["code"]} if "code" in c else set(map(ord, c["text"].decode(errors="ignore"))) - {10, 13}
    return any(model.lookup(b, rec, code) is None for code in codes)


def in_default_mode_too(calls):
    """those in which a code has no glyph once more in default mode, and one in eight of the others that take a mode"""
    others = collections.Counter()
    for c in calls:
        yield c
        if c["function"] in MODED and c.get("mode", 0) == 0:
            others[c["function"]] += 1
            if lacks_glyph(c) or others[c["function"]] % 8 == 1:
                yield {**c, "mode": DEFAULT}


def all_calls():
    for group in (read, wrong_records, empty, orders_by_lot, two_formats, reasons, drawn):
        yield from in_default_mode_too(group())
    for group in (unknown_modes, default_codes, reasons_of_f):
        yield from group()
