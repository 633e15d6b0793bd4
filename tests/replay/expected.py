#!/usr/bin/env python3
"""Holds crates/replay/stdout, which the program must write, to what the model of document 01 says of each
call in the files of crates/replay/data; and the files to what make.py makes. Of a character the model tells a reason
too, which has to be one that its answer to drawing leaves.

With --write the data, the arguments and the output are stored anew."""
import collections
import os
import sys

sys.path.insert(0, os.path.dirname(os.path.dirname(os.path.abspath(__file__))))

import model  # noqa: E402
import stored  # noqa: E402
from common import fail  # noqa: E402
from pcf.orders import ORDERS  # noqa: E402
from replay import beside_plain, calls, make  # noqa: E402

# every number that each call can refuse with; the recorded ones are left out, and do not stand in for the others
DRAWING = {
    "draw_bitmap": [6, 12, 13, 14, 15, 16],
    "draw_glyph": [6, 13, 14, 15, 16],
    "draw_char": [6, 9, 10, 11, 13, 14, 15, 16],
    "unpack_glyph": [6, 13, 14, 15, 16],
    "prep_char": [6, 9, 10, 11],
    "show_glyph": [13, 14, 16],
    "draw_string": [6, 10, 11, 13, 14, 15, 16, 19],
    "step_at": [19],
}
READING = {
    "load_pcf": [1, 2, 3, 4, 5, 6, 7, 8],
    "prop_at": [6, 17, 18],
    "get_glyph": [6, 9],
    "get_name": [6, 17, 18],
    "get_metrics": [6, 10],
    "dimensions": [6, 11],
    "accelerators": [6],
    "name_bytes": [],
    "all_codes": [],
    "load_strict": [1, 2, 3, 4, 5, 6, 7, 8, 27],
}
PUTTING = {
    "check": [19],
    "put_frame": [6, 9, 10, 11, 12, 13, 14, 15, 17, 18],
    "put_refused": [15],
    "fill_bytes": [15, 20],
}
IN_DEFAULT_MODE = {call: {**DRAWING, **READING}[call] for call in calls.IN_A_MODE}
# of a code that has no glyph where the default has one
OF_DEFAULT = {"get_glyph": [], "prep_char": [10, 11], "draw_char": [10, 11, 13, 14, 15, 16]}
WITHOUT_GLYPH = (31, 32, 33, 34)  # the reasons for what drawing refuses with 9
NO_SUCH_MODE = "no such mode"


# ---- what the model answers


def before(length):
    return [100 + i % 7 for i in range(length)]


def box_words(info):
    return "glyph %d, width %d, height %d, pad top %d, pad left %d" % tuple(model.flat_info(info))


def row_words(drawn, dropped):
    return "drawn %d, dropped %d" % (drawn, dropped)


def supplier_words(code, is_default):
    return ", code %d, default %d" % (code, is_default)


def mode_of(c):
    return model.mode_of(c.get("mode", calls.PLAIN))


def asked(b, rec, c):
    """the answer in words, and the pixels to colour"""
    call, mode = c["call"], mode_of(c)
    place = [c.get(name) for name in ("len", "start", "stride", "scale")]
    if call == "draw_bitmap":
        rows, pixels = model.bitmap_check(b, rec, c["g"], c["width"], c["height"], *place)
        return row_words(*rows), pixels
    if call == "draw_glyph":
        rows, pixels = model.glyph_check(b, rec, mode, c["info"], *place)
        return row_words(*rows), pixels
    if call == "draw_char":
        (info, *rows, by, is_default), pixels = model.char_check(b, rec, mode, c["code"], *place)
        return box_words(info) + ", " + row_words(*rows) + supplier_words(by, is_default), pixels
    if call == "unpack_glyph":
        rows, pixels = model.unpack_check(b, rec, mode, c["info"], *place[:3])
        return "rows %d" % rows, pixels
    if call == "draw_string":
        extent, pixels = model.text_check(b, rec, mode, c["text"], *place[:2], c["wrap"], *place[2:])
        return "height %d, dropped %d" % extent, pixels
    # show_glyph: as draw_glyph of a record that passes its test, but asks no limit
    seen = model.glyph_picture(b, rec, c["info"], *place)
    if isinstance(seen, int):
        raise model.Refused(seen)
    return row_words(*seen[:2]), seen[2]


def place_of(c):
    return [c[name] for name in ("len", "start", "stride", "scale")]


def reason(b, rec, c):
    """of a character: the number of the reason, or of the refusal to tell one; rows cut; both in words"""
    try:
        number, cut, by, is_default = model.why(b, rec, mode_of(c), c["code"], *place_of(c))
    except model.Refused as r:
        return r.number, 0, str(r)
    return number, cut, "%d, cut %d" % (number, cut) + supplier_words(by, is_default)


def left_by_drawing(b, rec, c):
    """the reasons that are left by what draw_char answers to the same call, and how many rows are cut"""
    try:
        (info, _, dropped, _, _), pixels = model.char_check(b, rec, mode_of(c), c["code"], *place_of(c))
    except model.Refused as r:
        return WITHOUT_GLYPH if r.number == 9 else (r.number,), 0
    if info["glyph"] >= rec["bitmaps"]["count"]:
        return (12,), 0
    if dropped > 0:
        return (35,), dropped
    return (37 if pixels else 36,), 0


def runs(places):
    """as 0-2,4"""
    made = []
    for i in places:
        if made and made[-1][1] == i - 1:
            made[-1][1] = i
        else:
            made.append([i, i])
    return ",".join("%d" % a if a == z else "%d-%d" % (a, z) for a, z in made) or "none"


def read_numbers(b, rec, c):
    """the answer's numbers of a call that reads"""
    call = c["call"]
    if call == "load_pcf":
        return model.flat_record(rec)
    if call == "load_strict":
        return model.flat_record(model.load(b, strict=True))
    if call == "prop_at":
        return model.prop_at(b, rec, c["code"])
    if call == "get_glyph":
        return map(int, model.get_glyph(b, rec, mode_of(c), c["code"]))
    if call == "get_name":
        return model.get_name(b, rec, c["g"])
    if call == "get_metrics":
        return model.flat_metrics(model.get_metrics(b, rec, c["g"]))
    if call == "accelerators":
        return model.flat_accel(model.get_accelerators(b, rec))
    return model.dimensions(b, rec)


def found(b, rec, c):
    """the answer in words of a call that draws nothing"""
    if c["call"] == "prep_char":
        info, by, is_default = model.prep_char(b, rec, mode_of(c), c["code"])
        return box_words(info) + supplier_words(by, is_default)
    if c["call"] == "step_at":
        step = model.utf8_step(c["text"], c["start"])
        return "end" if step is None else "code %d, next %d" % step
    if c["call"] == "all_codes":
        found = [code for code in range(65536) if model.lookup(b, rec, code) is not None]
        return "have a glyph:" + "".join(" %d" % code for code in found)
    if c["call"] == "name_bytes":
        return '"%s"' % bytes(model.name_bytes(b, rec, c["g"])[1]).decode("ascii")
    if c["call"] == "check":
        model.check(c["text"])
        return "whole"
    return " ".join(map(str, read_numbers(b, rec, c)))


def put(b, rec, c, lent):
    """how many bytes are put into the buffer, and the buffer then"""
    if c["call"] == "put_frame":
        return model.put_frame(b, rec, c["code"], lent)
    if c["call"] == "put_refused":
        return model.put_refused(c["code"], lent)
    return model.fill_bytes(c["text"], lent)


def put_words(b, rec, c):
    """the answer in words with the whole buffer, and the number that it is refused with or 0"""
    old, number = before(calls.ROOM), 0
    new = lent = old[:c["len"]]
    try:
        count, new = put(b, rec, c, lent)
        words = "bytes %d" % count
    except model.Refused as r:
        words, number = str(r), r.number
    return '%s; buffer "%s"' % (words, bytes(new + old[len(new):]).decode("ascii")), number


def line(b, rec, c, colour):
    """what is written of a call, and the number that it is refused with or 0"""
    if not model.is_known(c.get("mode", calls.PLAIN)):
        return "%-12s %s" % (c["call"], NO_SUCH_MODE), NO_SUCH_MODE
    if c["call"] in PUTTING and "len" in c:
        words, number = put_words(b, rec, c)
        return "%-12s %s" % (c["call"], words), number
    if "len" not in c:
        try:
            return "%-12s %s" % (c["call"], found(b, rec, c)), 0
        except model.Refused as r:
            return "%-12s %s" % (c["call"], r), r.number
    number, pixels = 0, []
    try:
        words, pixels = asked(b, rec, c)
    except model.Refused as r:
        words, number = str(r), r.number
    if c["len"] > calls.MOST:
        return "%-12s dry run %s" % (c["call"], words), number
    old = before(c["len"])
    places = [i for i, (was, now) in enumerate(zip(old, model.coloured(old, pixels, colour))) if was != now]
    return "%-12s %s; dry run %s; pixels %s" % (c["call"], words, words, runs(places)), number


def why_words(b, rec, c, seen):
    number, cut, words = reason(b, rec, c)
    left, dropped = left_by_drawing(b, rec, c)
    if number not in left or cut != dropped:
        fail("the model's reason is %s, its drawing leaves %s with %d rows cut: %s" % (words, left, dropped, c))
    seen["why", number] += 1
    if words.endswith(" 1"):
        seen["why by default", number] += 1
    return words


def call_line(b, rec, c, colour, seen):
    """what is written of a call; counts what it answers"""
    text, number = line(b, rec, c, colour)
    seen[c["call"], number] += 1
    if c["call"] == "draw_char" and number != NO_SUCH_MODE:
        text += "; why " + why_words(b, rec, c, seen)
    return text


def lines(b, of_font, seen):
    """what is written of a font; counts what its calls answer"""
    yield "font of %d bytes" % len(b)
    try:
        loaded = model.load(b)
    except model.Refused as r:
        seen["load_pcf", r.number] += 1
        yield "%-12s %s" % ("load_pcf", r)
        # no call is made then but strict loading, where that is the first
        loaded, of_font = None, [c for c in of_font[:1] if c["call"] == "load_strict"]
    for k, c in enumerate(of_font):
        rec = model.changed(loaded, c.get("rec", {}))
        yield call_line(b, rec, c, calls.colour(c, k), seen)


def output(inputs, seen):
    made = []
    for name, sections in inputs.items():
        made.append("== " + name)
        for b, of_font in sections:
            made += lines(b, of_font, seen)
    return "".join(text + "\n" for text in made).encode()


def one_picture(inputs):
    """how many orders one font is written in; its calls have the same answers in all"""
    fonts = [section for name, sections in inputs.items() if name.startswith("orders_in_rows_") for section in sections]
    answers = {tuple(lines(b, of_font, collections.Counter()))[1:] for b, of_font in fonts}
    if len(fonts) != len(ORDERS) or len(answers) != 1:
        fail("the model answers in %d ways about one font in %d orders" % (len(answers), len(fonts)))
    return len(fonts)


def hold_to_plain(inputs, seen):
    """how many calls in default mode answer what another call, or the same, answers in plain mode; counts those on a
    code that takes the default's glyph"""
    held, unused = 0, collections.Counter()
    for b, c in ((b, c) for sections in inputs.values() for b, of_font in sections for c in of_font):
        rec = model.changed(model.load(b), c.get("rec", {}))
        plain = beside_plain.plain_call(b, rec, c)
        if plain is None:
            continue
        lines_of_both = [call_line(b, rec, each, 1, unused) for each in (c, plain)]
        if len({*map(beside_plain.unplaced, lines_of_both)}) != 1:
            fail("not as in plain mode: %s\n  %s\n  %s" % (c, *lines_of_both))
        held += 1
        if plain.get("code") != c.get("code"):
            seen[c["call"], line(b, rec, c, 1)[1]] += 1
    return held


def check_refusals(seen, refused):
    for call, numbers in refused.items():
        shown = sorted({number for (of, number) in seen if of == call})
        if shown != [0] + numbers:
            fail("%s answers %s" % (call, shown))
        print("%s: %d answers, refused %s" % (
            call, seen[call, 0], ", ".join("%d: %d" % (number, seen[call, number]) for number in numbers) or "never"))


def check_default_reasons(seen):
    """of the default's glyph there is every reason but the first four"""
    told = {number: count for (call, number), count in seen.items() if call == "why by default"}
    if sorted(told) != sorted({*model.REASONS} - {*WITHOUT_GLYPH}):
        fail("the reasons of the default's glyph are %s" % told)
    print("why, of the default's glyph: %s" % ", ".join("%d: %d" % each for each in sorted(told.items())))


def check_reasons(seen):
    """every reason is given, and telling one is refused with 6 and 15"""
    told = {number: seen["why", number] for number in (6, 15, *model.REASONS)}
    lacks = [number for number, count in told.items() if count == 0]
    if lacks or sum(told.values()) != counted(seen, ["why"]):
        fail("no reason is %s, of %s" % (lacks, told))
    print("why: refused 6: %d, 15: %d; reasons in their order %s" % (
        told.pop(6), told.pop(15), ", ".join("%d: %d" % each for each in told.items())))


def counted(seen, kinds):
    return sum(count for (call, _), count in seen.items() if call in kinds)


def main():
    groups = drawn, read, put_in, defaults, unknown, recorded = (
        make.drawn(), make.read(), make.put(), make.by_default(), make.in_no_mode(), make.recorded())
    seen = [collections.Counter() for _ in groups]
    want = {("replay", "args"): "".join(name + "\n" for group in groups for name in group).encode(),
            ("replay", "stdout"): b"".join(map(output, groups, seen))}
    check_refusals(seen[0], DRAWING)
    check_refusals(seen[1], READING)
    check_refusals(seen[2], PUTTING)
    check_reasons(seen[0])
    print("in default mode:")
    check_refusals(seen[3], IN_DEFAULT_MODE)
    check_reasons(seen[3])
    check_default_reasons(seen[3])
    of_default = collections.Counter()
    held = hold_to_plain(defaults, of_default)
    print("of codes without a glyph, where the default has one:")
    check_refusals(of_default, OF_DEFAULT)
    write, files = sys.argv[1:] == ["--write"], make.files()
    if write:
        stored.store_data("replay", files)
    stored.hold_data("replay", files)
    stored.hold(want, write)
    print("replay: %d calls that draw in %d files, %d that read in %d, %d that put bytes or check a text in %d and %d "
          "recorded ones in %d are as made, and the output agrees with the model; the reasons of %d characters are "
          "such as drawing's answer leaves; one font in %d orders has one answer to each call" % (
              counted(seen[0], DRAWING), len(drawn), counted(seen[1], READING), len(read),
              counted(seen[2], PUTTING), len(put_in), counted(seen[5], {**DRAWING, **READING}), len(recorded),
              counted(seen[0], ["why"]) + counted(seen[5], ["why"]), one_picture(drawn)))
    print("replay: %d calls in default mode in %d files agree with the model, %d of them with one in plain mode too, "
          "and so do the reasons of %d characters with drawing's answer; %d calls in modes that there are none of are "
          "not made" % (counted(seen[3], calls.IN_A_MODE), len(defaults), held, counted(seen[3], ["why"]),
                        counted(seen[4], calls.IN_A_MODE)))


if __name__ == "__main__":
    main()
