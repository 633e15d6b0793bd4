"""The lines that crates/reasons prints: the model's reason for a character, in words, with the font's numbers."""
import collections

import model
from model.drawing import place_of, row_starts, row_stride
from model.metrics import metrics_at, place_glyph
from panel.expected import UNSEEN

# a buffer of so many pixels, and where in it a character is asked to stand
Place = collections.namedtuple("Place", "pixels start stride scale")

DRAWN = 37
NOT_LOOKED_UP = {
    10: "a newline, which begins a new line in a text and is not looked up",
    13: "a carriage return, which does nothing in a text and is not looked up",
}


def character(code):
    """the code, and the character where there is one and it is seen"""
    no_character = 0xD800 <= code <= 0xDFFF or code > 0x10FFFF
    if no_character or any(low <= code <= high for low, high in UNSEEN):
        return "U+%04X" % code
    return "U+%04X %s" % (code, chr(code))


def plural(n, thing):
    return "%d %s%s" % (n, thing, "" if n == 1 else "s")


def at_scale(at):
    return "" if at.scale == 1 else " at scale %d" % at.scale


def of_bytes(which, low, high, byte):
    covered = "%s bytes 0x%02X to 0x%02X" % (which, low, high)
    return "the font's code table covers %s, and this code's is 0x%02X" % (covered, byte)


def of_codes(number, c, code):
    """31 to 34"""
    if number == 31:
        return "no font of this format has a glyph above U+FFFF"
    if number == 32:
        return of_bytes("first", c["low1"], c["high1"], code >> 8)
    if number == 33 and c["high1"] > 0:
        return of_bytes("second", c["low2"], c["high2"], code & 255)
    if number == 33:
        return "the font's code table covers U+%04X to U+%04X" % (c["low2"], c["high2"])
    return "the font's code table covers it, and has no glyph there"


def out_of_range(m, top):
    """11"""
    for name, value in (("width", m["width"]), ("ascent", m["ascent"]), ("left bearing", m["left"])):
        if value < 0:
            return "%s is %d, below 0" % (name, value)
    if m["ascent"] > top:
        return "ascent is %d, above the %d of the font's bounds" % (m["ascent"], top)
    assert not 0 <= m["ascent"] + m["descent"] <= 32767
    return "ascent %d and descent %d are together outside 0 to 32,767" % (m["ascent"], m["descent"])


def of_font(number, b, rec, g):
    """10 to 14"""
    bm = rec["bitmaps"]
    if number == 10:
        return "it is glyph %d, counted from 0, and the font's metrics count is %d" % (g, rec["metrics"]["count"])
    if number == 11:
        top = rec["accel"]["maxbounds"]["ascent"]
        return "it is glyph %d, whose %s" % (g, out_of_range(metrics_at(b, rec, g), top))
    if number == 12:
        return "it is glyph %d, counted from 0, and the font's bitmap count is %d" % (g, bm["count"])
    if number == 13 and bm["unit"] == 3:
        return "the font has scan unit code 3, which stands for no size"
    if number == 13:
        return "the font has scan units of %d bytes, wider than its row pad of %d" % (2 ** bm["unit"], bm["pad"])
    info = place_glyph(b, rec, g)
    [first] = row_starts(b, rec, g, info["width"], 1)
    row = row_stride(rec, info["width"])
    return "its bitmap, %d by %d pixels in rows of %s, begins at byte %d of the font's bitmap data, which has " \
        "%d bytes" % (info["width"], info["height"], plural(row, "byte"), first, bm["size"])


def of_cut(info, at, p, cut):
    """35: rows that are cut, and what is left for the others"""
    rows, pixels = info["height"] - cut, plural(at.pixels, "pixel")
    verb = "is" if cut == 1 else "are"
    words = "%d of its %d rows %s cut%s: " % (cut, info["height"], verb, at_scale(at))
    if p >= at.pixels:
        return words + "it begins at pixel %d, beyond the end of the panel, which has %s" % (p, pixels)
    lines = (at.pixels - p) // at.stride
    verb, some = "has" if at.pixels == 1 else "have", plural(lines, "whole line") if lines else "no whole line"
    words += "from pixel %d on the panel's %s %s %s of %d left" % (p, pixels, verb, some, at.stride)
    if lines and at.scale > 1:
        words += ", which count%s for %s" % ("s" if lines == 1 else "", plural(rows, "row") if rows else "no row")
    return words + (passing(info, at, p) if rows else "")


def passing(info, at, p):
    """of a glyph with a column that is not in the line that it begins in"""
    lines = {q // at.stride for q in range(p, p + info["width"] * at.scale)}
    return ", and it runs past the right end of its line" if len(lines) > 1 else ""


def of_picture(number, info, at, cut):
    """16, and 35 to 37"""
    p = place_of(info, at.start, at.stride, at.scale)
    size = "%d by %d pixels" % (info["width"], info["height"])
    where = "%s%s from pixel %d on" % (size, at_scale(at), p)
    if number == 16:
        panel = "%s in lines of %d" % (plural(at.pixels, "pixel"), at.stride)
        return "refusal 16: %s pass the end of the panel, which has %s" % (where, panel)
    if number == 35:
        return of_cut(info, at, p, cut)
    if number == 37:
        return "drawn: " + where + passing(info, at, p)
    nothing = info["width"] == 0 or info["height"] == 0
    return "blank, as a space is: " + ("its bitmap is %s" if nothing else "none of its %s is set") % size


def no_default(mode, default, code):
    """what default mode adds to 31 to 34"""
    if not mode.default:
        return ""
    if default == code:
        return "; it is the default character itself"
    return "; the default character U+%04X has no glyph either" % default


def of_code(b, rec, mode, code, at):
    """the reason's number, and the line of a code: of whom it speaks, and the reason's words"""
    number, cut, by, is_default = model.why(b, rec, mode, code, *at)
    head = character(code) + (", by the default character " + character(by) if is_default else "")
    g = model.lookup(b, rec, by)
    if number in (31, 32, 33, 34):
        words = of_codes(number, rec["codes"], code) + no_default(mode, rec["codes"]["default"], code)
    elif number in (10, 11, 12, 13, 14):
        words = "refusal %d: %s" % (number, of_font(number, b, rec, g))
    else:
        words = of_picture(number, place_glyph(b, rec, g), at, cut)
    return number, "%s: %s\n" % (head, words)


def of_text(b, rec, mode, text, at):
    """the same of each character; of one that is not looked up the number is that of a drawn one"""
    return [(DRAWN, "%s: %s\n" % (character(ord(c)), NOT_LOOKED_UP[ord(c)])) if ord(c) in NOT_LOOKED_UP
            else of_code(b, rec, mode, ord(c), at) for c in text]
