"""Why a character is not on the glass: of the customer's reasons, in their order, the first that is true of the font,
the code, and the place in a buffer of L pixels."""
from model.codes import serve
from model.drawing import (bad_scale, bad_start_stride, block, cannot_draw, drawn_rows, lacks_data, place_of,
                           row_starts, set_bits)
from model.metrics import place_glyph
from model.record import check_record
from model.refusal import Refused

REASONS = {  # in the order in which they are given
    31: "code above 65,535",
    32: "outside the first-byte bounds",
    33: "outside the second-byte bounds",
    34: "entry 65,535",
    10: "glyph at or above the metrics count",
    11: "metrics out of range",
    12: "glyph at or above the bitmap count",
    13: "scan unit code 3, or a unit wider than the row pad",
    14: "a needed bitmap byte lies beyond the bitmap data",
    16: "a pixel to colour lies beyond the buffer",
    35: "rows cut",
    36: "no set bit in the drawn rows",
    37: "drawn",
}


def code_reason(c, code):
    """which of the first four, of a code without a glyph"""
    if code > 65535:
        return 31
    one_number = c["low1"] == 0 and c["high1"] == 0
    byte1, byte2 = code // 256, code % 256
    if not one_number and not (c["low1"] <= byte1 and byte1 <= c["high1"]):
        return 32
    second = code if one_number else byte2
    if not (c["low2"] <= second and second <= c["high2"]):
        return 33
    return 34                                # there is an entry, as tested


def glyph_reason(b, rec, g, L, start, stride, scale):
    """which of the others, and how many rows are cut if that is it, otherwise 0"""
    if g >= rec["metrics"]["count"]:
        return 10, 0
    info = place_glyph(b, rec, g)
    if info == 11:
        return 11, 0
    bm = rec["bitmaps"]
    if g >= bm["count"]:
        return 12, 0
    if cannot_draw(bm):
        return 13, 0

    p = place_of(info, start, stride, scale)
    rows = drawn_rows(info["height"], L, p, stride, scale)
    starts = row_starts(b, rec, g, info["width"], rows)
    if lacks_data(bm, starts, info["width"]):
        return 14, 0
    bits = list(set_bits(b, bm, starts, info["width"]))
    for row, column in bits:
        for q in block(p, row, column, stride, scale):
            if q >= L:
                return 16, 0
    if rows < info["height"]:
        return 35, info["height"] - rows
    if bits == []:
        return 36, 0
    return 37, 0


def why(b, rec, mode, code, L, start, stride, scale):
    """the reason's number; how many rows are cut if that is the reason, otherwise 0; the code that supplied the glyph,
    and whether that is the default. Without a glyph the reason is one of the first four, and speaks of the code asked
    for."""
    check_record(b, rec)
    if bad_start_stride(start, stride) or bad_scale(scale):
        raise Refused(15)
    served = serve(b, rec, mode, code)
    if served is None:
        return code_reason(rec["codes"], code), 0, code, False
    g, by, is_default = served
    return *glyph_reason(b, rec, g, L, start, stride, scale), by, is_default
