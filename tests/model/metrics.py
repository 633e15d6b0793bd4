"""Metrics, the font's bounds, and a glyph placed by both."""
from model.codes import serve
from model.reads import bounds12
from model.record import check_record
from model.refusal import Refused


def metrics_at(b, rec, g):
    """caller has tested g < count"""
    m = rec["metrics"]
    if m["compressed"]:
        at = m["records"] + 5 * g
        return {"left": b[at] - 128, "right": b[at + 1] - 128, "width": b[at + 2] - 128,
                "ascent": b[at + 3] - 128, "descent": b[at + 4] - 128, "attributes": 0}
    return bounds12(b, m["records"] + 12 * g, m["big"])


def get_metrics(b, rec, g):
    check_record(b, rec)
    if g >= rec["metrics"]["count"]:
        raise Refused(10)
    return metrics_at(b, rec, g)


def get_accelerators(b, rec):
    check_record(b, rec)
    return rec["accel"]


def bounds_hold(rec):
    mx = rec["accel"]["maxbounds"]
    if mx["ascent"] < 0:
        return False
    if mx["width"] < 0:
        return False
    s = mx["ascent"] + mx["descent"]
    return 0 <= s and s <= 32767


def dimensions(b, rec):
    check_record(b, rec)
    if not bounds_hold(rec):
        raise Refused(11)
    mx = rec["accel"]["maxbounds"]
    return (mx["ascent"] + mx["descent"], mx["width"])


def place_glyph(b, rec, g):
    """GlyphInfo, or the refusal number 10 or 11"""
    if g >= rec["metrics"]["count"]:
        return 10
    m = metrics_at(b, rec, g)
    mx = rec["accel"]["maxbounds"]
    if m["width"] < 0 or m["ascent"] < 0 or m["left"] < 0:
        return 11
    s = m["ascent"] + m["descent"]
    if s < 0 or s > 32767:
        return 11
    if m["ascent"] > mx["ascent"]:
        return 11
    return {"glyph": g, "width": m["width"], "height": s,
            "pad_top": mx["ascent"] - m["ascent"], "pad_left": m["left"]}


def place_char(b, rec, mode, code):
    """GlyphInfo, the code that supplied the glyph, and whether that is the default; or Refused 9, 10 or 11"""
    served = serve(b, rec, mode, code)
    if served is None:
        raise Refused(9)
    g, by, is_default = served
    info = place_glyph(b, rec, g)
    if isinstance(info, int):
        raise Refused(info)
    return info, by, is_default


def prep_char(b, rec, mode, code):
    check_record(b, rec)
    return place_char(b, rec, mode, code)
