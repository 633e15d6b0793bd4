"""The lookup of a code's glyph, plainly and in the caller's mode."""
from model.reads import u16
from model.record import check_record
from model.refusal import Refused


def lookup(b, rec, code):
    """glyph or None; plain, as vetting and the dump have it"""
    c = rec["codes"]
    if code > 65535:
        return None
    if c["low1"] == 0 and c["high1"] == 0:
        if not (c["low2"] <= code and code <= c["high2"]):
            return None
        index = code - c["low2"]
    else:
        byte1 = code // 256
        byte2 = code % 256
        if not (c["low1"] <= byte1 and byte1 <= c["high1"]):
            return None
        if not (c["low2"] <= byte2 and byte2 <= c["high2"]):
            return None
        index = (byte1 - c["low1"]) * (c["high2"] - c["low2"] + 1) + byte2 - c["low2"]
    glyph = u16(b, c["entries"] + 2 * index, c["big"])
    if glyph == 65535:
        return None
    return glyph


def serve(b, rec, mode, code):
    """glyph, the code that supplied it, and whether that is the default; or None"""
    g = lookup(b, rec, code)
    if g is not None:
        return g, code, False                # its own glyph, though it may be the default code
    if not mode.default:
        return None
    default = rec["codes"]["default"]
    g = lookup(b, rec, default)              # plainly: there is no second default
    if g is None:
        return None
    return g, default, True


def get_glyph(b, rec, mode, code):
    check_record(b, rec)
    served = serve(b, rec, mode, code)
    if served is None:
        raise Refused(9)
    return served
