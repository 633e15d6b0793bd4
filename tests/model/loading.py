"""Loading: the directory and the six tables, and refusals 1 to 8; strict loading refuses 27 besides."""
from model.reads import bit, bounds12, i32, u16, u32
from model.refusal import Refused

KNOWN = (1, 2, 4, 8, 32, 128, 256)  # the types of the tables that are read


def load(b, strict=False):
    n = len(b)
    if n < 8:
        raise Refused(1)
    if b[0] != 0x01 or b[1] != 0x66 or b[2] != 0x63 or b[3] != 0x70:
        raise Refused(2)
    entries = u32(b, 4, False)
    if entries > 64:
        raise Refused(3)
    if 8 + 16 * entries > n:
        raise Refused(4)
    found = {"props": None, "accel": None, "metrics": None,
             "bitmaps": None, "codes": None, "names": None}
    for e in range(entries):
        at = 8 + 16 * e
        typ = u32(b, at, False)
        fmt = u32(b, at + 4, False)
        size = u32(b, at + 8, False)
        off = u32(b, at + 12, False)
        if off > n:
            raise Refused(5, e)
        end = off + size
        if end > n:
            end = n
        if strict and typ in KNOWN:
            need(e, off, end, 4)
            if u32(b, off, False) != fmt:
                raise Refused(27, e)
        if typ == 1:
            found["props"] = load_props(b, e, off, end)
        elif typ == 2 or typ == 256:
            found["accel"] = load_accel(b, e, off, end)
        elif typ == 4:
            found["metrics"] = load_metrics(b, e, off, end, fmt)
        elif typ == 8:
            found["bitmaps"] = load_bitmaps(b, e, off, end)
        elif typ == 32:
            found["codes"] = load_codes(b, e, off, end)
        elif typ == 128:
            found["names"] = load_names(b, e, off, end)
    for kind in ("props", "accel", "metrics", "bitmaps", "codes", "names"):
        if found[kind] is None:
            raise Refused(8)
    return found


def need(e, off, end, upto):
    """the table's contents reach `upto` bytes from its start"""
    if off + upto > end:
        raise Refused(6, e)


def load_props(b, e, off, end):
    need(e, off, end, 8)
    big = bit(u32(b, off, False), 4)
    count = u32(b, off + 4, big)
    after = 8 + 9 * count
    while after % 4 != 0:
        after = after + 1
    need(e, off, end, after + 4)
    size = u32(b, off + after, big)
    need(e, off, end, after + 4 + size)
    return {"big": big, "count": count, "records": off + 8,
            "strings": off + after + 4, "size": size}


def load_accel(b, e, off, end):
    need(e, off, end, 48)
    fmt = u32(b, off, False)
    big = bit(fmt, 4)
    return {
        "format": fmt,
        "noOverlap": b[off + 4],
        "constantMetrics": b[off + 5],
        "terminalFont": b[off + 6],
        "constantWidth": b[off + 7],
        "inkInside": b[off + 8],
        "inkMetrics": b[off + 9],
        "drawDirection": b[off + 10],
        "padding": b[off + 11],
        "fontAscent": i32(b, off + 12, big),
        "fontDescent": i32(b, off + 16, big),
        "maxOverlap": i32(b, off + 20, big),
        "minbounds": bounds12(b, off + 24, big),
        "maxbounds": bounds12(b, off + 36, big),
    }


def load_metrics(b, e, off, end, fmt):
    big = bit(fmt, 4)
    compressed = bit(fmt, 256)
    if compressed:
        need(e, off, end, 6)
        count = u16(b, off + 4, big)
        need(e, off, end, 6 + 5 * count)
        records = off + 6
    else:
        need(e, off, end, 8)
        count = u32(b, off + 4, big)
        need(e, off, end, 8 + 12 * count)
        records = off + 8
    return {"big": big, "compressed": compressed, "count": count, "records": records}


def load_bitmaps(b, e, off, end):
    need(e, off, end, 8)
    fmt = u32(b, off, False)
    big = bit(fmt, 4)
    count = u32(b, off + 4, big)
    need(e, off, end, 8 + 4 * count + 16)
    pick = fmt % 4
    size = u32(b, off + 8 + 4 * count + 4 * pick, big)
    need(e, off, end, 8 + 4 * count + 16 + size)
    return {"big": big, "count": count, "offsets": off + 8,
            "bits": off + 8 + 4 * count + 16, "size": size,
            "pad": (1, 2, 4, 8)[pick], "unit": (fmt // 16) % 4, "top": bit(fmt, 8)}


def load_codes(b, e, off, end):
    need(e, off, end, 14)
    big = bit(u32(b, off, False), 4)
    low2 = u16(b, off + 4, big)
    high2 = u16(b, off + 6, big)
    low1 = u16(b, off + 8, big)
    high1 = u16(b, off + 10, big)
    default = u16(b, off + 12, big)
    if low2 > high2 or low1 > high1:
        raise Refused(7, e)
    entries = (high2 - low2 + 1) * (high1 - low1 + 1)
    need(e, off, end, 14 + 2 * entries)
    return {"big": big, "low2": low2, "high2": high2, "low1": low1, "high1": high1,
            "default": default, "entries": off + 14, "size": 2 * entries}


def load_names(b, e, off, end):
    need(e, off, end, 8)
    big = bit(u32(b, off, False), 4)
    count = u32(b, off + 4, big)
    need(e, off, end, 8 + 4 * count + 4)
    size = u32(b, off + 8 + 4 * count, big)
    need(e, off, end, 8 + 4 * count + 4 + size)
    return {"big": big, "count": count, "offsets": off + 8,
            "strings": off + 8 + 4 * count + 4, "size": size}
