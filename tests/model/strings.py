"""Properties, and names of glyphs: zero-ended strings in a table's bytes."""
from model.reads import u32
from model.record import check_record
from model.refusal import Refused


def string_at(b, start, size, offset):
    """(start in file, length) of the zero-ended string, or None (18)"""
    if offset > size:
        return None
    k = offset
    while k < size:
        if b[start + k] == 0:
            return (start + offset, k - offset)
        k = k + 1
    return None


def property_parts(b, rec, i):
    p = rec["props"]
    at = p["records"] + 9 * i
    name_off = u32(b, at, p["big"])
    flag = b[at + 4]
    value = u32(b, at + 5, p["big"])
    name = string_at(b, p["strings"], p["size"], name_off)
    if name is None:
        return None
    if flag == 0:
        return [name[0], name[1], 0, value]
    text = string_at(b, p["strings"], p["size"], value)
    if text is None:
        return None
    return [name[0], name[1], 1, text[0], text[1]]


def prop_at(b, rec, i):
    check_record(b, rec)
    if i >= rec["props"]["count"]:
        raise Refused(17)
    r = property_parts(b, rec, i)
    if r is None:
        raise Refused(18)
    return r


def name_part(b, rec, g):
    """caller has tested g < count"""
    na = rec["names"]
    off = u32(b, na["offsets"] + 4 * g, na["big"])
    return string_at(b, na["strings"], na["size"], off)


def part_of(b, start, length):
    """where a part of the bytes begins, and its bytes: those that there are"""
    start = min(start, len(b))
    return start, list(b[start:start + length])


def get_name(b, rec, g):
    check_record(b, rec)
    if g >= rec["names"]["count"]:
        raise Refused(17)
    r = name_part(b, rec, g)
    if r is None:
        raise Refused(18)
    return r


def name_bytes(b, rec, g):
    """the part that the name is; nothing, at the beginning, where it is refused"""
    try:
        return part_of(b, *get_name(b, rec, g))
    except Refused:
        return part_of(b, 0, 0)
