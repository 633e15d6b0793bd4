"""The record that a call is given: the test that every call makes of it (6), and records that are made up."""
import copy

from model.refusal import Refused


def changed(rec, changes):
    """a copy of the record with some fields set, as {"codes.size": 3}"""
    made = copy.deepcopy(rec)
    for path, value in changes.items():
        *parts, last = path.split(".")
        at = made
        for part in parts:
            at = at[part]
        at[last] = value
    return made


def check_record(b, rec):
    n = len(b)
    p, m, bm, c, na = rec["props"], rec["metrics"], rec["bitmaps"], rec["codes"], rec["names"]
    regions = [
        (p["records"], 9 * p["count"]),
        (p["strings"], p["size"]),
        (m["records"], (5 if m["compressed"] else 12) * m["count"]),
        (bm["offsets"], 4 * bm["count"]),
        (bm["bits"], bm["size"]),
        (c["entries"], c["size"]),
        (na["offsets"], 4 * na["count"]),
        (na["strings"], na["size"]),
    ]
    for (start, length) in regions:
        if start + length > n:
            raise Refused(6)
    if c["low2"] > c["high2"]:
        raise Refused(6)
    if c["low1"] > c["high1"]:
        raise Refused(6)
    if 2 * (c["high2"] - c["low2"] + 1) * (c["high1"] - c["low1"] + 1) > c["size"]:
        raise Refused(6)
    if bm["pad"] not in (1, 2, 4, 8):
        raise Refused(6)
