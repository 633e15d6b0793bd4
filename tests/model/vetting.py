"""Vetting: strict loading, then every property and every code."""
from model.codes import lookup
from model.drawing import cannot_draw, rows_in_data
from model.loading import load
from model.metrics import bounds_hold, place_glyph
from model.refusal import Refused
from model.strings import name_part, property_parts


def vet(b):
    rec = load(b, strict=True)
    if cannot_draw(rec["bitmaps"]):
        raise Refused(13)
    if not bounds_hold(rec):
        raise Refused(11)
    for i in range(rec["props"]["count"]):
        if property_parts(b, rec, i) is None:
            raise Refused(18, i)
    for code in range(65536):
        g = lookup(b, rec, code)
        if g is None:
            continue
        info = place_glyph(b, rec, g)
        if isinstance(info, int):
            raise Refused(info, code)
        starts = rows_in_data(b, rec, g, info["width"], info["height"], info["width"])  # not 13, as tested
        if isinstance(starts, int):
            raise Refused(starts, code)
        if g >= rec["names"]["count"]:
            raise Refused(17, code)
        if name_part(b, rec, g) is None:
            raise Refused(18, code)
    return rec
