"""What is asked of each font of make.py, in the form of replay/calls.py: its record, that of strict loading, its
properties, accelerators and dimensions, every code, names and metrics; and the same with a record that is broken."""
import model
from fonts import make
from replay.calls import asks, but


def of_glyph(number):
    return [asks(call, g=number) for call in ("get_name", "name_bytes", "get_metrics")]


def of_codes(font, rec, found):
    """the codes with a glyph, then three without: around them, and the first with a byte more"""
    for code in found:
        yield asks("get_glyph", code=code)
        yield from of_glyph(model.lookup(font, rec, code))
    if found:
        for code in [found[0] - 1] * (found[0] > 0) + [found[-1] + 1, 65536 + found[0]]:
            yield asks("get_glyph", code=code)


def broken(end):
    """changes of the record in one way each; the end is the font's length"""
    return [
        {"codes__low2": 1, "codes__high2": 0}, {"codes__low1": 1, "codes__high1": 0}, {"codes__size": 1},
        {"codes__entries": end}, {"bitmaps__pad": 3}, {"bitmaps__offsets": end}, {"bitmaps__bits": end},
        {"metrics__records": end}, {"names__offsets": end}, {"props__count": 4294967295},
        {"props__size": 18446744073709551615},
    ]


def loaded(font):
    """a font's record, None if it does not load"""
    try:
        return model.load(font)
    except model.Refused:
        return None


def loadings(rec):
    """both ways to load a font with this record; strict loading alone where there is none, since the program tells that
    a font does not load before it is asked anything"""
    return [asks("load_pcf")] * (rec is not None) + [asks("load_strict")]


def questions(font):
    """of a font that does not load the loadings alone"""
    rec = loaded(font)
    yield from loadings(rec)
    if rec is None:
        return
    found = [code for code in range(65536) if model.lookup(font, rec, code) is not None]
    whole = [asks("accelerators"), asks("dimensions")]
    for number in range(rec["props"]["count"] + 1):
        yield asks("prop_at", code=number)
    yield from whole
    yield asks("all_codes")
    yield from of_codes(font, rec, found)
    for number in sorted({min(rec["metrics"]["count"], 65535), 65535}):
        yield from of_glyph(number)
    code = found[0] if found else 0
    for call in [asks("prop_at", code=0), *whole, asks("get_glyph", code=code), *of_glyph(0)]:
        yield but(call, names__strings=len(font) + 1, names__size=0)
    for changes in broken(len(font)):
        yield but(asks("dimensions"), **changes)


def topics():
    """a file's name, and its fonts with their calls"""
    yield "fonts", [(font, list(questions(font))) for font in make.files().values()]
    yield "fonts_of_two_formats", [(font, loadings(loaded(font))) for font in make.of_two_formats().values()]
