"""A call of the program crates/replay: a dictionary of its arguments; those that a call does not take are left
out. "rec" has what is changed in the record that loading gives, as {"bitmaps.pad": 3}; "mode" is the mode's number, the
plain one's where it is left out. A file has one font after the other: how many bytes it has, how many bytes of texts
follow it, how many calls of 64 bytes there are, the font, the texts, the calls; crates/replay/src/calls.rt says where
in a call each argument stands."""
import model

CALL = 64  # bytes of a call
DRAWING = ["draw_bitmap", "draw_glyph", "draw_char", "unpack_glyph", "prep_char", "show_glyph", "draw_string",
           "step_at"]
READING = ["load_pcf", "prop_at", "get_glyph", "get_name", "get_metrics", "dimensions", "accelerators", "name_bytes",
           "all_codes", "load_strict"]
PUTTING = ["check", "put_frame", "put_refused", "fill_bytes"]
IN_A_MODE = ["get_glyph", "prep_char", "draw_glyph", "draw_char", "unpack_glyph", "draw_string"]
PLAIN, DEFAULT = 0, 1  # the numbers of the modes
KINDS = ["change", *DRAWING, *READING, *PUTTING]
# the record's fields as crates/replay/src/changes.rt numbers them
FIELDS = """props.records props.strings props.size metrics.records bitmaps.offsets bitmaps.bits bitmaps.size
    codes.entries codes.size names.offsets names.strings names.size
    props.count metrics.count bitmaps.count names.count
    codes.low2 codes.high2 codes.low1 codes.high1 codes.default
    accel.maxbounds.width accel.maxbounds.ascent accel.maxbounds.descent
    bitmaps.pad bitmaps.unit
    metrics.big metrics.compressed bitmaps.big bitmaps.top codes.big""".split()
COLOURS = [1, 0, 4294967295, 2147483648, 99, 107, 305419896]  # none is a value that a pixel has before
MOST = 4096  # pixels; with a longer buffer the dry run alone is made
ROOM = 64  # bytes of the buffer that bytes are put into
LAST = 2 ** 64 - 1

# ---- calls


def box(glyph, width, height, pad_top=0, pad_left=0):
    return {"glyph": glyph, "width": width, "height": height, "pad_top": pad_top, "pad_left": pad_left}


def bitmap(glyph, width, height, length, stride, scale=1, start=0):
    return {"call": "draw_bitmap", "g": glyph, "width": width, "height": height,
            "len": length, "start": start, "stride": stride, "scale": scale}


def glyph(info, length, stride, scale=1, start=0):
    return {"call": "draw_glyph", "info": info, "len": length, "start": start, "stride": stride, "scale": scale}


def show(info, length, stride, scale=1, start=0):
    return {"call": "show_glyph", "info": info, "len": length, "start": start, "stride": stride, "scale": scale}


def char(code, length, stride, scale=1, start=0):
    return {"call": "draw_char", "code": code, "len": length, "start": start, "stride": stride, "scale": scale}


def unpack(info, length, stride, start=0):
    return {"call": "unpack_glyph", "info": info, "len": length, "start": start, "stride": stride}


def prep(code):
    return {"call": "prep_char", "code": code}


def asks(call, **arguments):
    """a call that reads"""
    return {"call": call, **arguments}


def frame(code, room):
    return {"call": "put_frame", "code": code, "len": room}


def refused(number, room):
    return {"call": "put_refused", "code": number, "len": room}


def fill(content, room):
    return {"call": "fill_bytes", "text": content, "len": room}


def check(content):
    return {"call": "check", "text": content}


def but(call, **arguments):
    """the call with some arguments in place of its own; a record's field is written props__size"""
    made = dict(call, rec=dict(call.get("rec", {})))
    for name, value in arguments.items():
        if "__" in name:
            made["rec"][name.replace("__", ".")] = value
        elif name in ("pad_top", "pad_left") or name in ("width", "height") and "info" in call:
            made["info"] = dict(made["info"], **{name: value})
        else:
            made[name] = value
    return made


def in_default_mode(calls):
    """those of the calls that take a mode"""
    return [dict(call, mode=DEFAULT) for call in calls if call["call"] in IN_A_MODE]


def each(info, code, length, stride):
    """one call of each kind, at scale 1"""
    return [bitmap(info["glyph"], info["width"], info["height"], length, stride), glyph(info, length, stride),
            char(code, length, stride), unpack(info, length, stride), prep(code), show(info, length, stride)]


def text(content, length, stride, scale=1, start=0, wrap=None):
    return {"call": "draw_string", "text": content, "len": length, "start": start, "wrap": wrap,
            "stride": stride, "scale": scale}


def step(content, at):
    return {"call": "step_at", "text": content, "start": at}


# ---- changes of the record


def damages(b):
    """the record broken so that 6 shows: a region one byte too late, or of a length that no file has, and so on"""
    n, rec = len(b), model.load(b)
    p, m, t, c, s = (rec[kind] for kind in ("props", "metrics", "bitmaps", "codes", "names"))
    yield {"props__records": n - 9 * p["count"] + 1}
    yield {"props__strings": n - p["size"] + 1}
    yield {"props__size": LAST}
    yield {"props__count": 4294967295}
    yield {"metrics__records": n - 5 * m["count"] + 1}
    yield {"metrics__records": LAST}
    yield {"metrics__count": 4294967295}
    yield {"metrics__compressed": False, "metrics__records": n - 12 * m["count"] + 1}
    yield {"bitmaps__offsets": n - 4 * t["count"] + 1}
    yield {"bitmaps__count": 4294967295}
    yield {"bitmaps__bits": n - t["size"] + 1}
    yield {"bitmaps__bits": LAST}
    yield {"bitmaps__size": LAST}
    for pad in (0, 3, 16, 255):
        yield {"bitmaps__pad": pad}
    yield {"codes__entries": n - c["size"] + 1}
    yield {"codes__size": c["size"] - 1}
    yield {"codes__low2": 1, "codes__high2": 0}
    yield {"codes__low1": 1}
    yield {"codes__high1": 1}
    yield {"codes__high2": 65535, "codes__high1": 65535}
    yield {"names__offsets": n - 4 * s["count"] + 1}
    yield {"names__strings": n - s["size"] + 1}
    yield {"names__size": LAST}
    yield {"names__count": 4294967295}


def fitting(b):
    """the record changed so that it still passes its test: regions that end with the font's bytes"""
    n, rec = len(b), model.load(b)
    yield {"props__records": n, "props__strings": n}
    yield {"metrics__records": n - 5 * rec["metrics"]["count"]}
    yield {"metrics__compressed": False, "metrics__records": n - 12 * rec["metrics"]["count"]}
    yield {"bitmaps__offsets": n - 4 * rec["bitmaps"]["count"]}
    yield {"bitmaps__bits": n - rec["bitmaps"]["size"]}
    yield {"bitmaps__bits": 0, "bitmaps__size": n}
    yield {"bitmaps__bits": n, "bitmaps__size": 0}
    yield {"bitmaps__size": 3}
    for pad in (2, 4, 8):
        yield {"bitmaps__pad": pad}
    yield {"bitmaps__big": True}
    yield {"bitmaps__count": 1}
    yield {"bitmaps__count": 0, "bitmaps__offsets": n}
    yield {"codes__entries": n - rec["codes"]["size"]}
    yield {"codes__big": True}
    yield {"codes__low2": 0x31}
    yield {"codes__low1": 0x20, "codes__high1": 0x20}
    yield {"metrics__count": 1}
    yield {"metrics__count": 0, "metrics__records": n}
    for ascent in (2, 4, 32767, -1):
        yield {"accel__maxbounds__ascent": ascent}
    yield {"accel__maxbounds__ascent": -32768}


# ---- in a file


def low_bytes(n, size):
    return (n % 2 ** 64).to_bytes(8, "little")[:size]


def with_texts(b, calls):
    """the bytes with the calls' texts after them, the longest first; one that stands there already serves"""
    texts = {call["text"] for call in calls if "text" in call}
    for content in sorted(texts, key=lambda content: (-len(content), content)):
        if content not in b:
            b += content
    return b


def encoded(call, k, b):
    """the call, after the changes of its record; a text is a part of the bytes"""
    for name, value in call.get("rec", {}).items():
        change = bytes([0, FIELDS.index(name)]) + bytes(6) + low_bytes(int(value), 8)
        yield change + bytes(CALL - len(change))
    info = call.get("info") or box(call.get("g", 0), call.get("width", 0), call.get("height", 0))
    code, wraps = call.get("code", 0), call.get("wrap") is not None
    if "text" in call:
        code, info = b.index(call["text"]), box(wraps, call["wrap"] if wraps else 0, len(call["text"]))
    made = bytes([KINDS.index(call["call"]), call.get("mode", PLAIN)]) + low_bytes(info["glyph"], 2)
    made += low_bytes(code, 4)
    made += low_bytes(info["width"], 8) + low_bytes(info["height"], 8)
    made += low_bytes(info["pad_top"], 2) + low_bytes(info["pad_left"], 2) + low_bytes(colour(call, k), 4)
    made += b"".join(low_bytes(call.get(name, 0), 8) for name in ("len", "start", "stride", "scale"))
    yield made


def colour(call, k):
    """of the call with this number: unpacking stores 1"""
    return 1 if call["call"] == "unpack_glyph" else COLOURS[k % len(COLOURS)]


def content(sections):
    made = b""
    for b, calls in sections:
        lent = with_texts(b, calls)
        parts = [part for k, call in enumerate(calls) for part in encoded(call, k, lent)]
        made += b"".join(low_bytes(n, 4) for n in (len(b), len(lent) - len(b), len(parts))) + lent + b"".join(parts)
    assert len(made) < 65536, len(made)
    return made
