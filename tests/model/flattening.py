"""Answers as lists of numbers, in the order of the fields."""

METRIC_FIELDS = ["left", "right", "width", "ascent", "descent", "attributes"]
ACCEL_FIELDS = ["format", "noOverlap", "constantMetrics", "terminalFont", "constantWidth",
                "inkInside", "inkMetrics", "drawDirection", "padding", "fontAscent",
                "fontDescent", "maxOverlap"]
FIELDS = [
    ("props", ["big", "count", "records", "strings", "size"]),
    ("accel", None),
    ("metrics", ["big", "compressed", "count", "records"]),
    ("bitmaps", ["big", "count", "offsets", "bits", "size", "pad", "unit", "top"]),
    ("codes", ["big", "low2", "high2", "low1", "high1", "default", "entries", "size"]),
    ("names", ["big", "count", "offsets", "strings", "size"]),
]


def flat_metrics(m):
    return [m[f] for f in METRIC_FIELDS]


def flat_accel(a):
    return [a[f] for f in ACCEL_FIELDS] + flat_metrics(a["minbounds"]) + flat_metrics(a["maxbounds"])


def flat_record(rec):
    out = []
    for kind, fields in FIELDS:
        if kind == "accel":
            out = out + flat_accel(rec["accel"])
        else:
            out = out + [int(rec[kind][f]) for f in fields]
    return out


def flat_info(i):
    return [i["glyph"], i["width"], i["height"], i["pad_top"], i["pad_left"]]
