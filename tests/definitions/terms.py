"""A case as an equation between terms: what the definitions say of it, and what the model says."""
import os
import re

import model
from definitions.answers import answer, mode_of, text_of

NO_FONT = ("utf8_step", "check", "hex_read", "fill_bytes", "put_refused", "dump", "plain", "is_known", "mode_of")
NO_RECORD = NO_FONT + ("load", "load_strict", "vet", "part_of")

with open(os.path.join(os.path.dirname(os.path.abspath(__file__)), "seen.txt"), encoding="utf-8") as f:
    SEEN = f.read()
OWN = re.findall(r"^(\w+) :", SEEN, re.M)  # what seen.txt defines


def numbers(xs):
    return "(" + "".join(f"{x} ∷ " for x in xs) + "[])"


def whole(x):
    return f"pos {x}" if x >= 0 else f"negsuc {-x - 1}"


def field(name, value):
    if isinstance(value, bool):
        return f"{name} = {'true' if value else 'false'}"
    signed = ("left", "right", "width", "ascent", "descent", "fontAscent", "fontDescent", "maxOverlap")
    return f"{name} = {whole(value) if name in signed else value}"


def record(r):
    parts = [f"{k} = {record(v)}" if isinstance(v, dict) else field(k, v) for k, v in r.items()]
    return "record { " + "; ".join(parts) + " }"


def glyph_info(i):
    return (f"(record {{ glyph = record {{ 0 = {i['glyph']} }}; width = {i['width']}; height = {i['height']}; "
            f"«pad_top» = {i['pad_top']}; «pad_left» = {i['pad_left']} }})")


def mode(c):
    return f"({record(mode_of(c)._asdict())})"


def layout(c):
    wrap = "Wrap.Never" if c["wrap"] is None else f"Wrap.At {c['wrap']}"
    return f"(record {{ start = {c['start']}; wrap = {wrap}; stride = {c['stride']}; scale = {c['scale']} }})"


def text_term(c):
    text = numbers(c.get("text", "").encode("latin-1"))
    if "more" not in c:
        return text
    piece, times = c["more"]
    return f"(then {text} {times} {numbers(piece.encode('latin-1'))})"


def term(font, rec, c):
    """what the definitions say of a case"""
    call, text = c["call"], text_term(c)
    said = {
        "load": "said_loaded (loaded {f})", "load_strict": "said_loaded (loaded_strictly {f})",
        "vet": "said_vetted (vetted {f})",
        "get_glyph": "said_served (get_glyph {f} {r} {m} {code})", "prop_at": "said_prop (prop_at {f} {r} {i})",
        "get_name": "said_named (get_name {f} {r} {g})", "get_metrics": "said_measured (get_metrics {f} {r} {g})",
        "get_accelerators": "said_accelerated (get_accelerators {f} {r})",
        "dimensions": "said_sized (dimensions {f} {r})",
        "prep_char": "said_char_prepared (prep_char {f} {r} {m} {code})",
        "utf8_step": "said_step (step_at {t} {i})", "check": "said_checked (checked_text {t})",
        "hex_read": "said_hex (hex_read {t})",
        "why": "said_told (why_of {f} {r} {m} {code} {len} (place_at {start} {stride} {scale}))",
    }
    lent = {
        "draw_bitmap": "bitmap {f} {r} {g} {width} {height} {len} {start} {stride} {scale}",
        "draw_glyph": "glyph {f} {r} {m} {box} {len} {start} {stride} {scale}",
        "draw_char": "char {f} {r} {m} {code} {len} {start} {stride} {scale}",
        "draw_string": "string {f} {r} {m} {t} {len} {lay}",
        "unpack_glyph": "unpack {f} {r} {m} {box} {len} {start} {stride}",
        "fill_bytes": "fill_bytes {t} {len}",
        "put_frame": "put_frame {f} {r} {code} {len}", "put_refused": "put_refused {number} {len}",
        "plain": "fields plain", "is_known": "bits (is_known {number} ∷ [])", "mode_of": "fields (mode_of {number})",
        "name_bytes": "name_of_glyph {f} {r} {g}", "part_of": "part {f} {span}",
    }
    names = dict(c, f=font, r=rec, t=text, m=mode(c))
    if "info" in c:
        names["box"] = glyph_info(c["info"])
    if "count" in c:
        names["span"] = f"(record {{ start = {c['start']}; len = {c['count']} }})"
    if "wrap" in c:
        names["lay"] = layout(c)
    if call == "dump":
        return f"dumped {text}"
    if call in lent:
        return lent[call].format(**names)
    return "seen (" + said[call].format(**names) + ") []"


def answer_term(font, rec, c):
    """what the model says of a case"""
    if c["call"] == "dump":
        return numbers(model.dump(text_of(c)))
    n, place, values, left = answer(font, rec, c)
    listed = "(" + "".join(f"{whole(v)} ∷ " for v in values) + "[])"
    return f"seen (said {n} {place} {listed}) {numbers(left)}"


def made(c, fonts):
    """the record that a case hands in, None where it hands in none"""
    if c["call"] in NO_RECORD:
        return None
    return model.changed(model.load(fonts[c.get("of", c["font"])]), c.get("rec", {}))


def told(c, fonts):
    """the model's answer to a case that is no dump"""
    return answer(fonts[c["font"]] if "font" in c else b"", made(c, fonts), c)


def number(c, fonts):
    """the number that the model refuses a case with, or 0"""
    if c["call"] == "dump":
        refused = re.fullmatch(rb"refused (\d\d)\n", model.dump(text_of(c)))
        return int(refused[1]) if refused else 0
    return told(c, fonts)[0]


def reason(c, fonts):
    """the reason that the model gives for a case of `why`, None where it refuses"""
    values = told(c, fonts)[2]
    return values[0] if values else None


def module(batch, fonts, uses, opened):
    """the text of a module in which each case of a batch is an equation that holds by computation; `uses` and `opened`
    are the lines that name the definitions, and their names, which are opened to compute"""
    out = ["\n".join(uses) + "\n" + SEEN]
    written = set()
    for k, c in batch:
        call, f, rec, local = c["call"], "[]", "rec", []
        if call not in NO_FONT:
            f = f"font{c['font']}"
            local.append(f)
            if f not in written:
                out.append(f"{f} : List ℕ\n{f} = {numbers(fonts[c['font']])}\n")
                written.add(f)
        handed = made(c, fonts)
        if handed is not None and "rec" in c:
            rec = f"made{k}"
            local.append(rec)
            out.append(f"{rec} : Record\n{rec} = {record(handed)}\n")
        left = term(f, rec, c)
        if handed is not None and "rec" not in c:
            left = f"on_font (loaded {f}) (λ rec. {left})"
        right = answer_term(fonts[c["font"]] if "font" in c else b"", handed, c)
        out.append(f"case{k} : {left} ≡ {right}\nunfolding {' '.join(OWN + opened + local)}\ncase{k} = refl\n")
    return "\n".join(out)
