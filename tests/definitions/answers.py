"""What the model says of a case: number, place, values, and the pixels or bytes that changed."""
import model

OLD, COLOUR = 7, 5  # what every pixel or byte has before, and what is drawn; as seen.txt has them


def text_of(c):
    piece, times = c.get("more", ["", 0])
    return (c["text"] + piece * times).encode("latin-1")


def mode_of(c):
    return model.mode_of(c.get("mode", 0))


def lent(c):
    """the buffer that a case lends, None where it lends none: `why` is told a length and lent no buffer"""
    return [OLD] * c["len"] if "len" in c and c["call"] != "why" else None


def ask(call, font, rec, c):
    """(values, new buffer or None) of a call that is not refused"""
    old, mode = lent(c), mode_of(c)
    place = [old] + [c[k] for k in ("start", "stride", "scale") if k in c]
    if call == "plain":
        return model.PLAIN, None
    if call == "is_known":
        return [model.is_known(c["number"])], None
    if call == "mode_of":
        return model.mode_of(c["number"]), None
    if call == "load":
        return model.flat_record(model.load(font)), None
    if call == "load_strict":
        return model.flat_record(model.load(font, strict=True)), None
    if call == "vet":
        return model.flat_record(model.vet(font)), None
    if call == "get_glyph":
        return model.get_glyph(font, rec, mode, c["code"]), None
    if call == "prop_at":
        return model.prop_at(font, rec, c["i"]), None
    if call == "get_name":
        return model.get_name(font, rec, c["g"]), None
    if call == "name_bytes":
        at, part = model.name_bytes(font, rec, c["g"])
        return [at, *part], None
    if call == "part_of":
        at, part = model.part_of(font, c["start"], c["count"])
        return [at, *part], None
    if call == "get_metrics":
        return model.flat_metrics(model.get_metrics(font, rec, c["g"])), None
    if call == "get_accelerators":
        return model.flat_accel(model.get_accelerators(font, rec)), None
    if call == "dimensions":
        return model.dimensions(font, rec), None
    if call == "prep_char":
        info, *served = model.prep_char(font, rec, mode, c["code"])
        return model.flat_info(info) + served, None
    if call == "draw_bitmap":
        return model.draw_bitmap(font, rec, c["g"], c["width"], c["height"], *place, COLOUR)
    if call == "draw_glyph":
        return model.draw_glyph(font, rec, mode, c["info"], *place, COLOUR)
    if call == "draw_char":
        (info, *rest), new = model.draw_char(font, rec, mode, c["code"], *place, COLOUR)
        return model.flat_info(info) + rest, new
    if call == "why":
        return model.why(font, rec, mode, c["code"], c["len"], c["start"], c["stride"], c["scale"]), None
    if call == "draw_string":
        return model.draw_string(font, rec, mode, text_of(c), old, c["start"], c["wrap"], c["stride"], c["scale"],
                                 COLOUR)
    if call == "unpack_glyph":
        rows, new = model.unpack_glyph(font, rec, mode, c["info"], *place)
        return [rows], new
    if call == "utf8_step":
        step = model.utf8_step(text_of(c), c["i"])
        return [0] if step is None else [1, *step], None
    if call == "check":
        model.check(text_of(c))
        return [], None
    if call == "put_frame":
        length, new = model.put_frame(font, rec, c["code"], old)
        return [length], new
    if call == "put_refused":
        length, new = model.put_refused(c["number"], old)
        return [length], new
    if call == "fill_bytes":
        length, new = model.fill_bytes(text_of(c), old)
        return [length], new
    if call == "hex_read":
        return [model.hex_read(text_of(c))], None
    raise ValueError(call)


def answer(font, rec, c):
    """number, place, values, and of a lent buffer index and value of each element that changed and its length"""
    number, place = 0, 0
    try:
        values, new = ask(c["call"], font, rec, c)
    except model.Refused as e:
        number, place, values, new = e.number, e.place, [], lent(c)
    left = [] if new is None else [n for i, x in enumerate(new) if x != OLD for n in (i, x)] + [len(new)]
    return number, place, [int(v) for v in values], left
