"""Drawing a text: the pen's walk over its characters, and as for a glyph the dry run and the colouring."""
from model.codes import serve
from model.drawing import bad_scale, bad_start_stride, coloured, glyph_picture
from model.metrics import bounds_hold, place_glyph
from model.record import check_record
from model.refusal import Refused
from model.utf8 import check, utf8_step


def text_check(b, rec, mode, text, L, start, wrap, stride, scale):
    check_record(b, rec)
    if bad_start_stride(start, stride) or bad_scale(scale):
        raise Refused(15)
    check(text)
    if not bounds_hold(rec):
        raise Refused(11)
    mx = rec["accel"]["maxbounds"]
    line_height = scale * (mx["ascent"] + mx["descent"])
    x = 0
    y = 0
    dropped = 0
    all_pixels = []
    i = 0
    while True:
        s = utf8_step(text, i)
        if s is None:
            break
        code, nxt = s
        here = i
        i = nxt
        if code == 13:
            continue
        if code == 10:
            x = 0
            y = y + line_height
            continue
        served = serve(b, rec, mode, code)
        if served is None:
            continue
        info = place_glyph(b, rec, served[0])
        if isinstance(info, int):
            raise Refused(info, here)
        if wrap is not None and x + info["width"] * scale >= wrap:
            x = 0
            y = y + line_height
        r = glyph_picture(b, rec, info, L, start + y * stride + x, stride, scale)
        if isinstance(r, int):
            raise Refused(r, here)
        dropped = dropped + r[1]
        all_pixels = all_pixels + r[2]
        x = x + info["width"] * scale
    height = y + line_height
    assert height <= line_height * (len(text) + 1)
    return (height, dropped), all_pixels


def draw_string(b, rec, mode, text, buf, start, wrap, stride, scale, colour):
    answer, pixels = text_check(b, rec, mode, text, len(buf), start, wrap, stride, scale)
    return answer, coloured(buf, pixels, colour)
