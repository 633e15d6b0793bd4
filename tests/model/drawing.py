"""Drawing and unpacking a glyph. Each call is its dry run, which answers for a buffer of L pixels or bytes and tells
the pixels to colour, and then the colouring. The mode that a call takes decides the lookup alone, so that a glyph that
is handed in is drawn alike in every mode."""
from model.metrics import place_char
from model.reads import u32
from model.record import check_record
from model.refusal import Refused


def ceil8(width):
    return (width + 7) // 8


def row_stride(rec, width):
    s = ceil8(width)
    while s % rec["bitmaps"]["pad"] != 0:
        s = s + 1
    return s


def cannot_draw(bm):
    """13: scan unit code 3, which is none, or a unit wider than the row pad"""
    return bm["unit"] > 2 or 2 ** bm["unit"] > bm["pad"]


def holder(bm, column):
    """The byte of a row, from the row's start, that holds a column, and the value of the column's bit in it. A row is
    units, each a number in the table's byte order; the leftmost pixel is the top bit, or the lowest where bit 8 is
    clear. So the number of a unit in which this pixel alone is set has one byte that is not 0."""
    n = 2 ** bm["unit"]
    left = column % (8 * n)                  # so many pixels of the unit are left of this one
    number = 2 ** (8 * n - 1 - left) if bm["top"] else 2 ** left
    unit = number.to_bytes(n, "big" if bm["big"] else "little")
    for i in range(n):
        if unit[i] != 0:
            return column // (8 * n) * n + i, unit[i]


def row_starts(b, rec, g, width, rows):
    """where in the bitmap data each row of a glyph begins"""
    bm = rec["bitmaps"]
    off = u32(b, bm["offsets"] + 4 * g, bm["big"])
    rs = row_stride(rec, width)
    return [off + r * rs for r in range(rows)]


def lacks_data(bm, starts, columns):
    """14: the byte that holds a column of a row lies beyond the data"""
    places = [holder(bm, c)[0] for c in range(columns)]
    for start in starts:
        for at in places:
            if start + at >= bm["size"]:
                return True
    return False


def rows_in_data(b, rec, g, width, rows, columns):
    """where each row of a glyph begins in the data, or the refusal number 12, 13 or 14"""
    bm = rec["bitmaps"]
    if g >= bm["count"]:
        return 12
    if cannot_draw(bm):
        return 13
    starts = row_starts(b, rec, g, width, rows)
    if lacks_data(bm, starts, columns):
        return 14
    return starts


def is_set(b, bm, start, column):
    """whether the pixel of a column is set, in the row that begins there in the data"""
    at, value = holder(bm, column)
    return (b[bm["bits"] + start + at] // value) % 2 == 1


def bad_start_stride(start, stride):
    if not (1 <= stride and stride <= 65535):
        return True
    if start > 2147483647:
        return True
    return False


def bad_scale(scale):
    return not (1 <= scale and scale <= 64)


def drawn_rows(height, L, p, stride, scale):
    """how many rows of a bitmap at p are drawn"""
    m = 0 if p > L else (L - p) // stride
    return min(height, (m // scale) * scale)


def set_bits(b, bm, starts, width):
    """row and column of each set bit below the width, of the rows that begin there in the data"""
    for r in range(len(starts)):
        for c in range(width):
            if is_set(b, bm, starts[r], c):
                yield r, c


def block(p, r, c, stride, scale):
    """the pixels that a set bit colours"""
    for a in range(scale):
        for bb in range(scale):
            yield p + r * stride * scale + c * scale + a * stride + bb


def picture(b, rec, g, width, height, L, p, stride, scale):
    """The core of drawing: a refusal number (12, 13, 14, 16) or (rows, [pixels])."""
    rows = drawn_rows(height, L, p, stride, scale)
    starts = rows_in_data(b, rec, g, width, rows, width)
    if isinstance(starts, int):
        return starts
    pixels = []
    for r, c in set_bits(b, rec["bitmaps"], starts, width):
        for q in block(p, r, c, stride, scale):
            if q >= L:
                return 16
            pixels.append(q)
    return (rows, pixels)


def coloured(buf, pixels, colour):
    out = list(buf)
    for q in pixels:
        out[q] = colour
    return out


def bitmap_check(b, rec, g, width, height, L, start, stride, scale):
    check_record(b, rec)
    if width > 32767 or height > 32767 or bad_start_stride(start, stride) or bad_scale(scale):
        raise Refused(15)
    r = picture(b, rec, g, width, height, L, start, stride, scale)
    if isinstance(r, int):
        raise Refused(r)
    rows, pixels = r
    return (rows, height - rows), pixels


def draw_bitmap(b, rec, g, width, height, buf, start, stride, scale, colour):
    answer, pixels = bitmap_check(b, rec, g, width, height, len(buf), start, stride, scale)
    return answer, coloured(buf, pixels, colour)


def bad_info(info):
    return (info["width"] > 32767 or info["height"] > 32767
            or info["pad_top"] > 32767 or info["pad_left"] > 32767)


def place_of(info, start, stride, scale):
    """p, where a glyph's bitmap begins"""
    return start + stride * scale * info["pad_top"] + scale * info["pad_left"]


def glyph_picture(b, rec, info, L, start, stride, scale):
    """a refusal number (13, 14, 16) or (rows, dropped, pixels); 12 is nothing drawn, 0 dropped"""
    p = place_of(info, start, stride, scale)
    r = picture(b, rec, info["glyph"], info["width"], info["height"], L, p, stride, scale)
    if r == 12:
        return (0, 0, [])
    if isinstance(r, int):
        return r
    return (r[0], info["height"] - r[0], r[1])


def glyph_check(b, rec, mode, info, L, start, stride, scale):
    check_record(b, rec)
    if bad_info(info) or bad_start_stride(start, stride) or bad_scale(scale):
        raise Refused(15)
    r = glyph_picture(b, rec, info, L, start, stride, scale)
    if isinstance(r, int):
        raise Refused(r)
    return (r[0], r[1]), r[2]


def draw_glyph(b, rec, mode, info, buf, start, stride, scale, colour):
    answer, pixels = glyph_check(b, rec, mode, info, len(buf), start, stride, scale)
    return answer, coloured(buf, pixels, colour)


def char_check(b, rec, mode, code, L, start, stride, scale):
    check_record(b, rec)
    if bad_start_stride(start, stride) or bad_scale(scale):
        raise Refused(15)
    info, by, is_default = place_char(b, rec, mode, code)
    r = glyph_picture(b, rec, info, L, start, stride, scale)
    if isinstance(r, int):
        raise Refused(r)
    return (info, r[0], r[1], by, is_default), r[2]


def draw_char(b, rec, mode, code, buf, start, stride, scale, colour):
    answer, pixels = char_check(b, rec, mode, code, len(buf), start, stride, scale)
    return answer, coloured(buf, pixels, colour)


def unpack_check(b, rec, mode, info, L, start, stride):
    check_record(b, rec)
    if bad_info(info) or bad_start_stride(start, stride):
        raise Refused(15)
    p = start + stride * info["pad_top"] + info["pad_left"]
    columns = 8 * ceil8(info["width"])       # whole bytes
    starts = rows_in_data(b, rec, info["glyph"], info["width"], info["height"], columns)
    if starts == 12:
        return 0, []
    if isinstance(starts, int):
        raise Refused(starts)
    pixels = []
    for r in range(info["height"]):
        for c in range(columns):
            if is_set(b, rec["bitmaps"], starts[r], c):
                q = p + r * stride + c
                if q >= L:
                    raise Refused(16)
                pixels.append(q)
    return info["height"], pixels


def unpack_glyph(b, rec, mode, info, buf, start, stride):
    rows, pixels = unpack_check(b, rec, mode, info, len(buf), start, stride)
    return rows, coloured(buf, pixels, 1)
