"""The dump: its input, lines of hexadecimal digits, and a frame for each code with a glyph; and the input's bytes and
each of its lines written into a buffer."""
from model.codes import lookup
from model.drawing import ceil8, is_set, rows_in_data
from model.metrics import prep_char
from model.modes import PLAIN
from model.refusal import Refused
from model.strings import get_name
from model.vetting import vet

DIGITS = b"0123456789ABCDEF"


def hex_bytes(text):
    """the font bytes, or Refused(20, line)"""
    out = []
    i = 0
    line = 0
    while i < len(text):
        line = line + 1
        j = i
        while j < len(text) and text[j] != 10:
            j = j + 1
        digits = text[i:j]
        if j == len(text):
            raise Refused(20, line)          # not ended by a newline
        if len(digits) < 2 or len(digits) > 64 or len(digits) % 2 != 0:
            raise Refused(20, line)
        for d in digits:
            if d not in DIGITS:
                raise Refused(20, line)
        for k in range(0, len(digits), 2):
            out.append(DIGITS.index(digits[k]) * 16 + DIGITS.index(digits[k + 1]))
        if len(out) > 49152:
            raise Refused(20, line)
        i = j + 1
    return bytes(out)


def hex_read(text):
    return len(hex_bytes(text))


def picture_byte(b, bm, start, k):
    """columns 8k to 8k + 7 of a row, top bit leftmost"""
    byte = 0
    for c in range(8 * k, 8 * k + 8):
        byte = 2 * byte + is_set(b, bm, start, c)
    return byte


def frame(b, rec, code):
    """the line of a code's frame, or Refused with what the code or its name lacks"""
    info, _, _ = prep_char(b, rec, PLAIN, code)
    g, width, height = info["glyph"], info["width"], info["height"]
    starts = rows_in_data(b, rec, g, width, height, width)
    if isinstance(starts, int):
        raise Refused(starts)
    ns, nl = get_name(b, rec, g)
    name = "".join("%02X" % b[ns + k] for k in range(nl))
    rows = ""
    for start in starts:
        for k in range(ceil8(width)):
            rows = rows + "%02X" % picture_byte(b, rec["bitmaps"], start, k)
    if name == "":
        name = "-"
    if rows == "":
        rows = "-"
    return ("%04X %04X %04X %04X %04X %04X %s %s\n" % (
        code, g, width, height, info["pad_top"], info["pad_left"], name, rows)).encode()


def refused(number):
    """the line of a refusal"""
    return ("refused %02d\n" % number).encode()


def dump(text):
    try:
        b = hex_bytes(text)
        rec = vet(b)
    except Refused as e:
        return refused(e.number)
    return b"".join(frame(b, rec, code) for code in range(65536) if lookup(b, rec, code) is not None)


def put(line, buf):
    """how many bytes these are, and the buffer with them at its start"""
    if len(line) > len(buf):
        raise Refused(15)
    return len(line), list(line) + buf[len(line):]


def fill_bytes(text, buf):
    return put(hex_bytes(text), buf)


def put_frame(b, rec, code, buf):
    return put(frame(b, rec, code), buf)


def put_refused(number, buf):
    if number > 99:
        raise Refused(15)                    # a line has two digits
    return put(refused(number), buf)
