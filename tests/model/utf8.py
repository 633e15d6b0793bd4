"""UTF-8, a character at a time and a whole text."""
from model.refusal import Refused

# Unicode, table 3-7: well-formed UTF-8 byte sequences
TABLE_3_7 = [
    [(0x00, 0x7F)],
    [(0xC2, 0xDF), (0x80, 0xBF)],
    [(0xE0, 0xE0), (0xA0, 0xBF), (0x80, 0xBF)],
    [(0xE1, 0xEC), (0x80, 0xBF), (0x80, 0xBF)],
    [(0xED, 0xED), (0x80, 0x9F), (0x80, 0xBF)],
    [(0xEE, 0xEF), (0x80, 0xBF), (0x80, 0xBF)],
    [(0xF0, 0xF0), (0x90, 0xBF), (0x80, 0xBF), (0x80, 0xBF)],
    [(0xF1, 0xF3), (0x80, 0xBF), (0x80, 0xBF), (0x80, 0xBF)],
    [(0xF4, 0xF4), (0x80, 0x8F), (0x80, 0xBF), (0x80, 0xBF)],
]


def utf8_step(text, i):
    """None at the end, (code, next), or Refused 19 at i"""
    if i >= len(text):
        return None
    for row in TABLE_3_7:
        if i + len(row) > len(text):
            continue
        ok = True
        for k in range(len(row)):
            if not (row[k][0] <= text[i + k] and text[i + k] <= row[k][1]):
                ok = False
        if ok:
            if len(row) == 1:
                code = text[i]
            elif len(row) == 2:
                code = (text[i] - 0xC0) * 64 + (text[i + 1] - 0x80)
            elif len(row) == 3:
                code = (text[i] - 0xE0) * 4096 + (text[i + 1] - 0x80) * 64 + (text[i + 2] - 0x80)
            else:
                code = ((text[i] - 0xF0) * 262144 + (text[i + 1] - 0x80) * 4096
                        + (text[i + 2] - 0x80) * 64 + (text[i + 3] - 0x80))
            return (code, i + len(row))
    raise Refused(19, i)


def check(text):
    """Refused 19 for a text that is too long, at 0, or is not UTF-8"""
    if len(text) > 65535:
        raise Refused(19)
    i = 0
    while i < len(text):
        i = utf8_step(text, i)[1]
