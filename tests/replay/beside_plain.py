"""Which call in plain mode has the answer of a call in default mode: a second way to say what default mode does, by
which the model is held to itself."""
import re

import model
from replay.calls import PLAIN


def breaks_or_shown(b, rec, code):
    return code in (10, 13) or model.lookup(b, rec, code) is not None


def with_default(b, rec, content):
    """the text with the default character for each that has no glyph; None where no text has that character, or it is a
    line's end"""
    default = rec["codes"]["default"]
    shown = [ord(character) for character in content]
    if all(breaks_or_shown(b, rec, code) for code in shown):
        return content
    if default in (10, 13) or 0xd800 <= default <= 0xdfff:
        return None
    return "".join(chr(code if breaks_or_shown(b, rec, code) else default) for code in shown)


def plain_call(b, rec, c):
    """the call that answers the same, but for places in a text and for saying that it is the default; None where there
    is none"""
    plain, default = dict(c, mode=PLAIN), rec["codes"]["default"]
    try:
        model.check_record(b, rec)
    except model.Refused:
        return plain
    if model.lookup(b, rec, default) is None:
        return plain
    if "code" in c:
        return plain if model.lookup(b, rec, c["code"]) is not None else dict(plain, code=default)
    if "text" in c:
        try:
            content = with_default(b, rec, c["text"].decode())
        except UnicodeDecodeError:
            return plain
        return None if content is None else dict(plain, text=content.encode())
    return plain


def unplaced(line):
    """a line without what may differ"""
    line = re.sub(r"^(get_glyph +\d+ \d+) 1$", r"\1 0", line)
    return re.sub(r" at \d+|(?<=, default )1", "", re.sub(r"(?<=, default )0", "", line))
