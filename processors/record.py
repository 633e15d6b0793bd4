#!/usr/bin/env python3
"""Prints a C header with a font's bytes and its record as constants, so that a program needs neither vetting nor memory
for them. The library itself vets the font and gives the record.

    processors/record.py BYTES FONT.pcf [NAME]

BYTES is a file with the font's bytes, uncompressed, and FONT.pcf the one that they come from. NAME begins the
constants' names; without it FONT does. Of a font that is refused one line is printed instead: refused, the number, the
place. With anything else wrong the status is 2, and standard error says what it is. `./thalluskin record` runs it."""
import ctypes
import functools
import os
import re
import sys
import tempfile
import textwrap

sys.path.insert(0, os.path.dirname(os.path.dirname(os.path.abspath(__file__))))

from processors import header, kit  # noqa: E402
from processors.build import for_this_machine  # noqa: E402
from processors.table import OWN, at_hand  # noqa: E402

WIDTH = 120   # columns
A_LINE = 16   # bytes


# ---- vetting


@functools.lru_cache(None)
def c_type(name):
    """a type of C: a number's, or that of a struct of the header, whose fields have to lie here as it says"""
    if name in header.NUMBERS:
        return getattr(ctypes, "c_" + name.replace("_t", ""))
    fields = [(field, c_type(kind)) for kind, field in header.structs()[name]]
    made = type(name, (ctypes.Structure,), {"_fields_": fields})
    lies = {field: getattr(made, field).offset for field, _ in fields}
    if lies != {field: header.offsets()[name, field] for field in lies} or ctypes.sizeof(made) != header.sizes()[name]:
        raise kit.Failed("%s lies otherwise here than the header says" % name)
    return made


def library():
    """the archive for this machine, loaded; the file that it is loaded from need not stay"""
    linker, (archive, _) = kit.tool("ld.lld"), for_this_machine()
    with tempfile.TemporaryDirectory() as folder:
        shared = os.path.join(folder, "thalluskin.so")
        kit.run(linker, "-shared", "--whole-archive", archive, "-o", shared)
        return ctypes.CDLL(shared)


def vet(font):
    """the library's answer: refusal, place and record"""
    loaded = library()
    if loaded.thalluskin_version() != header.defined("THK_VERSION"):
        raise kit.Failed("the library has another version than its header")
    answer, given = next((c_type(answer), given) for answer, name, given in header.prototypes() if name == "vet")
    types = [ctypes.c_char_p if "*" in kind else c_type(kind) for kind, _, _ in given]
    values = font, len(font), header.defined("THK_PLAIN")
    if at_hand() == OWN:
        loaded.thalluskin_vet.argtypes, loaded.thalluskin_vet.restype = types, answer
        return loaded.thalluskin_vet(*values)
    made = answer()
    loaded.thalluskin_lent_vet.argtypes, loaded.thalluskin_lent_vet.restype = [ctypes.POINTER(answer), *types], None
    loaded.thalluskin_lent_vet(ctypes.byref(made), *values)
    return made


# ---- names


def fault(name):
    """why the constants' names cannot begin so; None where they can"""
    if not re.fullmatch(r"[A-Za-z_][A-Za-z0-9_]*", name):
        return "is no name in C"
    taken = [one for one in constants(name) if re.search(r"\b%s\b" % one, header.text())]
    return "makes a name that the header has: " + taken[0] if taken else None


def constants(name):
    """the names of the font's bytes and of its record"""
    return name + "_font", name + "_record"


def name_of(title):
    """the file's name, made a name in C that is free for programs"""
    made = re.sub(r"[^A-Za-z0-9]+", "_", re.sub(r"\.pcf(\.gz)?$", "", title)).strip("_")
    return ("font_" + made).strip("_") if fault(made) else made


def seen(text):
    """the text on one line; of what would not be seen, or would be obeyed, a question mark"""
    return "".join(c if c.isprintable() else "?" for c in text)


# ---- what is printed


def wrapped(text, first, others):
    return textwrap.wrap(text, WIDTH, initial_indent=first, subsequent_indent=others, break_long_words=False,
                         break_on_hyphens=False)


def comment(title, name, size):
    font, record = constants(name)
    about = ("The font %s, %s bytes, and its record, made by `thalluskin record`. The library vetted the font, so that "
             "a program need not:" % (seen(title), format(size, ",")))
    call = "thk_draw_string(%s, sizeof %s, &%s, text, text_len, &page);" % (font, font, record)
    still = ("Every call with the record still tests that all regions it names lie inside the bytes given (refusal 6). "
             "So where bytes or record were changed by hand, a call may be refused or draw otherwise, but it reads no "
             "byte outside. Each source file that includes this has a copy of its own.")
    return ["/*", *wrapped(about, " * ", " * "), " *", *wrapped(call, " *     ", " *         "), " *",
            *wrapped(still, " * ", " * "), " */"]


def initialiser(value):
    if isinstance(value, ctypes.Structure):
        return "{%s}" % ", ".join(initialiser(getattr(value, field)) for field, _ in value._fields_)
    return str(value).lower() if isinstance(value, bool) else str(value)


def lines(font, record, title, name):
    version, guard, included = header.defined("THK_VERSION"), "THK_RECORD_%s" % name, os.path.basename(kit.HEADER)
    of_bytes, of_record = constants(name)
    yield from comment(title, name, len(font))
    yield from ("#ifndef " + guard, "#define " + guard, "", '#include "%s"' % included, "")
    yield from ("#if THK_VERSION != %d" % version,
                '#error "%s was made for version %d of %s"' % (of_record, version, included), "#endif", "")
    yield "static const uint8_t %s[%d] = {" % (of_bytes, len(font))
    for i in range(0, len(font), A_LINE):
        yield "    0x%s," % font[i:i + A_LINE].hex(" ").replace(" ", ", 0x")
    yield from ("};", "")
    yield "static const %s %s = {" % (type(record).__name__, of_record)
    for part, _ in record._fields_:
        yield from wrapped("/* %s */ %s," % (part, initialiser(getattr(record, part))), " " * 4, " " * 8)
    yield from ("};", "", "#endif")


def printed(font, title, name):
    answer = vet(font)
    if answer.refusal:
        return ["refused %02d %d" % (answer.refusal, answer.place)]
    return lines(font, answer.rec, title, name)


def main(words):
    file, *given = words
    # UTF-8, whatever the locale is
    path, *given = (os.fsencode(word).decode(errors="replace") for word in given)
    title = os.path.basename(path)
    name = given[0] if given else name_of(title)
    if fault(name):
        raise kit.Failed("'%s' %s" % (seen(name), fault(name)))
    with open(file, "rb") as f:
        font = f.read()
    sys.stdout.buffer.writelines(line.encode() + b"\n" for line in printed(font, title, name))
    sys.stdout.buffer.flush()


if __name__ == "__main__":
    kit.command(main, sys.argv[1:])
