"""Headers that `record` prints: their text, and what C and C++ make of it, against the font's bytes and the model's
record and page; fonts that are refused; names; and what record cannot take."""
import functools
import gzip
import os
import re
import shutil
import sys

import common
import model
from command.refusals import refused_fonts
from command.script import count, expect, run, store
from common import ROOT, TESTS, fail, read
from dump import make
from exports import layouts
from exports.machine import ARCHIVE, has, is_native
from exports.replayed import told_apart
from panel import expected as panel
from pcf.font_f import THREE, two_digits
from pcf.numbers import BIG
from pcf.orders import order_bits
from pcf.rewriting import reordered
from pcf.tables import accelerators, names, narrow_metrics

MOST_RECORDED = 16777216  # the bytes that a font may have
COLUMNS = 120
STORED = ("examples/f.pcf", "examples/big_two_byte.pcf", "meter-font/meter.pcf")
MADE = ("last_tables_serve.pcf", "mixed_orders.pcf", "unreached_glyphs.pcf")
# the dialect, and the packages that have the compiler
COMPILERS = {"gcc": (["-std=c99"], ["gcc", "libc6-dev"]), "g++": (["-std=c++11", "-x", "c++"], ["g++"])}
WARNINGS = ["-Wall", "-Wextra", "-Wunused", "-Wconversion", "-pedantic", "-Werror"]


# ---- good fonts


def extremes():
    """two digits with accelerators of the least and the greatest numbers, and other orders and counts in each table"""
    made = make.digits_but(
        accelerators(BIG, range(248, 256), -1, -2147483648, 2147483647, (-32768, -1, -2, -3, -4, 65535),
                     (-5, 32767, 9, 4, 1, 65534)),
        narrow_metrics(BIG, [THREE[:5]] * 2), names(0, [0, 4, 4], b"nil\0one\0"))
    return reordered(made, order_bits(True, False, 4, 8))


def fonts():
    """(file, bytes), with which every field of a record is told from the others"""
    for file in STORED:
        with open(os.path.join(ROOT, file), "rb") as f:
            yield file, f.read()
    made = make.font_files()
    for file in MADE:
        yield file, made[file]
    yield "extremes.pcf", extremes()


@functools.lru_cache(None)
def vetted(font):
    """the model's record, and its numbers by their paths"""
    rec = model.vet(font)
    return rec, layouts.flat("Record", rec)


def constants(text, name, size):
    """the bytes and the record's numbers, as the header's text has them under these names"""
    found = re.search(r"^static const uint8_t %s_font\[%d\] = \{\n(.*?)\n\};\n\n"
                      r"static const thk_record %s_record = \{\n(.*?)\n\};\n\n#endif\n\Z" % (name, size, name), text,
                      re.M | re.S)
    kinds = [of for _, _, of in layouts.leaves("Record")]
    words = re.findall(r"\w+|-\d+", re.sub(r"/\*.*?\*/", "", found[2])) if found else []
    if len(words) != len(kinds):
        return None
    return (bytes(int(byte, 16) for byte in re.findall(r"0x(..),", found[1])),
            [{"false": 0, "true": 1}.get(word) if of == "bool" else int(word) for word, of in zip(words, kinds)])


def is_right(text, title, name, font):
    """whether the header has these names, bytes and record, and no line is too long"""
    told = text.startswith("/*\n * The font %s, %s bytes, " % (title, format(len(font), ",")))
    guarded = "\n#ifndef THK_RECORD_{0}\n#define THK_RECORD_{0}\n".format(name) in text
    held = constants(text, name, len(font)) == (font, list(vetted(font)[1].values()))
    return told and guarded and held and max(map(len, text.splitlines())) <= COLUMNS


def recorded(folder, what, words, title, name, font, **more):
    """the header, after it was held to the font"""
    got = run("record", *words, folder=folder, **more)
    right = got.returncode == 0 and is_right(got.stdout.decode(), title, name, font)
    expect(what, got, 0, got.stdout if right else b"another header", None)
    return got.stdout


def text_of(font):
    """some characters that the font has"""
    rec, _ = vetted(font)
    return "".join([chr(code) for code in range(1, 0xD800) if model.lookup(font, rec, code) is not None][:12])


def headers(folder):
    """puts the headers of all fonts into a folder of their own"""
    os.mkdir(os.path.join(folder, "headers"))
    told_apart("Record", [vetted(font)[1] for _, font in fonts()])
    for file, font in fonts():
        title = os.path.basename(file)
        name = title[:-len(".pcf")]
        path = os.path.join(ROOT, file) if file in STORED else store(folder, file, font)
        made = recorded(folder, file, [path], title, name, font)
        store(folder, "headers/%s.h" % name, made)
        yield name, font


def compiled(folder):
    """each header in C and in C++, all in one program, of which it uses one"""
    made = list(headers(folder))
    if not is_native():
        print("command: no header was compiled, because libthalluskin.a is for x86-64")
        return
    for compiler, (dialect, packages) in COMPILERS.items():
        if not has(compiler, *packages):
            print("command: no header was compiled by %s, which is not there" % compiler)
            continue
        for name, font in made:
            used(folder, [compiler, *dialect, *WARNINGS], name, font, made)
        of_another_version(folder, [compiler, *dialect], made[0][0])


def used(folder, compiler, name, font, made):
    """bytes, record and page of a program that uses this header are the font's and the model's"""
    what, text = "%s by %s" % (name, compiler[0]), text_of(font).encode()
    left = common.run(built(folder, compiler, name, made), text).stdout
    parts = []
    for length in (len(font), layouts.size_of("Record"), layouts.size_of("TextAnswer"), len(left)):
        parts.append(left[:length])
        left = left[length:]
    if parts[0] != font or layouts.got("Record", parts[1]) != vetted(font)[1]:
        fail("%s: not the font's bytes and record" % what)
    height, dropped, rows = panel.drawn(font, panel.WIDTH, panel.HEIGHT, 1, panel.WIDTH + 1, text)
    answer = layouts.flat("TextAnswer", {"refusal": 0, "place": 0, "rows": {"height": height, "dropped": dropped}})
    page = b"".join(pixel.to_bytes(4, "little") for row in rows for pixel in row)
    if layouts.got("TextAnswer", parts[2]) != answer or parts[3] != page or not any(page):
        fail("%s: another page than the model's" % what)
    count()


def built(folder, compiler, name, made):
    """record.c with this header, and the other ones before it"""
    program, source = os.path.join(folder, "program"), os.path.join(TESTS, "command", "record.c")
    includes = ["-I", os.path.join(ROOT, "include"), "-I", os.path.join(folder, "headers")]
    unused = [word for other, _ in made if other != name for word in ("-include", other + ".h")]
    about = {"HEADER": '"%s.h"' % name, "FONT": name + "_font", "RECORD": name + "_record", "WIDTH": panel.WIDTH,
             "HEIGHT": panel.HEIGHT}
    got = common.run(*compiler, *("-D%s=%s" % pair for pair in about.items()), *includes, *unused, source,
                     "-x", "none", ARCHIVE, "-o", program)
    if got.returncode != 0:
        fail("%s does not compile:\n%s" % (name, got.stderr.decode()[-2000:]))
    return program


def of_another_version(folder, compiler, name):
    """it does not compile with a header of another version"""
    text = read("include", "thalluskin.h")
    other = re.sub(r"(?m)^(#define THK_VERSION \d+)$", r"\g<1>1", text)
    os.makedirs(os.path.join(folder, "other"), exist_ok=True)
    store(folder, "other/thalluskin.h", other.encode())
    got = common.run(*compiler, "-fsyntax-only", "-I", os.path.join(folder, "other"),
                     os.path.join(folder, "headers", name + ".h"))
    said = "%s_record was made for version " % name
    if other == text or got.returncode == 0 or said not in got.stderr.decode():
        fail("a header of another version is taken:\n%s" % got.stderr.decode()[-2000:])
    count()


# ---- refused fonts


def refused(folder):
    """the words are those of show"""
    for name, font, said in refused_fonts():
        got = run("record", store(folder, name, font), folder=folder)
        expect(name, got, 1, b"", said)
        if got.stderr != run("show", "--font", name, "12", folder=folder).stderr:
            fail("%s: show says it in other words" % name)
    expect("an empty file", run("record", store(folder, "empty.pcf", b""), folder=folder), 1, b"", "refused 01: ")


# ---- names, and what record cannot take

BAD_NAMES = {
    "is no name in C": ("", "9x15", "a b", "a-b", "ü", "f\n", "f;"),
    "makes a name that the header has: thk_record": ("thk",),
}


def named(folder):
    """names that are given, and those that are made of the file's"""
    f = two_digits()

    def same(what, file, name, *given, title=None, **more):
        store(os.fsencode(folder), os.fsencode(file), gzip.compress(f) if os.fsencode(file).endswith(b".gz") else f)
        recorded(folder, what, [file, *given], title or os.path.basename(file), name, f, **more)

    same("a name", "f.pcf", "Panel_2", "Panel_2")
    same("a name for a compressed font", "f.pcf.gz", "_", "_")
    same("a digit first", "9x15.pcf", "font_9x15")
    same("a space, compressed", "my font.pcf.gz", "my_font")
    same("another letter", "ü.pcf", "font")
    same("another letter in the locale C", "ü.pcf", "font", LC_ALL="C")
    same("a byte that is no letter", b"a\xff_1.pcf", "a_1", title="a\ufffd_1.pcf")
    same("what would not be seen", "a\n\u202eb.pcf", "a_b", title="a??b.pcf")
    same("a keyword", "int.pcf", "int")
    same("the header's own name", "thk.pcf", "font_thk")
    same("another ending", "f.PCF", "f_PCF")
    same("a name like an option", "a folder/-v", "v")
    for said, bad in BAD_NAMES.items():
        for name in bad:
            expect("the name %r" % name, run("record", "f.pcf", name, folder=folder), 2, b"", said)


def unusable(folder):
    def not_taken(what, said, *words, **more):
        expect(what, run("record", *words, folder=folder, **more), 2, b"", said)

    not_taken("no font named", "record takes a font file")
    not_taken("too many words", "record takes a font file", "f.pcf", "a", "b")
    not_taken("no such file", "no such file: none.pcf", "none.pcf")
    not_taken("a folder", "a folder, not a font file", "a folder")
    not_taken("damaged", "not readable", store(folder, "cut.pcf.gz", gzip.compress(two_digits())[:-9]))
    long = gzip.compress(bytes(MOST_RECORDED + 1), 1)
    not_taken("too long", "over the limit of 16,777,216 bytes", store(folder, "long.pcf.gz", long))
    not_taken("a kit without its linker", "the Rattle kit has no ld.lld", "f.pcf", RATTLE_HOME=folder)
    not_taken("no temporary folder", "temporary folder", "f.pcf", TMPDIR="none")
    few = os.path.join(folder, "few")
    os.mkdir(few)
    for command in ("bash", "dirname", "head", "mktemp", "readlink", "rm", "wc"):
        os.symlink(shutil.which(command), os.path.join(few, command))
    not_taken("no Python", "python3 is not on the PATH", "f.pcf", PATH=few)
    os.symlink(sys.executable, os.path.join(few, "python3"))
    not_taken("no kit", "the Rattle kit's command 'rt' is not on the PATH", "f.pcf", PATH=few)
    with open("/dev/full", "wb") as full:
        expect("no room", run("record", "f.pcf", folder=folder, output=full), 2, None, "standard output")
