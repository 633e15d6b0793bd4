#!/usr/bin/env python3
"""Reads every font of Debian's xfonts-base, xfonts-terminus and xfonts-unifont with the library and with FreeType, and
compares all that both answer (peers.c). FreeType does not read the names of glyphs: those are compared with the ones
that pcf2bdf writes. Each of these fonts, and of those that follow, has to load strictly, with the record that it loads
with, and to be refused 27 for each known table, if a bit of that table's own format is changed. And each code has to
have the reason that is left by the bounds in the file's code table and by FreeType, which tells whether there is a
glyph, its metrics and its bitmap (reasons.c): on a page without end, and each that has a bitmap on a page that ends
about its glyph too, and with records that count the glyph no more. In default mode each code has to have the glyph of
its own entry or of the default code's, by the file's table, which is read a second time, and by FreeType's index of
either code, with the code that supplied it (defaults.c); one in 61 of the codes without a glyph is also placed, drawn,
told why, and drawn in texts between letters that have one.

All those fonts have one format. So bdftopcf writes each a second time, by turns in every format that it can: row pad,
bit order, byte order and scan unit; the tests' own writer then pads some rows to 8 bytes. One in four has a last glyph
so wide that metrics have 12 bytes. These are compared in the same way; where the unit is wider than the row pad, which
bdftopcf does not mind, or has code 3, both read the font and the library draws nothing of it (13).

Of five fonts the first characters are written in every order that the library draws, 24 by bdftopcf and 12 more with
rows of 8 bytes: all those of one font have to have one content of a dump, by the exported calls, and by FreeType one
set of bitmaps. The dumper is not run: prep_char, name and unpack_glyph give what stands in a dump's lines, of which a
digest is taken (dumps.c).

What FreeType does in its own way, and how that is met:
- its glyph 0 is a copy of the default character's glyph, or where the font has none of the first; it is compared too;
- it turns the bits of a row's bytes and swaps a unit's bytes where bit and byte order differ, over all of a glyph's
  bytes: that is what document 02 says of units, as long as they are not wider than the row pad;
- its bitmaps are as wide as the glyph's box, those of document 01 as the character. In the box every glyph is compared,
  with draw_bitmap; as a character one whose rows take the same bytes in both, but for columns past its box. Whether it
  is blank is compared in these columns too, since FreeType's rows have them; one without a width always is;
- its number properties have a sign; 32 bits are compared;
- of two properties with one name it answers the first."""
import glob
import gzip
import os
import re
import shutil
import struct
import subprocess
import sys
import tempfile
import time

sys.path.insert(0, os.path.dirname(os.path.dirname(os.path.abspath(__file__))))

import common  # noqa: E402
from common import ROOT, TESTS, install  # noqa: E402
from native import library  # noqa: E402
from pcf.orders import ORDERS  # noqa: E402
from pcf.rewriting import bitmap_format, by_box, reordered, with_bitmap_format  # noqa: E402

FONTS = ["xfonts-base", "xfonts-terminus", "xfonts-unifont"]
HEADERS = "/usr/include/freetype2"
KINDS = 6  # of known tables, which a font has at least once each
CODES = 65536 + 1024  # that are asked for of each font, as peers.h has it

# bdftopcf's options: row pad, bit order, byte order, scan unit
FORMATS = ["-p%d -%s -%s -u%d" % (pad, bits, order, unit)
           for pad in (1, 2, 4) for unit in (1, 2, 4) if unit <= pad for bits in "ml" for order in "LM"]
NOT_DRAWN = ["-p1 -m -L -u2", "-p1 -l -M -u4", "-p2 -l -L -u4"]
TURNS = FORMATS + NOT_DRAWN

# in these fonts a glyph's box is as wide as its character, so that document 01 and X11 lay out rows alike
IN_EVERY_ORDER = ["ter-u12n_iso-8859-1", "ter-u32b_iso-8859-1", "6x13-ISO8859-1", "18x18ja", "unifont_sample"]
FIRST = 300  # of their characters

# A glyph that does not fit compressed metrics, in which a number is below 128.
WIDE = b"SWIDTH 500 0\nDWIDTH 136 0\nBBX 136 1 0 0\nBITMAP\n%s\nENDCHAR\n\nENDFONT\n" % (b"A7" * 17)


def fail(text):
    common.fail("peers: " + text)


# ---- what is needed


def fonts_of(package):
    """the paths of a package's fonts"""
    if not shutil.which("dpkg"):
        return []
    listed = subprocess.run(["dpkg", "-L", package], stdout=subprocess.PIPE, stderr=subprocess.DEVNULL).stdout.decode()
    return sorted(path for path in listed.split("\n") if path.endswith((".pcf", ".pcf.gz")) and os.path.exists(path))


def needs():
    """what is there of each need, by the package that has it"""
    found = {package: bool(fonts_of(package)) for package in FONTS}
    found["libfreetype-dev"] = os.path.exists(os.path.join(HEADERS, "ft2build.h"))
    found["gcc"] = bool(shutil.which("gcc"))
    found["libc6-dev"] = os.path.exists("/usr/include/stdio.h")
    found["pcf2bdf"] = bool(shutil.which("pcf2bdf"))
    found["xfonts-utils"] = bool(shutil.which("bdftopcf"))
    return found


def missing():
    lacks = [package for package, there in needs().items() if not there]
    if lacks:
        install(*lacks)
        lacks = [package for package, there in needs().items() if not there]
    return lacks


# ---- the fonts


def uncompressed(path):
    with open(path, "rb") as f:
        content = f.read()
    return gzip.decompress(content) if path.endswith(".gz") else content


def names(bdf):
    """a line for each code: the code and its glyph's name"""
    found = re.findall(rb"^STARTCHAR (.*)\nENCODING (\d+)$", bdf, re.M)
    return b"".join(b"%s %s\n" % (code, name) for name, code in found)


def converted(words, what):
    got = common.run(*words)
    if got.returncode != 0:
        fail("%s fails for %s\n%s" % (words[0], what, got.stderr.decode(errors="replace")))
    return got.stdout


def as_is(paths, folder, lacks):
    """name, bytes and names of each font; its BDF is kept in the folder"""
    for k, path in enumerate(paths):
        bdf = b""
        if "pcf2bdf" not in lacks:
            bdf = converted(["pcf2bdf", path], path)
            with open(os.path.join(folder, "%d.bdf" % k), "wb") as f:
                f.write(bdf)
        yield os.path.basename(path), uncompressed(path), names(bdf)


def kept(folder, k):
    with open(os.path.join(folder, "%d.bdf" % k), "rb") as f:
        return f.read()


def formatted(bdf, options, folder, what):
    """the font that bdftopcf makes"""
    source, made = os.path.join(folder, "source.bdf"), os.path.join(folder, "made.pcf")
    with open(source, "wb") as f:
        f.write(bdf)
    converted(["bdftopcf", *options.split(), "-o", made, source], what)
    return uncompressed(made)


def in_rows_of_8(font):
    return reordered(font, bitmap_format(font) | 3, by_box)


def format_of(k):
    """bdftopcf's options for a font; whether its metrics have to have 12 bytes; whether the bitmaps get a format that
    bdftopcf does not write: rows of 8 bytes, or units of code 3"""
    options = TURNS[k % len(TURNS)]
    return options, k % 4 == 1, k // len(TURNS) % 2 == 1 and (options.startswith("-p4") or options in NOT_DRAWN)


def rewritten(paths, folder):
    """the same of each font in another format"""
    for k, path in enumerate(paths):
        options, wide, other = format_of(k)
        bdf = kept(folder, k)
        if wide:
            bdf = bdf[:bdf.rindex(b"\nSWIDTH ") + 1] + WIDE
        font = formatted(bdf, options, folder, path)
        if other:
            code_3 = bitmap_format(font) | 48
            font = with_bitmap_format(font, code_3) if options in NOT_DRAWN else in_rows_of_8(font)
        name = "%s, bdftopcf %s%s%s" % (os.path.basename(path), options, " wide" * wide, " changed" * other)
        yield name, font, names(bdf)


def first_characters(bdf):
    head, *characters = re.split(rb"(?m)^(?=STARTCHAR )", bdf)
    characters[-1] = characters[-1].replace(b"ENDFONT", b"")
    head = re.sub(rb"(?m)^CHARS \d+", b"CHARS %d" % min(FIRST, len(characters)), head)
    return head + b"".join(characters[:FIRST]) + b"ENDFONT\n"


def plain_name(path):
    return os.path.basename(path).split(".")[0]


def in_every_order(paths, folder):
    """name, bytes and names of some fonts in each order"""
    for k, path in enumerate(paths):
        called = plain_name(path)
        if called not in IN_EVERY_ORDER:
            continue
        bdf = first_characters(kept(folder, k))
        for options in FORMATS:
            font = formatted(bdf, options, folder, path)
            yield "%s, bdftopcf %s" % (called, options), font, names(bdf)
            if options.startswith("-p4"):
                yield "%s, bdftopcf %s, then rows of 8" % (called, options), in_rows_of_8(font), b""


# ---- comparing


def build(folder):
    archive, words = library.for_this_machine()
    program = os.path.join(folder, "peers")
    library.run("gcc", "-Wall", "-Wextra", "-Werror", "-std=c99", "-O2", "-I", os.path.join(ROOT, "include"), "-I",
                HEADERS, *sorted(glob.glob(os.path.join(TESTS, "peers", "*.c"))), archive, "-lfreetype", "-o", program)
    return program, words


def compared(program, folder, given):
    """what the program counts over the fonts, and the dumps' digests; ends the test at a difference"""
    said = os.path.join(folder, "said")
    with open(said, "wb") as out:
        running = subprocess.Popen([program], stdin=subprocess.PIPE, stdout=out)
        try:
            for name, content, lines in given:
                parts = name.encode(), content, lines
                running.stdin.write(struct.pack("=3Q", *map(len, parts)) + b"".join(parts))
            running.stdin.close()
        except BrokenPipeError:
            pass
        status = running.wait()
    with open(said, encoding="latin-1") as f:
        text = f.read()
    count = {name: int(n) for name, n in re.findall(r"^= (\w+) (\d+)$", text, re.M)}
    if status != 0:
        print(re.sub(r"^(=|dump) .*\n", "", text, flags=re.M), end="")
        fail("%s differences, the first of them above" % count.get("differences", "status %d; no count of" % status))
    return count, re.findall(r"^dump (\w+) (\w+) (\d+) ([^,\n]*)", text, re.M)


REPORT = """\
peers: {fonts} {what} read by both, {neither} by neither
    {strictly} load strictly, each with the record that loading gives; strict loading and vetting refuse {two_formats} \
with a bit of one table's own format changed, at the table's entry
    {long_metrics} have metrics of 12 bytes, {padded_to_8} rows padded to 8, {usual} one-byte units with the top bit \
leftmost
    vetting passes {vetted}, refuses 11 {refused_11}, 13 {refused_13}, 14 {refused_14}; as FreeType's metrics and the \
bitmaps' offsets have it, with the code
    properties: {numbers} numbers, {strings} strings; skipped {repeated} with the name of an earlier one
    codes: {with_glyph} with a glyph, {without_glyph} without
    glyphs: {metrics} with their metrics, {bitmaps} bitmaps, {empty} of them empty; not drawn (13) {not_drawn}
    default glyphs among these: {defaults}, and of fonts whose default code has no glyph {no_default}
    bounds: {bounds} fonts have those of FreeType's glyphs
    characters: {characters} drawn and unpacked; {cut} of them are cut at a width below the box's, {wider} are wider, \
their columns past the box not compared
    characters skipped: {out_of_range} refused 11, {other_rows} whose rows take other bytes than the box's
    reasons: {why_31} codes above 65,535, {why_32} outside the first-byte bounds, {why_33} outside the second-byte \
ones, {why_34} empty entries; 11 {why_11}, 13 {why_13}, 14 {why_14}; {why_36} blank, {why_37} drawn, of which \
{why_of_other_rows} may be either, as their rows take other bytes than the box's
    reasons of the others on a page that ends about the glyph: 16 {short_16}, rows cut {short_35}, {short_36} blank, \
{short_37} drawn; with records that count it no more 10 {fewer_10}, 12 {fewer_12}
    texts: {texts} with {letters} letters
    default mode: the default code has a glyph in {fonts_with_default} fonts and none in {fonts_without_default}; \
{default_own} codes have a glyph of their own, {default_taken} take the default's, {default_none} have none
    characters that take it: {default_placed} placed, {default_drawn} of them drawn; texts with codes that have no \
glyph: {default_texts} with {default_letters} letters
    names: {names}
    differences: {differences}"""


def checked_reasons(what, count):
    """every code of every font has a reason, and hardly any glyph is one whose bitmap is not compared"""
    without, having = (sum(count["why_%d" % number] for number in numbers) for numbers in (
        (31, 32, 33, 34), (11, 13, 14, 36, 37)))
    if (without, having) != (count["without_glyph"], count["with_glyph"]) or without + having != CODES * count["fonts"]:
        fail("%s: %d reasons of codes without a glyph and %d of others, %s" % (what, without, having, count))
    compared = count["why_36"] + count["why_37"] - count["why_of_other_rows"]
    short = sum(count["short_%d" % number] for number in (16, 35, 36, 37))
    if {short, count["fewer_10"], count["fewer_12"]} != {compared}:
        fail("%s: %d glyphs have a bitmap to compare, %s" % (what, compared, count))
    if 100 * count["why_of_other_rows"] > count["with_glyph"]:
        fail("%s: whether a glyph is blank is not compared in %d of %d" % (
            what, count["why_of_other_rows"], count["with_glyph"]))


def checked_defaults(what, count):
    """every code of every font is looked up in default mode, and has its own glyph there as in plain mode"""
    looked_up = count["default_own"] + count["default_taken"] + count["default_none"]
    if count["default_own"] != count["with_glyph"] or looked_up != CODES * count["fonts"]:
        fail("%s: not every code is looked up in default mode, %s" % (what, count))
    if count["fonts_with_default"] + count["fonts_without_default"] != count["fonts"]:
        fail("%s: not every font is looked up in default mode, %s" % (what, count))


def report(what, count, given, *more):
    """what was counted of so many fonts given; some of `more` has to be there too"""
    for name in ("fonts", "bounds", "vetted", "numbers", "strings", "with_glyph", "bitmaps", "characters", "texts",
                 "why_31", "why_33", "why_34", "why_36", "why_37", "short_16", "short_35", "short_36", "short_37",
                 "fonts_with_default", "default_taken", "default_placed", "default_drawn", "default_texts", *more):
        if count[name] == 0:
            fail("%s: nothing was compared, %s" % (what, count))
    if count["strictly"] != given:
        fail("%s: %d of %d load strictly" % (what, count["strictly"], given))
    if count["two_formats"] < KINDS * given:
        fail("%s: a bit was changed in %d tables of %d fonts" % (what, count["two_formats"], given))
    checked_reasons(what, count)
    checked_defaults(what, count)
    print(REPORT.format(what=what, **count))


def checked_formats(count, fonts):
    """the rewritten fonts have the formats that were asked for"""
    formats = [format_of(k) for k in range(fonts)]
    asked = {
        "refused_13": sum(options in NOT_DRAWN for options, _, _ in formats),
        "padded_to_8": sum(other and options not in NOT_DRAWN for options, _, other in formats),
        "usual": sum("-m" in options and "-u1" in options for options, _, _ in formats),
    }
    for name, fonts_asked in asked.items():
        if count[name] != fonts_asked:
            fail("%d fonts were to count as %s, %d do" % (fonts_asked, name, count[name]))
    wide = sum(wide for _, wide, _ in formats)
    if count["long_metrics"] < wide:
        fail("%d fonts have too wide a glyph, %d have metrics of 12 bytes" % (wide, count["long_metrics"]))


def checked_dumps(dumps, fonts):
    """all rewritings of one font have the same content of a dump, and in FreeType the same bitmaps"""
    found = {}
    for ours, peers, lines, called in dumps:
        found.setdefault(called, []).append((ours, peers, lines))
    if set(found) != fonts:
        fail("there are dumps of %s, not of %s" % (sorted(found), sorted(fonts)))
    for called, seen in found.items():
        if len(seen) != len(ORDERS) or len(set(seen)) != 1:
            fail("%s has %d contents in %d of %d orders" % (called, len(set(seen)), len(seen), len(ORDERS)))
        print("peers: %s has one content of a dump, %s lines, in %d orders, and one set of bitmaps" % (
            called, seen[0][2], len(seen)))


def compare_orders(program, folder, paths):
    there = set(IN_EVERY_ORDER) & set(map(plain_name, paths))
    absent = [called for called in IN_EVERY_ORDER if called not in there]
    if absent:
        print("peers: not there to be written in every order: %s" % ", ".join(absent))
    if there:
        count, dumps = compared(program, folder, in_every_order(paths, folder))
        report("fonts (%d, each in every order)" % len(there), count, len(there) * len(ORDERS))
        checked_dumps(dumps, there)


def main():
    begun = time.monotonic()
    lacks = missing()
    paths = [path for package in FONTS for path in fonts_of(package)]
    if {"gcc", "libc6-dev", "libfreetype-dev"} & set(lacks) or not paths:
        print("peers: not run, because these packages are not there: %s" % ", ".join(lacks))
        return
    with tempfile.TemporaryDirectory() as folder:
        program, words = build(folder)
        print("peers: %s beside FreeType" % words)
        if lacks:
            print("peers: without %s, not to be had here" % ", ".join(lacks))
        packages = ", ".join(package for package in FONTS if package not in lacks)
        more = () if set(FONTS) & set(lacks) else ("why_11", "why_32", "fonts_without_default", "default_none")
        report("fonts of " + packages, compared(program, folder, as_is(paths, folder, lacks))[0], len(paths), *more)
        if not {"pcf2bdf", "xfonts-utils"} & set(lacks):
            count, _ = compared(program, folder, rewritten(paths, folder))
            report("fonts rewritten by bdftopcf in %d formats" % len(TURNS), count, len(paths), *more, "why_13")
            checked_formats(count, len(paths))
            compare_orders(program, folder, paths)
    print("peers: %d seconds" % (time.monotonic() - begun))


if __name__ == "__main__":
    try:
        main()
    except library.Failed as failed:
        fail(str(failed))
