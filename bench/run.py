#!/usr/bin/env python3
"""Times the port against 000, the Rust original, and against plain loops in C that test nothing, and counts each side's
instructions, on the same calls.

    bench/run.py [--quick | --write] [--only CALL]

Prints the tables; with --write puts them into docs/PERFORMANCE.md. With --quick each call is made once and the sides'
pixels and answers are compared, and nothing is timed. --only takes the lines of one call, as draw_string. A difference
ends with status 1.

Rows in other orders than 000's, which it does not draw, are measured and compared beside the same rows in its order,
both drawn by the port."""
import argparse
import gzip
import os
import platform
import shutil
import subprocess
import sys

HERE = os.path.dirname(os.path.abspath(__file__))
ROOT = os.path.dirname(HERE)
FOLDER = os.path.join(ROOT, "target", "bench")
PAGE = os.path.join(ROOT, "docs", "PERFORMANCE.md")
MISC = "/usr/share/fonts/X11/misc"
sys.path[:0] = [HERE, os.path.join(ROOT, "tests")]

import goals  # noqa: E402
import tables  # noqa: E402
from common import install  # noqa: E402
from native import library  # noqa: E402
from original import build  # noqa: E402
from pcf import reading, twins  # noqa: E402
from pcf.orders import order_bits  # noqa: E402
from pcf.rewriting import reordered  # noqa: E402

CALLS = ("draw_glyph", "draw_string", "text_check", "unpack_glyph", "load", "lookup", "vet")
SIZES = {"6x12": 12, "8x14": 14, "8x16": 16, "10x20": 20, "12x24": 24, "14x28": 28, "16x32": 32}  # Terminus
ROWS = (1, 4, 16, 64, 256)  # of Unifont's table of 256 rows of 256 codes

# Terminus in other orders of rows. Units are reversed where the last byte of one has its leftmost columns, as it is
# where byte order and bit order disagree. The row pad is that of the fonts as they are, so that rows are as long.
REORDERED = ("6x12", "8x16", "16x32")
ORDERS = {
    "1-byte units, lowest bit left": order_bits(big=True, top=False, unit=1, pad=4),
    "4-byte units reversed, top bit left": order_bits(big=False, top=True, unit=4, pad=4),
    "4-byte units reversed, lowest bit left": order_bits(big=True, top=False, unit=4, pad=4),
}

# Each function begins at a cache line: where in one it begins, which otherwise all that is linked before decides, moved
# its times by a tenth.
GCC_FLAGS = ("-O2", "-falign-functions=64")


def tools():
    """sees that what makes the library for this machine, and the loops in C, is there"""
    if not shutil.which("rt"):
        raise build.Missing("the Rattle kit's command 'rt' is not on the PATH")
    if not (shutil.which("gcc") and shutil.which("ar")):
        install("gcc", "binutils")


def debian_font(package, name):
    path = os.path.join(MISC, name)
    if not os.path.exists(path):
        install(package)
    if not os.path.exists(path):
        raise build.Missing("%s, of Debian's %s, is not there" % (name, package))
    with gzip.open(path) as f:
        return f.read()


def make_fonts(folder):
    """the folder of twins, and how many codes have a glyph in those that have Unifont's first codes"""
    shutil.rmtree(folder, ignore_errors=True)
    os.makedirs(folder)

    def store(name, font):
        with open(os.path.join(folder, name + ".pcf"), "wb") as out:
            out.write(font)
    for name, height in SIZES.items():
        font = twins.twin(debian_font("xfonts-terminus", "ter-u%dn_unicode.pcf.gz" % height))
        store(name, font)
        for order, form in ORDERS.items() if name in REORDERED else ():
            store("%s, %s" % (name, order), reordered(font, form))
    unifont = debian_font("xfonts-unifont", "unifont.pcf.gz")
    store("unifont", twins.twin(unifont))
    with_glyph = {}
    for rows in ROWS:
        name = "unifont-%d" % (256 * rows)
        store(name, twins.twin(unifont, rows))
        with_glyph[name] = reading.codes_with_glyph(unifont, rows)
    return folder, with_glyph


def plain():
    """the loops in C, compiled for a program that may lie anywhere, as rustc makes it"""
    made = os.path.join(FOLDER, "plain.o")
    library.run("gcc", *GCC_FLAGS, "-fPIE", "-c", os.path.join(HERE, "plain.c"), "-o", made)
    return made


def driver(archive):
    build.crate(FOLDER, os.path.join(ROOT, "tests", "original", "appended.rs"))
    return build.program(FOLDER, os.path.join(HERE, "driver.rs"), archive, "-C", "link-arg=" + plain())


def said(*words):
    got = subprocess.run(words, stdout=subprocess.PIPE, stderr=subprocess.PIPE)
    if got.returncode != 0:
        sys.exit("bench: %s" % got.stderr.decode(errors="replace")[-2000:].strip())
    return [line.split("\t") for line in got.stdout.decode().splitlines()]


# ---- instructions


def callgrind(program, fonts, only):
    """instructions of a call, for each line and side; each call is counted twice, and has to repeat"""
    if not shutil.which("valgrind"):
        install("valgrind")
    if not shutil.which("valgrind"):
        print("bench: instructions are not counted, because valgrind is not there", file=sys.stderr)
        return {}
    folder = os.path.join(FOLDER, "counts")
    shutil.rmtree(folder, ignore_errors=True)
    os.makedirs(folder)
    out = os.path.join(folder, "part")
    lines = said("valgrind", "-q", "--tool=callgrind", "--collect-atstart=no", "--callgrind-out-file=" + out, program,
                 fonts, "count", *only)

    def total(number):
        with open("%s.%d" % (out, number)) as part:
            return next(int(line.split()[1]) for line in part if line.startswith("totals:"))
    counts = {}
    nothing = total(1)
    for k, (*key, per) in enumerate(lines):
        one, other = total(2 * k + 2) - nothing, total(2 * k + 3) - nothing
        if one != other:
            sys.exit("bench: the count of %s does not repeat: %d, %d" % (" ".join(key), one, other))
        counts[tuple(key)] = one / int(per)
    return counts


# ---- what is printed


def machine(what):
    """the machine, the compilers and what was linked, in words"""
    model = "an unknown processor"
    if shutil.which("lscpu"):
        said_of = dict(line.split(":", 1) for line in subprocess.run(
            ["lscpu"], stdout=subprocess.PIPE, env={**os.environ, "LC_ALL": "C"}).stdout.decode().splitlines()
            if ":" in line)
        model = said_of.get("Model name", model).strip()
    rustc = subprocess.run(["rustc", "--version"], stdout=subprocess.PIPE).stdout.decode().split(" (")[0]
    gcc = subprocess.run(["gcc", "-dumpfullversion"], stdout=subprocess.PIPE).stdout.decode().strip()
    return ("Machine: %s, %s. Compiler of 000: %s, opt-level 3, without overflow checks; of the loops in C: gcc %s, "
            "%s. The port: %s." % (platform.machine(), model, rustc, gcc, " ".join(GCC_FLAGS), what))


def measure(program, fonts, only):
    counts = callgrind(program, fonts, only)
    times = {tuple(line[:5]): tuple(map(float, line[5:])) for line in said(program, fonts, "time", *only)}
    return tables.Measured(times, counts)


def parts(what, measured, with_glyph):
    """title and text of each part, by the name of its mark in docs/PERFORMANCE.md"""
    made = {"machine": ("", machine(what))}
    for name, title, (heads, rows) in (
            ("goals", "Goals", goals.table(measured)),
            ("calls", "Calls", tables.calls(measured)),
            ("orders", "Rows in other orders, beside the usual one", tables.orders(measured)),
            ("length", "draw_string, 8x16, scale 1, wrapped after 40 characters", tables.length(measured)),
            ("scale", "draw_string, 60 characters, 8x16", tables.scale(measured)),
            ("size", "draw_glyph, scale 1", tables.size(measured)),
            ("codes", "Unifont with its first codes", tables.codes(measured, with_glyph))):
        if rows:
            made[name] = title, tables.text(heads, rows)
    return made


def write(made):
    """replaces what stands between the marks"""
    with open(PAGE, encoding="utf-8") as f:
        page = f.read()
    for name, (_, text) in made.items():
        start, end = "<!-- %s -->\n" % name, "<!-- end of %s -->" % name
        if page.count(start) != 1 or page.count(end) != 1:
            sys.exit("bench: %s has not one mark %s" % (PAGE, name))
        page = page[:page.index(start) + len(start)] + text + "\n" + page[page.index(end):]
    with open(PAGE, "w", encoding="utf-8") as f:
        f.write(page)


def agreement(cases):
    """cases: the sides that agree in each"""
    beside = [sum(side in case for case in cases) for side in (tables.ORIGINAL, tables.IN_C, tables.USUAL_ORDER)]
    return ("bench: %d cases in which port and 000 agree, in %d of them the loops in C too, %d in which another order "
            "of rows gives the usual one's pixels, and %d that the port alone has; not timed" % (
                *beside, cases.count([tables.PORT])))


def options():
    words = argparse.ArgumentParser(prog="bench/run.py")
    words.add_argument("--quick", action="store_true", help="make each call once and compare; time nothing")
    words.add_argument("--write", action="store_true", help="put the tables into docs/PERFORMANCE.md")
    words.add_argument("--only", choices=CALLS, help="the lines of one call")
    asked = words.parse_args()
    if asked.write and (asked.quick or asked.only):
        words.error("--write takes all lines, timed")
    return asked


def main():
    asked = options()
    only = [asked.only] if asked.only else []
    try:
        build.text()
        tools()
        archive, what = library.for_this_machine()
        program = driver(archive)
        fonts, with_glyph = make_fonts(os.path.join(FOLDER, "fonts"))
    except build.Missing as missing:
        print("bench: not run, because %s" % missing)
        return
    except (library.Failed, RuntimeError) as failed:
        sys.exit("bench: %s" % failed)
    if asked.quick:
        print(agreement(said(program, fonts, "check", *only)))
        return
    made = parts(what, measure(program, fonts, only), with_glyph)
    print("\n\n".join("\n\n".join(filter(None, part)) for part in made.values()))
    if asked.write:
        write(made)


if __name__ == "__main__":
    main()
