"""Why a character is not on the glass: every reason, in the words that tests/reasons makes of the model's, and the ways
to ask."""
import gzip
import os
import subprocess

import model
from command.refusals import meaning, standing
from command.script import count, expect, run, store
from command.shows import MOST_SHOWN
from common import ROOT, fail
from panel import expected as panel
from pcf.font_f import two_digits
from reasons import expected as stored_run
from reasons import fonts, lines

seen = set()             # the reasons that were given
seen_by_default = set()  # and those of the default character's glyph
PLACE = dict(width=stored_run.WIDTH, height=stored_run.HEIGHT, start=stored_run.START, scale=stored_run.SCALE)


def vetting(name, font):
    """what is said on standard error of a font that loads and that vetting refuses"""
    try:
        model.vet(font)
    except model.Refused as r:
        words = "refused %02d: %s (%s)\n" % (r.number, meaning(r.number), standing(r) + name)
        return ["show does not take this font: " + words]
    return []


def taken(words, code):
    """what is said of a number that is taken for a code"""
    return ["%s is taken for the code U+%04X; for the text write -- %s\n" % (word, code, word)
            for word in words if code is not None and word.isdecimal()]


def told(what, got, name, font, answers, said=()):
    """the lines, the status, and what is said of a number and by vetting"""
    numbers = [number for number, _ in answers]
    seen.update(numbers)
    seen_by_default.update(number for number, line in answers if ", by the default character " in line)
    status = 0 if set(numbers) <= {lines.DRAWN} else 1
    expect(what, got, status, "".join(line for _, line in answers).encode(), [*said, *vetting(name, font)])


def asked(folder, name, font, words, text=None, code=None, width=72, height=21, start=0, stride=None, scale=1,
          mode=model.PLAIN, **more):
    """asks with these words for a text or a code"""
    at = lines.Place(width * height, start, width if stride is None else stride, scale)
    rec = model.load(font)
    answers = lines.of_text(font, rec, mode, text, at) if code is None else [lines.of_code(font, rec, mode, code, at)]
    told("why %s" % words, run("why", name, *words, folder=folder, **more), name, font, answers, taken(words, code))


def every_reason(folder):
    every = fonts.every()
    name = store(folder, "every.pcf", every)
    options = ["--%s=%d" % option for option in PLACE.items()]
    asked(folder, name, every, [fonts.TEXT, *options], fonts.TEXT, **PLACE)
    asked(folder, name, every, [fonts.TEXT], fonts.TEXT)
    for c in fonts.TEXT:
        asked(folder, name, every, ["U+%04X" % ord(c), *options], code=ord(c), **PLACE)
    for k, font in enumerate(fonts.bad_orders()):
        asked(folder, store(folder, "order_%d.pcf" % k, font), font, ["01a"], "01a")
    for font, text in (("meter.pcf", "Grüße, 8 m³\u2009😀"), ("f.pcf", "0 1"), ("f.pcf.gz", "1\n0")):
        own = panel.meter.stored_font() if font == "meter.pcf" else two_digits()
        asked(folder, font, own, [text], text)
    lacking = set(model.REASONS) - seen
    if lacking:
        fail("no character has the reasons %s" % sorted(lacking))


def by_default(folder):
    """in default mode: every reason of the default character's glyph, and each way in which that has none"""
    def of_default(name, font, words, text=None, **more):
        asked(folder, name, font, ["--default", *words], text, mode=panel.DEFAULT, **more)

    options = ["--%s=%d" % option for option in PLACE.items()]
    for default in [ord(c) for c in fonts.TEXT if ord(c) < 65536] + [0, 0xFFFF]:
        font = fonts.every(default)
        name = store(folder, "default.pcf", font)
        of_default(name, font, [fonts.TEXT, *options], fonts.TEXT, **PLACE)
        for code in (0xFFFFFFFF, default):
            of_default(name, font, ["U+%04X" % code], code=code)
    for k, font in enumerate(fonts.bad_orders()):
        of_default("order_%d.pcf" % k, font, ["01a"], "01a")
    f, own = two_digits(), panel.meter.stored_font()
    for font, text, _, _ in panel.default_cases():
        if text:
            of_default(store(folder, "default.pcf", font), font, ["--", text], text)
    of_default("meter.pcf", own, ["Grüße, 8 m³\u2009😀"], "Grüße, 8 m³\u2009😀")
    of_default("meter.pcf", own, ["ü", "--default", "--scale=2"], "ü", scale=2)
    of_default("f.pcf", f, ["--", "--default"], "--default")
    asked(folder, "f.pcf", f, ["--", "--default"], "--default")
    for locale in ("C", "C.UTF-8"):
        of_default("meter.pcf", own, ["süß ²³"], "süß ²³", LC_ALL=locale)
    lacking = set(model.REASONS) - {31, 32, 33, 34} - seen_by_default
    if lacking:
        fail("no default character has the reasons %s" % sorted(lacking))


def two_bytes(folder):
    """an example that is in the repository, asked for by its whole path: codes inside and outside both bounds"""
    path = os.path.join(ROOT, "examples", "big_two_byte.pcf")
    with open(path, "rb") as f:
        font = f.read()
    c = model.load(font)["codes"]
    for first in (0, c["low1"] - 1, c["low1"], c["high1"], c["high1"] + 1):
        for second in (0, c["low2"] - 1, c["low2"], c["high2"], c["high2"] + 1, 255):
            if 0 <= first and 0 <= second:
                asked(folder, path, font, ["U+%04x" % (256 * first + second)], code=256 * first + second)


def ways_to_ask(folder):
    f, own = two_digits(), panel.meter.stored_font()

    def of_f(words, text=None, **more):
        asked(folder, "f.pcf", f, words, text, **more)

    def of_meter(words, text=None, **more):
        asked(folder, "meter.pcf", own, words, text, **more)

    for one in "8é ~€😀U+/":
        of_meter([one], one)
    for code in (0, 0xA, 0xD, 0x20, 0x30, 0x38, 0x7F, 0xD800, 0xDFFF, 0xFFFF, 0x10000, 0x10FFFF, 0x110000, 0xFFFFFFFF):
        for form in ("U+%X", "U+%08x", "u+%04x", "0x%x", "0X%08X", "%02d", "000%d"):
            of_meter([form % code], code=code)
    for text in ("U+", "U+G", "u+", "U+30 ", "+30", "-1", "1.5", "0x", "0xG", "x30", "00x30", "0x3 ", "U+0x30", " 30",
                 "3 0", "²³", "1²", "0x３", "U+３"):
        of_meter([text], text)
    of_meter([panel.TEXT.decode()], panel.TEXT.decode())
    for text in ("U+0030", "u+0030", "0x41", "65", "--", "--scale", "8"):
        of_meter(["--", text], text)
    of_meter(["--scale=2", "--", "08"], "08", scale=2)
    both = lines.of_text(f, model.load(f), model.PLAIN, "00", lines.Place(72 * 21, 0, 72, 1))
    told("the font after the dashes", run("why", "--", "f.pcf", "00", folder=folder), "f.pcf", f, both)
    for locale in ("C", "C.UTF-8"):
        of_meter(["süß ²³"], "süß ²³", LC_ALL=locale)
    unknown_locale(folder)
    of_f(["00"], code=0)
    of_f(["0", "--start", "1503"], "0", start=1503)
    of_f(["0", "--start", "1512"], "0", start=1512)
    of_f(["0", "--start=1365"], "0", start=1365)
    of_f(["0", "--start=2147483647"], "0", start=2147483647)
    of_f(["--stride", "3", "0", "--width=9", "--height", "1"], "0", width=9, height=1, stride=3)
    of_f(["--stride", "2", "--width=7", "--height", "1", "--", "01"], "01", width=7, height=1, stride=2)
    of_f(["0", "--scale", "0064"], "0", scale=64)
    of_f(["0", "--scale", "3", "--scale=2"], "0", scale=2)
    of_f(["--scale=64", "--width=192", "--height=192", "--", "01"], "01", scale=64, width=192, height=192)
    of_f(["0", "--width", "4294967295", "--height=4294967295", "--stride=65535"], "0", width=4294967295,
         height=4294967295, stride=65535)
    of_f(["0", "--width=65535", "--height=4294967295", "--start=2147483647"], "0", width=65535, height=4294967295,
         start=2147483647)
    panels(of_f, of_meter)
    of_meter(["\n" * 65535], "\n" * 65535)
    full = f + bytes(MOST_SHOWN - len(f))
    asked(folder, store(folder, "wide.pcf", full), full, ["1"], "1")
    asked(folder, "f.pcf.gz", f, ["1"], "1")
    asked(folder, "a folder/two  digits.pcf", f, ["1"], "1")


def panels(of_f, of_meter):
    """places near the ends of lines and of the panel, at scale 1 and above"""
    for height in range(1, 9):
        for start in (0, 6):
            of_meter(["8", "--height=%d" % height, "--start=%d" % start], "8", height=height, start=start)
    for scale in (1, 2, 3):
        for start in range(65, 74):
            of_meter(["8", "--start=%d" % start, "--scale=%d" % scale], "8", start=start, scale=scale)
        for start in range(12):
            place = dict(width=4, height=3, start=start, scale=scale)
            of_f(["0", *("--%s=%d" % option for option in place.items())], "0", **place)
        for height in range(1, 12):
            of_meter(["8", "--scale=%d" % scale, "--height=%d" % height], "8", scale=scale, height=height)
    of_f(["0", "--width=1", "--height=1"], "0", width=1, height=1)
    of_f(["0", "--width=1", "--height=1", "--start=1"], "0", width=1, height=1, start=1)
    of_meter(["8", "--stride=5"], "8", stride=5)


def unknown_locale(folder):
    """one that is not installed: bash says so when it starts, and nothing more is said"""
    locale = dict(LC_ALL="none_such.UTF-8")
    started = subprocess.run(["bash", "-c", ":"], stderr=subprocess.PIPE, env={**os.environ, **locale}).stderr
    got = run("why", "f.pcf", "U+0030", folder=folder, **locale)
    count()
    if (got.returncode, got.stderr) != (0, started):
        fail("in an unknown locale: exit status %d, %s" % (got.returncode, got.stderr.decode()))


def refused(folder):
    """fonts that do not load, and arguments that the library refuses"""
    def refuses(what, said, *words, status=2):
        expect(what, run("why", *words, folder=folder), status, b"", said)

    limits = "refused 15: %s, a stride 1 to 65,535, a start at most 2,147,483,647\n" % meaning(15)
    for words in (["--scale=0"], ["--scale=65"], ["--stride=0"], ["--stride=65536"], ["--width=65536"],
                  ["--start=2147483648"], ["--start=4294967295", "--scale", "4294967295"]):
        refuses("why with %s" % words, limits, "f.pcf", "0", *words)
        refuses("a code with %s" % words, limits, "f.pcf", "U+0030", *words)
        refuses("a number with %s" % words, limits, "f.pcf", "48", *words)
    refuses("not UTF-8", "refused 19: %s (at byte 2 of the text)" % meaning(19), "f.pcf", b"12\xff3")
    refuses("a cut character", "(at byte 3 of the text)", "f.pcf", b"21 \xc2")
    refuses("too long", "refused 19: %s (at byte 0 of the text)" % meaning(19), "f.pcf", "a" * 65536)
    for name in sorted(os.listdir(folder)):
        if name.startswith("refused_") and name.endswith(".pcf"):
            with open(os.path.join(folder, name), "rb") as file:
                font = file.read()
            try:
                model.load(font)
            except model.Refused as r:
                said = "refused %02d: %s (%s)\n" % (r.number, meaning(r.number), standing(r) + name)
                refuses(name, said, name, "0", status=1)
                refuses(name + ", and no scale", said, name, "0", "--scale=0", status=1)
                continue
            asked(folder, name, font, ["01\U0001F600"], "01\U0001F600")
            asked(folder, name, font, ["48"], code=48)


def not_asked(folder):
    """what why cannot take"""
    def fails(what, said, *words):
        expect(what, run("why", *words, folder=folder), 2, b"", said)

    fails("nothing", "why takes a font and a character")
    fails("no character", "why takes a font and a character", "f.pcf")
    fails("no character, but options", "why takes a font and a character", "f.pcf", "--scale", "2")
    fails("an empty text", "why takes a character", "f.pcf", "")
    fails("an empty text behind dashes", "why takes a character", "f.pcf", "--", "")
    fails("an empty text, and no scale", "why takes a character", "f.pcf", "", "--scale=0")
    fails("two characters", "why takes one font and one character", "f.pcf", "0", "1")
    fails("an unknown option", "why has no option '--wrap'", "f.pcf", "0", "--wrap", "3")
    fails("a font as an option", "why has no option '--font'", "--font=f.pcf", "0")
    for value in ("", "yes", "1"):
        fails("--default=" + value, "--default takes no value", "f.pcf", "0", "--default=" + value)
    fails("no character, but --default", "why takes a font and a character", "f.pcf", "--default")
    fails("an option without its value", "--start takes a value", "f.pcf", "0", "--start")
    for option in ("--start", "--stride", "--scale", "--width", "--height"):
        for value in ("", "x", "-1", "1.5", "0x10", "1 2"):
            said = "%s takes a number in decimal digits" % option
            fails("%s %s" % (option, value), said, "f.pcf", "0", option, value)
        fails("a great " + option, "%s takes at most 4,294,967,295" % option, "f.pcf", "0", option, "4294967296")
    fails("a width of 0", "at least 1 pixel", "f.pcf", "0", "--width=0")
    fails("a height of 0", "at least 1 pixel", "f.pcf", "0", "--height=00")
    fails("a great code", "CHARACTER takes at most 4,294,967,295, not 4294967296", "f.pcf", "4294967296")
    fails("a code of many digits", "CHARACTER takes at most", "f.pcf", "9" * 40)
    for code in ("U+000000030", "u+000000030", "0x000000030", "0X" + "F" * 40):
        fails("a code of nine digits or more", "a code has eight hexadecimal digits at most", "f.pcf", code)
    fails("no such font", "no such file: none.pcf", "none.pcf", "0")
    fails("no name of a font", "no such file", "", "0")
    fails("a folder for a font", "a folder", "a folder", "0")
    fails("a damaged font", "not readable", "cut.pcf.gz", "0")
    fails("too long a font", "over the limit of 573,440 bytes", "too_long.pcf", "0")
    packed = store(folder, "too_long.pcf.gz", gzip.compress(bytes(MOST_SHOWN + 1)))
    fails("compressed, too long", "over the limit of 573,440 bytes", packed, "0")
