"""What the commands refuse, what `show` cannot take, and output that cannot be written."""
import os

import model
from command.script import expect, run, store
from command.shows import MOST_SHOWN, drawn_by_model
from common import fail
from dump import make
from exports.header import c_words
from pcf.font_f import DIGITS, two_digits
from pcf.rewriting import LAST_BIT, with_own_format_bit


def meaning(number):
    """the header's words, and what the script adds to them"""
    added = {
        8: "; properties, accelerators, metrics, bitmaps, codes and names must be there",
        11: ", of a code's glyph or of the font's bounds; often a left bearing or an ascent below 0",
        15: "; a scale may be 1 to 64",
        27: "; one of the two is wrong: have the font made anew, as by bdftopcf",
    }
    words = c_words()[number]
    return (words.partition(";")[0] if number == 6 else words) + added.get(number, "")


def standing(r):
    """what the place of a font's refusal is"""
    if r.number in (5, 6, 7, 27):
        return "directory entry %d of " % r.place
    if r.number == 18:
        return "property %d, or the name of code %04X, of " % (r.place, r.place)
    if r.number == 11 and r.place == 0:
        return "the bounds, or code 0000, of "
    return "code %04X of " % r.place if r.number in (10, 11, 12, 14, 17) else ""


def refused_fonts():
    """of each number that vetting gives the first font that it refuses: the file, its bytes, and the script's words"""
    seen = set()
    for name, font in make.font_files().items():
        number = name[8:10]
        if not name.startswith("refused_") or number in seen:
            continue
        seen.add(number)
        try:
            model.vet(font)
        except model.Refused as r:
            yield name, font, "refused %02d: %s (%s)\n" % (r.number, meaning(r.number), standing(r) + name)
            continue
        fail("%s is not refused" % name)


def not_shown(folder):
    """what `show` refuses: nothing on standard output, no picture, and the number and the place in words"""
    def refused(what, said, *words):
        expect(what, run("show", *words, "--pbm", "none.pbm", folder=folder), 1, b"", said)
        if os.path.exists(os.path.join(folder, "none.pbm")):
            fail("%s: a picture of what was refused" % what)

    def refused_by_model(number, place, text, *sizes):
        try:
            drawn_by_model(two_digits(), text, *sizes)
        except model.Refused as r:
            if (r.number, r.place) == (number, place):
                return
        fail("the model does not refuse %s with %d at %d" % (text, number, place))

    for scale in (0, 65, 4294967295):
        refused("scale %d" % scale, "refused 15: %s\n" % meaning(15), "--scale", str(scale), "12")
    beyond = "refused 16: " + meaning(16) + " (at byte %d of the text)"
    refused_by_model(16, 0, b"0", 6, 4, 2, None)
    refused("beyond the panel", beyond % 0, "0", "--font=f.pcf", "--scale=2", "--width=6", "--height=4", "--wrap=none")
    refused_by_model(16, 1, b"10", 6, 6, 2, None)
    refused("beyond the panel, later", beyond % 1, "10", "--font=f.pcf", "--scale=2", "--width=6", "--height=6",
            "--wrap=none")
    refused("not UTF-8", "refused 19: %s (at byte 2 of" % meaning(19), b"12\xff3")
    refused("a cut character", "(at byte 3 of the text)", b"21 \xc2")
    refused("too long", "refused 19: %s (at byte 0 of" % meaning(19), "1" * 65536)
    refused("much too long", "refused 19", "1" * 100000)
    for name, font, said in refused_fonts():
        expect(name, run("show", "--font", store(folder, name, font), "12", folder=folder), 1, b"", said)


def two_formats(folder):
    """F with a bit of one table's own format changed: `show` and `record` name the table's directory entry and the
    reason, `dump` the reason"""
    for entry in range(len(DIGITS)):
        name = store(folder, "two_formats_%d.pcf" % entry, with_own_format_bit(two_digits(), entry, LAST_BIT))
        said = "refused 27: %s (directory entry %d of %s)\n" % (meaning(27), entry, name)
        expect(name + ", shown", run("show", "--font", name, "01", folder=folder), 1, b"", said)
        expect(name + ", recorded", run("record", name, folder=folder), 1, b"", said)
        said = "%s is refused: %s\n" % (name, meaning(27))
        expect(name + ", dumped", run("dump", name, folder=folder), 1, b"refused 27\n", said)


def not_asked(folder):
    """what show cannot take"""
    def refused(what, said, *words):
        expect(what, run("show", *words, folder=folder), 2, b"", said)

    refused("no text", "show takes a text")
    refused("no text, but options", "show takes a text", "--scale", "2")
    refused("two texts", "show takes one text", "12", "345")
    refused("an unknown option", "show has no option '--size'", "--size", "3", "12")
    refused("an unknown option alone", "show has no option '--size'", "--size")
    refused("a value for --default", "--default takes no value", "12", "--default=yes")
    refused("an empty value for --default", "--default takes no value", "--default=", "12")
    refused("a text behind --default and one more", "show takes one text", "--default", "12", "345")
    refused("no text, but --default", "show takes a text", "--default")
    refused("an option without its value", "--scale takes a value", "12", "--scale")
    for option in ("--scale", "--width", "--height", "--wrap"):
        for value in ("", "x", "1x", "-1", "1.5", "0x10", "1 2"):
            refused("%s %s" % (option, value), "%s takes a number in decimal digits" % option, "12", option, value)
    refused("a wrap in words", "--wrap takes a number", "12", "--wrap", "never")
    refused("a width of 0", "at least 1 pixel", "12", "--width", "0")
    refused("a height of 0", "at least 1 pixel", "12", "--height", "00")
    refused("too wide", "--width takes at most 65,535, not 65536", "12", "--width", "65536", "--height", "1")
    refused("too high", "--height takes at most 65,536, not 65537", "12", "--width", "1", "--height", "65537")
    refused("too many pixels", "65,536 pixels, and 257 times 256 are 65792", "12", "--width=257", "--height=256")
    refused("a great scale", "--scale takes at most", "12", "--scale", "4294967296")
    refused("a number of many digits", "--height takes at most", "12", "--height", "9" * 40)
    refused("a wrap of many digits", "--wrap takes at most", "12", "--wrap", "9" * 19)
    refused("no such font", "no such file: none.pcf", "12", "--font", "none.pcf")
    refused("no name of a font", "no such file", "12", "--font=")
    refused("a folder for a font", "a folder", "12", "--font", "a folder")
    refused("a damaged font", "not readable", "12", "--font", "cut.pcf.gz")
    too_long = store(folder, "too_long.pcf", bytes(MOST_SHOWN + 1))
    refused("too long a font", "over the limit of 573,440 bytes", "12", "--font", too_long)
    refused("a picture in no folder", "cannot be written: none/a.pbm", "12", "--pbm", "none/a.pbm")
    refused("a folder for a picture", "cannot be written: a folder", "12", "--pbm", "a folder")
    refused("no name of a picture", "cannot be written", "12", "--pbm=")


def no_room(folder):
    with open("/dev/full", "wb") as full:
        for words in (["dump", "f.pcf"], ["show", "12"], ["why", "f.pcf", "0"], ["help"]):
            got = run(*words, folder=folder, output=full)
            expect("%s that cannot be written" % words[0], got, 2, None, "standard output")
    expect("no temporary folder", run("dump", "f.pcf", folder=folder, TMPDIR="none"), 2, b"", "temporary folder")
    expect("none to show with", run("show", "12", folder=folder, TMPDIR="none"), 2, b"", "temporary folder")
    expect("none to ask with", run("why", "f.pcf", "0", folder=folder, TMPDIR="none"), 2, b"", "temporary folder")
