"""Texts shown on panels of many sizes, plainly and in default mode."""
import model
from command.script import expect, run, store
from common import fail
from panel import expected as panel
from pcf import orders
from pcf.font_f import two_digits
from pcf.rewriting import reordered

MOST_SHOWN = 573440  # the bytes that a font may have to show a text


def panel_of(rows, dropped, font, text, mode=model.PLAIN):
    """what show prints"""
    words = {0: "no row dropped", 1: "1 row dropped: the bottom is cut"}
    last = words.get(dropped, "%d rows dropped: the bottom is cut" % dropped) + "\n"
    shown, skipped = panel.by_default(font, text, mode), panel.skipped(font, text, mode)
    if shown:
        last += "%d shown by the default character %s: %s\n" % (len(shown), panel.default_of(font), " ".join(shown))
    if skipped:
        last += "%d skipped: %s\n" % (len(skipped), " ".join(skipped))
    return panel.half_blocks(rows) + last.encode()


def drawn_by_model(font, text, width, height, scale, wrap, mode=model.PLAIN):
    end = width + 1 if wrap == "" else wrap
    _, dropped, rows = panel.drawn(font, width, height, scale, end, text, mode)
    return rows, dropped


def showing(folder, own):
    """tries `show`: `wrap` is a number, None for no wrap, or nothing for the right end; `more` goes to the
    environment"""
    def same(what, words, text, width=72, height=21, scale=1, wrap="", font=own, mode=model.PLAIN, **more):
        rows, dropped = drawn_by_model(font, text.encode(), width, height, scale, wrap, mode)
        output = panel_of(rows, dropped, font, text.encode(), mode)
        expect(what, run("show", *words, folder=folder, **more), 0, output, None)
        return dropped

    return same


def shown(folder):
    own, f = panel.meter.stored_font(), two_digits()
    store(folder, "f.pcf", f)
    same = showing(folder, own)
    both = panel.TEXT.decode()
    same("a reading", ["12 345 kWh"], "12 345 kWh")
    same("two lines", [both], both)
    same("a return before the newline", ["1\r\n2"], "1\r\n2")
    same("twice as large", ["--scale", "2", "--width", "144", both, "--height", "40"], both, 144, 40, 2)
    same("options with a sign", ["--scale=3", both, "--width=220", "--height=64"], both, 220, 64, 3)
    same("the last of an option counts", ["--scale", "3", "12", "--scale", "2"], "12", scale=2)
    same("leading noughts", ["12", "--scale", "0002", "--width=090"], "12", 90, 21, 2)
    same("a text with one dash", ["-5 °C"], "-5 °C")
    same("a text like an option", ["--", "--scale"], "--scale")
    same("options before the dashes", ["--width", "40", "--", "--"], "--", 40)
    same("no letters", [""], "")
    same("an odd height", ["12", "--height", "9"], "12", height=9)
    same("an odd height, cut", [both, "--height", "13"], both, height=13)
    same("one row of pixels", ["12", "--height", "1"], "12", height=1)
    same("as wide as may be", ["12", "--width", "65535", "--height=1"], "12", 65535, 1)
    same("as many pixels as may be", [both, "--width", "256", "--height=256", "--scale=4"], both, 256, 256, 4)
    same("as high as may be", ["1\n2", "--width", "1", "--height=65536", "--wrap", "none"], "1\n2", 1, 65536, 1, None)
    same("wrapped at the right end", ["123456789012345"], "123456789012345")
    same("wrapped earlier", ["12 345", "--wrap", "30"], "12 345", wrap=30)
    same("wrapped at once", ["12", "--wrap=0", "--height", "40"], "12", height=40, wrap=0)
    same("no wrap", [both, "--width", "40", "--wrap", "none"], both, 40, wrap=None)
    for wrap in (2 ** 32 - 1, 2 ** 32, 2 ** 32 + 30, 10 ** 18 - 1):
        same("a far wrap", ["123456789012345", "--wrap", str(wrap)], "123456789012345", wrap=wrap)
    every = "".join(map(chr, [*range(0x20, 0x7F), 0xB0, 0xB2, 0xB3, 0xB5]))
    same("every letter", ["--width=200", "--height", "40", every], every, 200, 40)
    for text, names in panel.OF_METER:
        same("the font lacks %s" % names, ["--", text], text)
    for text, names in panel.OF_F:
        same("two digits lack %s" % names, ["--font=f.pcf", "--", text], text, font=f)
    edges = [code for low, high in panel.UNSEEN for code in (low - 1, low, high, high + 1) if code > 0]
    same("seen and unseen", ["".join(map(chr, edges))], "".join(map(chr, edges)))
    same("lacking and cut", ["8ü8", "--height", "5"], "8ü8", height=5)
    same("as much lacking as may be", ["\x01" * 65535], "\x01" * 65535)
    for locale in ("C", "C.UTF-8"):
        same("named in the locale " + locale, ["süß"], "süß", LC_ALL=locale)
    for text, rows_lost in (("1", 1), ("12", 3)):
        if same("cut by a row", ["--height", "6", text], text, height=6) != rows_lost:
            fail("%s does not lose %d rows" % (text, rows_lost))
    long = "1\n" * 32767 + "1"
    same("as long as may be", ["--height=4", long], long, height=4)
    same("the same font by its name", ["--font", "meter.pcf", both], both)
    small = ["--width", "6", "--height", "3", "--wrap", "none", "01"]
    same("another font", ["--font", "f.pcf", *small], "01", 6, 3, 1, None, f)
    same("a compressed font", ["--font=f.pcf.gz", *small], "01", 6, 3, 1, None, f)
    same("a font's name with spaces", ["--font", "a folder/two  digits.pcf", *small], "01", 6, 3, 1, None, f)
    same("a font's name like an option", ["--font", "-v", *small], "01", 6, 3, 1, None, f)
    for form in orders.ORDERS:
        if orders.unit_bytes(form) == 4 or not form & 3:
            name = store(folder, "in_order.pcf", reordered(own, form))
            same("the meter's font, " + orders.told(form), ["--font", name, both], both)
    full = f + bytes(MOST_SHOWN - len(f))
    same("a font as long as may be", ["--font", store(folder, "wide.pcf", full), *small], "01", 6, 3, 1, None, f)


def shown_by_default(folder):
    """in default mode; a page that needs no default is the plain one"""
    own, f = panel.meter.stored_font(), two_digits()
    same = showing(folder, own)

    def in_default_mode(what, words, text, *sizes, **more):
        same(what, words, text, *sizes, mode=panel.DEFAULT, **more)

    for font, text, by_default, skipped in panel.default_cases():
        name = store(folder, "default.pcf", font)
        what = "the default shows %s, and %s is skipped" % (by_default, skipped)
        in_default_mode(what, ["--default", "--font", name, "--", text], text, font=font)
        same("plainly", ["--font", name, "--", text], text, font=font)
    for text, _ in panel.OF_METER:
        in_default_mode("a text that is skipped plainly", ["--default", "--", text], text)
    in_default_mode("behind the text", ["Grüße", "--default"], "Grüße")
    in_default_mode("between other options", ["--height=40", "--default", "--scale", "2", "süß"], "süß", 72, 40, 2)
    in_default_mode("twice is once", ["--default", "ü", "--default"], "ü")
    same("a text like the option", ["--", "--default"], "--default")
    in_default_mode("the option and such a text", ["--default", "--", "--default"], "--default")
    in_default_mode("wrapped", ["--default", "ü" * 15], "ü" * 15)
    in_default_mode("wrapped earlier", ["--default", "ä ö ü", "--wrap", "12"], "ä ö ü", wrap=12)
    in_default_mode("cut", ["--default", "ü8ü", "--height", "5"], "ü8ü", height=5)
    in_default_mode("as many as may be", ["--default", "\x01" * 65535], "\x01" * 65535)
    small = ["--width", "6", "--height", "3", "--wrap", "none"]
    in_default_mode("another font", ["--font", "f.pcf", "--default", *small, "1x"], "1x", 6, 3, 1, None, font=f)
    for locale in ("C", "C.UTF-8"):
        in_default_mode("named in the locale " + locale, ["süß", "--default"], "süß", LC_ALL=locale)
