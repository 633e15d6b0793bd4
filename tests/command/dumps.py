"""Dumps: of good fonts, of refused ones, and of what is no font file."""
import gzip
import os
import socket

import model
from command.refusals import meaning
from command.script import SCRIPT, expect, run, store
from dump import make
from panel import expected as panel
from pcf import orders
from pcf.font_f import two_digits
from pcf.rewriting import reordered

IN_ROWS_OF_4 = [form for form in orders.ORDERS if form & 3 == 2]


def dump_of(font):
    return model.dump(make.lines(font))


def good(folder):
    f = two_digits()
    of_f = dump_of(f)

    def same(what, got, frames=of_f):
        expect(what, got, 0, frames, None)

    os.mkdir(os.path.join(folder, "a folder"))
    os.symlink(SCRIPT, os.path.join(folder, "linked"))
    same("a font", run("dump", store(folder, "f.pcf", f), folder=folder))
    same("a compressed font", run("dump", store(folder, "f.pcf.gz", gzip.compress(f)), folder=folder))
    same("a name with spaces", run("dump", store(folder, "a folder/two  digits.pcf", f), folder=folder))
    same("spaces, compressed", run("dump", store(folder, "a folder/f 2.pcf.gz", gzip.compress(f)), folder=folder))
    same("a name like an option", run("dump", store(folder, "-v", f), folder=folder))
    same("from another folder", run("dump", "../f.pcf", folder=os.path.join(folder, "a folder")))
    same("a whole path", run("dump", os.path.join(folder, "f.pcf"), folder="/"))
    same("by a link", run("dump", "f.pcf", folder=folder, script=os.path.join(folder, "linked")))
    full = f + bytes(make.MOST - len(f))
    same("as long as may be", run("dump", store(folder, "full.pcf", full), folder=folder))
    same("compressed, as long as may be", run("dump", store(folder, "full.pcf.gz", gzip.compress(full)), folder=folder))
    own = panel.meter.stored_font()
    of_own = dump_of(own)
    same("the meter's font", run("dump", store(folder, "meter.pcf", own), folder=folder), of_own)
    for form in IN_ROWS_OF_4:
        name = store(folder, orders.told(form) + ".pcf", reordered(own, form))
        same("the meter's font, " + name, run("dump", name, folder=folder), of_own)


def made_fonts(folder):
    """of each line that refuses, a number and a place, the first font that has it; and fonts that are not refused"""
    seen = set()
    for name, font in make.font_files().items():
        output = dump_of(font)
        refused = output.startswith(b"refused ")
        if output in seen:
            continue
        got = run("dump", store(folder, name, font), folder=folder)
        if not refused:
            expect(name, got, 0, output, None)
        else:
            seen.add(output)
            expect(name, got, 1, output, "%s is refused: %s\n" % (name, meaning(int(output.split()[1]))))


def unusable(folder):
    packed = gzip.compress(two_digits())
    flipped = packed[:-8] + bytes([packed[-8] ^ 1]) + packed[-7:]

    def refused(what, said, *words):
        expect(what, run(*words, folder=folder), 2, b"", said)

    refused("no such file", "no such file: none.pcf", "dump", "none.pcf")
    refused("a folder", "a folder", "dump", "a folder")
    with socket.socket(socket.AF_UNIX) as unread:
        unread.bind(os.path.join(folder, "socket.pcf"))
        refused("not to be opened, even by root", "not readable", "dump", "socket.pcf")
    refused("cut", "not readable", "dump", store(folder, "cut.pcf.gz", packed[:-9]))
    refused("a wrong sum", "not readable", "dump", store(folder, "flipped.pcf.gz", flipped))
    refused("not compressed", "not readable", "dump", store(folder, "plain.pcf.gz", two_digits()))
    refused("empty, to be uncompressed", "not readable", "dump", store(folder, "empty.pcf.gz", b""))
    long = bytes(make.MOST + 1)
    refused("too long", "over the limit", "dump", store(folder, "long.pcf", long))
    refused("compressed, too long", "over the limit", "dump", store(folder, "long.pcf.gz", gzip.compress(long * 100)))
    refused("an unknown command", "no command 'draw'", "draw", "f.pcf")
    refused("no font named", "dump takes one font file", "dump")
    refused("two fonts", "dump takes one font file", "dump", "f.pcf", "f.pcf")
    empty = run("dump", store(folder, "empty.pcf", b""), folder=folder)
    expect("an empty file", empty, 1, b"refused 01\n", "under 8 bytes")
