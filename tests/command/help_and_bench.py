"""Help, and the bench."""
import re

from command.script import expect, run
from common import fail


def helped(folder):
    text = run("help", folder=folder).stdout
    commands = (b"dump FONT.pcf", b"show TEXT", b"why FONT.pcf CHARACTER", b"record FONT.pcf [NAME]", b"build TARGET",
                b"bench", b"help")
    if any(b"\nthalluskin " + command not in b"\n" + text for command in commands):
        fail("help does not name the commands")
    for words in ([], ["help"], ["--help"], ["-h"], ["show", "--help"], ["why", "--help"]):
        expect("help by %s" % words, run(*words, folder=folder), 0, text, None)


def benched(folder):
    """the bench without times; the whole of it is for a quiet machine"""
    for words in (["--slow"], ["--quick", "--write"], ["quick"], [""]):
        got = run("bench", *words, folder=folder)
        expect("bench %s" % words, got, 2, b"", "bench takes --quick, --write or nothing")
    got = run("bench", "--quick", folder=folder)
    counted = (rb"[1-9]\d* cases in which port and 000 agree, in [1-9]\d* of them the loops in C too, [1-9]\d* in "
               rb"which another order of rows gives the usual one's pixels, and [1-9]\d* that the port alone has; "
               rb"not timed")
    words = rb"bench: (%s|not run, because .*)\n" % counted
    expect("a quick bench", got, 0, got.stdout if re.fullmatch(words, got.stdout) else b"bench: ..", None)
