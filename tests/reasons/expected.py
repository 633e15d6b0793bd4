#!/usr/bin/env python3
"""Holds crates/reasons/stdout, which the program must write, to the model's reasons for crates/reasons/stdin, a text
with a character for each of them but one, and to their words, made a second time from the font's numbers. The missing
one, 13, is of a whole font; tests/command has it.

With --write the input and the output are stored anew."""
import os
import sys

TESTS = os.path.dirname(os.path.dirname(os.path.abspath(__file__)))
sys.path[:0] = [TESTS, os.path.join(os.path.dirname(TESTS), "meter-font")]

import model  # noqa: E402
import stored  # noqa: E402
from common import fail  # noqa: E402
from reasons import fonts, lines  # noqa: E402

CHARACTERS, CODE = 0, 1
WIDTH, HEIGHT, START, SCALE = 12, 14, 10, 2  # near a line's right end, which some characters pass


def request(kind, code, width, height, start, stride, scale, mode, text, font):
    """the program's input"""
    numbers = [kind, code, width, height, start, stride, scale, mode, len(text)]
    return b"".join(n.to_bytes(4, "little") for n in numbers) + text + font


def vetting(font):
    """the first line: of a font that vetting refuses"""
    try:
        model.vet(font)
    except model.Refused as r:
        return "refused %02d place %d vetting\n" % (r.number, r.place)
    return ""


def main():
    font = fonts.every()
    at = lines.Place(WIDTH * HEIGHT, START, WIDTH, SCALE)
    told = lines.of_text(font, model.load(font), model.PLAIN, fonts.TEXT, at)
    lacking = set(model.REASONS) - {number for number, _ in told}
    if lacking != {13}:
        fail("the text has no character for the reasons %s" % sorted(lacking))
    text = fonts.TEXT.encode()
    want = {
        ("reasons", "stdin"): request(CHARACTERS, 0, WIDTH, HEIGHT, START, WIDTH, SCALE, 0, text, font),
        ("reasons", "stdout"): (vetting(font) + "".join(line for _, line in told) + "not all drawn\n").encode(),
    }
    stored.hold(want, sys.argv[1:] == ["--write"])
    print("reasons: %d characters, %d reasons, as the model gives them" % (len(told), len(model.REASONS) - 1))


if __name__ == "__main__":
    main()
