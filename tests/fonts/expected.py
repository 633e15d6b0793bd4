#!/usr/bin/env python3
"""Holds the fonts of examples/ to what make.py makes, and font F to the one that the theorems are about. What is asked
of the fonts of make.py is questions.py's, and crates/replay answers it.

With --write the files are stored anew."""
import os
import re
import sys

sys.path.insert(0, os.path.dirname(os.path.dirname(os.path.abspath(__file__))))

import common  # noqa: E402
from common import ROOT, fail  # noqa: E402
from fonts import make  # noqa: E402
from pcf.font_f import two_digits  # noqa: E402

KEPT = ["f.pcf", "big_two_byte.pcf"]


def font_f():
    """font F as it stands in crates/promises/specs/FontF.antt"""
    text = common.read("crates", "promises", "specs", "FontF.antt")
    return bytes.fromhex("".join(re.findall(r'"([0-9A-F]+)"', text)))


def main():
    if two_digits() != font_f():
        fail("font F here is not the one of crates/promises/specs/FontF.antt")
    made = make.files()
    for name in KEPT:
        path = os.path.join(ROOT, "examples", name)
        if sys.argv[1:] == ["--write"]:
            with open(path, "wb") as out:
                out.write(made[name])
        with open(path, "rb") as kept:
            if kept.read() != made[name]:
                fail("examples/%s is not what make.py makes" % name)
    print("fonts: %d of %d fonts stand in examples, as made; font F is that of the theorems" % (len(KEPT), len(made)))


if __name__ == "__main__":
    main()
