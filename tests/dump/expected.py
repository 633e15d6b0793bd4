#!/usr/bin/env python3
"""Holds what the dump must write to what the model of document 01 says of its inputs: for font F, which
crates/dump reads, and for each file of crates/dump_files/data; and the files to what make.py makes.

With --write the data, the arguments and the outputs are stored anew."""
import os
import re
import sys

sys.path.insert(0, os.path.dirname(os.path.dirname(os.path.abspath(__file__))))

import model  # noqa: E402
import stored  # noqa: E402
from common import fail  # noqa: E402
from dump import make  # noqa: E402
from pcf import font_f, orders  # noqa: E402

# every number that a dump can print: the others are about calls that it does not make
PRINTED = [1, 2, 3, 4, 5, 6, 7, 8, 10, 11, 12, 13, 14, 17, 18, 20, 27]


def refused(output):
    """the number of the line `refused NN`, or None"""
    m = re.fullmatch(rb"refused (\d\d)\n", output)
    return int(m[1]) if m else None


def outputs(inputs):
    """what is written for each input; its name says whether it is refused, but of those by lot"""
    made = {}
    for name, text in inputs.items():
        made[name] = model.dump(text)
        said = re.match(r"refused_(\d\d)_", name)
        if not name.startswith("by_lot_") and refused(made[name]) != (int(said[1]) if said else None):
            fail("%s: the model says %s" % (name, made[name][:80]))
    seen = sorted({refused(output) for output in made.values()} - {None})
    if seen != PRINTED:
        fail("the inputs show refusals %s" % seen)
    return made


def one_picture(written):
    """how many orders one font is written in; the dump of it is the same in all"""
    dumps = [output for name, output in written.items() if name.startswith("order_")]
    if len(dumps) != len(orders.ORDERS) or len(set(dumps)) != 1:
        fail("the model says %d things of one font in %d orders" % (len(set(dumps)), len(dumps)))
    return len(dumps)


def main():
    inputs = make.files()
    written = outputs(inputs)
    want = {
        ("dump", "stdin"): font_f.LINES.encode(),
        ("dump", "stdout"): written["f.hex"],
        ("dump_files", "args"): "".join(name + "\n" for name in inputs).encode(),
        ("dump_files", "stdout"): b"".join(b"== %s\n" % name.encode() + written[name] for name in inputs),
    }
    write = sys.argv[1:] == ["--write"]
    if write:
        stored.store_data("dump_files", inputs)
    stored.hold_data("dump_files", inputs)
    stored.hold(want, write)
    refusals = sum(refused(output) is not None for output in written.values())
    print("dump: %d inputs are as made, %d of them refused and %d one font in every order; the outputs agree with the "
          "model" % (len(inputs), refusals, one_picture(written)))


if __name__ == "__main__":
    main()
