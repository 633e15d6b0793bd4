#!/usr/bin/env python3
"""Tries the library on other processors. Replays the calls of tests/exports with the library for each, under an
emulator or in node, and holds what they leave to the model of document 01: all calls with the library as `./thalluskin
build` makes it, a share with those that are optimised for size; the stack that calls take is held to what the build
states, and a library with a changed operation has to be noticed. Runs the program examples/firmware. Tries that a
module which may not be compiled on is refused, and holds docs/TARGETS.md to what was measured; with --write it stores
that there."""
import concurrent.futures
import multiprocessing
import os
import sys
import tempfile

sys.path.insert(0, os.path.dirname(os.path.dirname(os.path.abspath(__file__))))

from common import fail  # noqa: E402
from exports.asked import all_asked  # noqa: E402
from native import library  # noqa: E402
from processors.build import build  # noqa: E402
from processors.table import OWN  # noqa: E402
from targets import firmware, sizes  # noqa: E402
from targets.refused import refused  # noqa: E402
from targets.tools import lacking  # noqa: E402
from targets.tried import DEEP, OTHERS, TARGETS, USUAL, tried  # noqa: E402

STEP = 8  # of so many calls the first is in the share
AT_ONCE = 2


def line(one):
    """what was tried with a library"""
    stacks = ", ".join("%s %d and %d" % (call, one.seen[call], one.figures.stacks[call]) for call in DEEP)
    return "%s %s on %s: %d calls, each made twice; %d bytes of code; deepest stack painted and stated: %s" % (
        one.target, one.level, TARGETS[one.target].words, one.calls, one.figures.whole, stacks)


def replays(names):
    """the figures of each target's libraries, after their calls were made"""
    wrong, measured = [], {}
    with tempfile.TemporaryDirectory() as folder, concurrent.futures.ProcessPoolExecutor(
            AT_ONCE, multiprocessing.get_context("fork")) as pool:  # a fork has the calls that are made already
        started = {name: pool.submit(tried, name, STEP, os.path.join(folder, name)) for name in names}
        for name in names:
            try:
                found = started[name].result()
                print("\n".join(map(line, found)), flush=True)
                measured.update({(one.target, one.level): one.figures for one in found})
            except library.Failed as failed:
                wrong.append("targets: %s: %s" % (name, failed))
    if wrong:
        fail("\n".join(wrong))
    return measured


def main():
    library.archive()
    calls, without = len(all_asked().calls), lacking({name: target.needs for name, target in TARGETS.items()})
    names = [name for name in TARGETS if name not in without]
    measured = replays(names)
    without.update(lacking({"examples/firmware": firmware.NEEDS, OWN: sizes.NEEDS}))
    for name, reason in without.items():
        print("targets: %s was not run: %s" % (name, reason))
    if names:
        print("targets: on %d of %d processors %d calls at %s and %d at %s, each made twice, agree with the model, and "
              "a division made an addition is noticed" % (
                  len(names), len(TARGETS), calls, USUAL, -(-calls // STEP), " and ".join(OTHERS)))
    if "examples/firmware" not in without:
        print("targets: examples/firmware: %d programs on an emulated board, one that does not link, and %d of the "
              "README's lines" % firmware.firmware())
    print("targets: %d modules and processors are refused, each for what it breaks" % refused())
    if OWN not in without:
        measured[OWN, ""] = build(OWN)
    if sys.argv[1:] == ["--write"]:
        sizes.write(measured)
    print("targets: %d of %d figures of docs/TARGETS.md are what was measured" % sizes.check(measured))


if __name__ == "__main__":
    try:
        main()
    except library.Failed as failed:
        fail("targets: %s" % failed)
