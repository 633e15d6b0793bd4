"""Calls of all functions from C (replay.c), against the model of document 01."""
import collections
import itertools
import os

import model
from common import TESTS
from exports import cases, formats, layouts
from exports.asked import all_asked
from exports.machine import fail, must
from native import library

REFUSAL, PLACE = ("refusal",), ("place",)  # where they stand in every answer
REASON, IS_DEFAULT = ("reason", "number"), ("by", "is_default")
SOURCE, SYSTEM = (os.path.join(TESTS, "exports", name) for name in ("replay.c", "linux.c"))


def replay(at, folder):
    """with the archive, and with what other processors' archives have: the functions that are lent structs"""
    replay_with(at, folder, library.ARCHIVE)
    replay_with(at, folder, library.lent(os.path.join(folder, "lent")), "-DTHK_LENT")
    made, wanted = all_asked().calls, all_asked().wanted
    answers = collections.defaultdict(list)
    for kind, want, _ in wanted:
        if want[REFUSAL] == 0:
            answers[kind].append(want)
    for kind in set(cases.ANSWERS.values()):
        told_apart(kind, answers[kind])
    seen = collections.Counter((c["function"], want[REFUSAL]) for c, (_, want, _) in zip(made, wanted))
    for name in cases.KINDS:
        refused = ", ".join("%d: %d" % (n, seen[of, n]) for of, n in sorted(seen) if of == name and n)
        print("%s: %d answers, refused %s" % (name, seen[name, 0], refused))
    whys(made, wanted)
    default = [want for c, (_, want, _) in zip(made, wanted) if c.get("mode") == cases.DEFAULT]
    print("exports: %d calls in default mode; in %d of their answers the default code supplied the glyph" % (
        len(default), sum(want.get(IS_DEFAULT, 0) for want in default)))
    changed = set(formats.one_bit())
    print("exports: %d fonts with one bit of a format word changed: %d load, and %d strictly" % (
        len(changed), taken(changed, "thk_load"), taken(changed, "thk_load_strict")))
    print("exports: %d calls, each made twice in both of the header's shapes, agree with the model" % len(made))


def whys(made, wanted):
    """each reason is given plainly and in default mode, and there those of a glyph also where it is the default's"""
    told = [(c.get("mode", 0), want[REASON], want[IS_DEFAULT]) for c, (_, want, _) in zip(made, wanted)
            if c["function"] == "thk_why" and want[REFUSAL] == 0]
    every = set(model.REASONS)
    for mode, is_default, numbers in ((0, 0, every), (cases.DEFAULT, 0, every),
                                      (cases.DEFAULT, 1, every - {31, 32, 33, 34})):
        seen = {n for in_mode, n, by_default in told if (in_mode, by_default) == (mode, is_default)}
        if seen != numbers:
            fail("thk_why in mode %d, default %d, has other reasons: %s" % (mode, is_default, sorted(seen ^ numbers)))
    counted = collections.Counter(n for _, n, _ in told)
    print("thk_why: reasons %s" % ", ".join("%d: %d" % (n, counted[n]) for n in model.REASONS))


def taken(fonts, function):
    """how many of these fonts a function does not refuse"""
    return len(fonts & {c["font"] for c, (_, want, _) in zip(all_asked().calls, all_asked().wanted)
                        if c["function"] == function and want[REFUSAL] == 0})


def replay_here(at, folder, archive):
    """with the archive for another machine than x86-64, on that machine"""
    replay_with(at, folder, archive)
    print("exports: %d calls of %s, each made twice, agree with the model" % (
        len(all_asked().calls), os.path.relpath(archive, library.ROOT)))


def replay_with(at, folder, archive, *options):
    program = at.build(SOURCE, os.path.join(folder, "replay"), "-Wextra", "-std=c99", "-O1", *options, archive=archive,
                       beside=[SYSTEM])
    wrong = all_asked().wrong(must("replaying", *program, input=all_asked().given))
    if wrong:
        fail(wrong)


def told_apart(kind, answers):
    """no two numbers of a sort are the same in every answer, so that each is known to stand in its place"""
    found = [(path, of) for path, _, of in layouts.leaves(kind) if path not in (REFUSAL, PLACE)]
    for path, _ in found:
        if not any(answer[path] for answer in answers):
            fail("no answer tells where %s of %s stands" % (".".join(path), kind))
    for (path, of), (other, of_other) in itertools.combinations(found, 2):
        if of == of_other and all(answer[path] == answer[other] for answer in answers):
            fail("no answer tells %s of %s from %s" % (".".join(path), kind, ".".join(other)))
