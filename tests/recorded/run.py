#!/usr/bin/env python3
"""Holds a sample of 000's answers, which answers/ has, to what the port answers to the same calls: the lines of
crates/replay/stdout, which the proved program has to write and the model computes. It needs no text of 000.

Where 000 returned, the values have to be the same; where it answered nothing, the port has to refuse with the number
that goes with it; where it did not return, with any. What a call leaves in the buffer has to be the same whole, and is
what was there before where 000 did not return. How the answers were made: record.py."""
import collections
import os
import re
import sys

HERE = os.path.dirname(os.path.abspath(__file__))
sys.path.insert(0, os.path.dirname(HERE))

import stored  # noqa: E402
from common import fail  # noqa: E402
from model import flattening  # noqa: E402
from replay import make  # noqa: E402

OUTCOMES = ["returned", "answered nothing", "did not return"]
# in the order in which they are told, with the number that the port refuses with where 000 answers nothing; 0, which
# is none, where it cannot answer that
NOTHING = {"load_pcf": 2, "prop_at": 17, "get_glyph": 9, "get_name": 17, "get_metrics": 10, "dimensions": 0,
           "prep_char": 9, "draw_bitmap": 12, "draw_glyph": 0, "draw_char": 9, "unpack_glyph": 0, "draw_string": 0}
# how many of the numbers that the port answers are 000's too: rows drawn and dropped and the code that supplied a glyph
# are the port's own
COMMON = {"get_glyph": 1, "prep_char": 5, "draw_bitmap": 0, "draw_glyph": 0, "draw_char": 5, "unpack_glyph": 0,
          "draw_string": 1}
THEIRS = re.compile(r"(\w+) +(%s)((?: -?\d+)*)(?:; pixels (none|[\d,-]+))?" % "|".join(OUTCOMES))
OURS = re.compile(r"(\w+) +([^;]+)(?:; dry run ([^;]+); pixels (none|[\d,-]+))?(?:; why [^;]+)?")
REFUSED = re.compile(r"refused (\d+) at (\d+)")


class Differs(Exception):
    """why a case does not agree"""


# ---- what stands in the files


def ours():
    """by file, the lines that the program writes"""
    parts = re.split(r"^== (.*)\n", stored.read("replay", "stdout").decode("ascii"), flags=re.MULTILINE)
    return {name: text.splitlines() for name, text in zip(parts[1::2], parts[2::2])}


def theirs(name):
    with open(os.path.join(HERE, "answers", name.replace(".calls", ".txt")), encoding="ascii") as f:
        return f.read().splitlines()


def places(runs):
    """of 0-2,4 the numbers"""
    ends = [run.split("-") for run in runs.split(",")] if runs not in (None, "none") else []
    return {i for end in ends for i in range(int(end[0]), int(end[-1]) + 1)}


# ---- one case


def field_names():
    """as flattening.flat_record has them"""
    for part, fields in flattening.FIELDS:
        if fields is None:
            yield from (part + "." + name for name in flattening.ACCEL_FIELDS)
            yield from (part + ".minbounds." + name for name in flattening.METRIC_FIELDS)
            yield from (part + ".maxbounds." + name for name in flattening.METRIC_FIELDS)
        else:
            yield from (part + "." + name for name in fields)


def kept(numbers):
    """what 000 keeps of the record with these numbers, in the order of record.rs: no byte order of compressed metrics,
    which stands as 0; the row pad as its code; whether codes have one byte; no default code, and not how many bytes the
    code entries have, of which it sees half"""
    fields = list(field_names())
    if len(fields) != len(numbers):
        raise Differs("a record has %d numbers, not %d" % (len(fields), len(numbers)))
    rec = dict(zip(fields, numbers))
    rec["metrics.big"] *= not rec["metrics.compressed"]
    rec["bitmaps.pad"] = (1, 2, 4, 8).index(rec["bitmaps.pad"])
    rec["codes.one_byte"] = int(rec["codes.low1"] == rec["codes.high1"] == 0)
    names = """props.big props.records props.count props.strings props.size
        metrics.compressed metrics.big metrics.records metrics.count
        bitmaps.big bitmaps.offsets bitmaps.count bitmaps.bits bitmaps.size bitmaps.pad bitmaps.unit bitmaps.top
        codes.big codes.one_byte codes.low2 codes.high2 codes.low1 codes.high1 codes.entries
        names.big names.offsets names.count names.strings names.size""".split()
    return [rec[name] for name in names + [name for name in rec if name.startswith("accel.")]]


def values(kind, words):
    """of the port's answer the numbers that 000 has too"""
    numbers = [int(number) for number in re.findall(r"-?\d+", words)]
    return kept(numbers) if kind == "load_pcf" else numbers[:COMMON.get(kind)]


def compare(call, our_line, their_line):
    """the outcome's number, or Differs"""
    our, their = OURS.fullmatch(our_line), THEIRS.fullmatch(their_line)
    kind = call["call"]
    if not our or not their or our[1] != kind or their[1] != kind:
        raise Differs("no answers to the same call")
    if "len" in call and our[4] is None:
        raise Differs("no buffer of that length")
    refused = REFUSED.fullmatch(our[2])
    outcome = OUTCOMES.index(their[2])
    if outcome == 0:
        if refused or values(kind, our[2]) != [int(number) for number in their[3].split()]:
            raise Differs("other values")
    elif not refused or their[3] or outcome == 1 and (int(refused[1]), int(refused[2])) != (NOTHING[kind], 0):
        raise Differs("not the refusal")
    compare_buffers(call, outcome, places(our[4]), their[4])
    return outcome


def compare_buffers(call, outcome, changed, left):
    """`left` is what has the colour afterwards, or of bytes what is 1, which every third was before"""
    if ("len" in call and outcome < 2) != (left is not None):
        raise Differs("a buffer is kept of a call that leaves none, or none is")
    if call["call"] == "unpack_glyph" and outcome < 2:
        changed = changed | set(range(0, call["len"], 3))
    if changed != places(left):
        raise Differs("another buffer")


# ---- all cases


def compare_file(name, sections, our_lines, tally):
    """counts the cases by kind and outcome; the lines of both sides belong to the same fonts and calls"""
    their_lines = theirs(name)
    asked = [call for b, calls in sections for call in (len(b), *calls)]
    if not len(asked) == len(our_lines) == len(their_lines):
        fail("%s: %d fonts and calls, %d lines of the port and %d of 000" % (
            name, len(asked), len(our_lines), len(their_lines)))
    for number, (call, our, their) in enumerate(zip(asked, our_lines, their_lines), 1):
        if isinstance(call, int):
            if not our == their == "font of %d bytes" % call:
                fail("%s, line %d: not the same font" % (name, number))
            continue
        try:
            tally[call["call"], compare(call, our, their)] += 1
        except Differs as why:
            fail("%s, line %d: %s\n  the port: %s\n  000:      %s" % (name, number, why, our, their))


def main():
    lines, cases = ours(), 0
    recorded = make.recorded()
    if sorted(name.replace(".calls", ".txt") for name in recorded) != sorted(os.listdir(os.path.join(HERE, "answers"))):
        fail("answers: not the files that questions.py asks about")
    for name, sections in recorded.items():
        tally = collections.Counter()
        compare_file(name, sections, lines.get(name, []), tally)
        print(name)
        for kind in NOTHING:
            done = [tally[kind, outcome] for outcome in range(3)]
            if any(done):
                print("%-12s %d cases agree (000 returned %d, answered nothing %d, did not return %d)" % (
                    kind, sum(done), *done))
        cases += sum(tally.values())
    print("recorded: %d cases, the port's answers agree with 000's" % cases)


if __name__ == "__main__":
    main()
