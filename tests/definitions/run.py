#!/usr/bin/env python3
"""Computes the definitions of crates/*/specs on the cases beside this file, and holds each answer to that of
tests/model: number, place, values, and every pixel or byte that changed.

fonts.txt has a font a line, in hexadecimal. cases.jsonl has a case a line: the call, the font's line from 0, the
arguments, in "rec" what is changed in the record that loading gives (for the font "of", where that is another one), and
in "mode" the mode's number, where that is not 0, the plain one. A text is a string of bytes 0 to 255; "more" is a piece
that follows it and how many times.

The definitions are computed by the prover: each case becomes an equation that holds by computation, in crates of a
temporary folder, beside a copy of each library's types and definitions without its functions. So nothing has to be
proved before, and a change of a definition can be tried before its proofs are made. Nothing of it is kept."""
import collections
import json
import os
import re
import shutil
import subprocess
import sys
import tempfile
import time

HERE = os.path.dirname(os.path.abspath(__file__))
sys.path.insert(0, os.path.dirname(HERE))

import model  # noqa: E402
from common import ROOT  # noqa: E402
from definitions import terms  # noqa: E402
from definitions.answers import answer, text_of  # noqa: E402
from documents import pages  # noqa: E402
from documents.refusals import Orders  # noqa: E402

# calls that the page has under another name, and those that answer as another call does
NAMED = {"load": "load_pcf", "utf8_step": "step_at", "dump": "print_dump"}
MODED = ("get_glyph", "prep_char", "draw_glyph", "draw_char", "unpack_glyph", "draw_string", "why")  # take a mode
DRY_RUNS = ("bitmap_check", "glyph_check", "char_check", "unpack_check", "text_check")
TOPS = ("text", "why", "frames")  # the cases call definitions of these libraries and of those that they stand on
CRATES = 4  # of cases; the prover takes them side by side


# ---- the cases


def unseen(cases, fonts):
    """what the cases lack: a call of the first table of docs/PROMISES.md that is no dry run, a number that a call can
    be refused with, or an answer; and of `why` a reason; each in every mode, of a call that takes one"""
    known = Orders(pages.PROMISES, "Function")
    seen, reasons = collections.defaultdict(set), collections.defaultdict(set)
    for c in cases:
        call, mode = known.named(NAMED.get(c["call"], c["call"])), c.get("mode", 0)
        seen[call, mode].add(terms.number(c, fonts))
        if c["call"] == "why":
            reasons[mode].add(terms.reason(c, fonts))
    for call in sorted(known.first | {call for call, _ in seen}):
        for mode in model.MODES if call[1] in MODED else [0]:
            lacking = sorted({0, *known.order(call)} - seen[call, mode])
            if lacking and call[1] not in DRY_RUNS:
                yield f"no case of {'::'.join(call)} in mode {mode} is answered {lacking}"
    for mode in model.MODES:
        for number in sorted(set(model.REASONS) - reasons[mode]):
            yield f"no case of why::why in mode {mode} has the reason {number}, {model.REASONS[number]}"


# ---- the libraries


def listed():
    """the lines of crates.txt, by the crate's name"""
    with open(os.path.join(ROOT, "crates.txt"), encoding="utf-8") as f:
        return dict(re.findall(r"^(\w+):(.*)$", f.read(), re.M))


def libraries():
    """the libraries with the definitions that the cases call"""
    on, called, left = listed(), set(), list(TOPS)
    while left:
        name = left.pop()
        if name in on and name not in called:
            called.add(name)
            left += on[name].split()
    return [c for c in on if c in called and os.path.isdir(os.path.join(ROOT, "crates", c, "specs"))]


def openings():
    """every definition that has to be opened to compute: use lines, and their names"""
    uses, names = [], []
    for crate in libraries():
        folder = os.path.join(ROOT, "crates", crate, "specs")
        for file in sorted(os.listdir(folder)):
            with open(os.path.join(folder, file), encoding="utf-8") as f:
                found = re.findall(r"^unfoldable pub (\S+) :", f.read(), re.M)
            if found:
                uses.append(f"use Rattle.{crate}.specs.{file[:-5]}.{{{', '.join(found)}}}")
                names += found
    return uses, names


def types_only(source):
    """a crate's types, and the types of other crates that they name"""
    types = re.findall(r"^(?:#\[.*\]\n)*pub (?:struct|enum) [^;{]*(?:;|\{(?:.*\n)*?\})\n", source, re.M)
    named = "".join(types)
    uses = re.findall(r"^use (\w+)::(?:(\w+)|\{([\w\s,]+)\});$", source, re.M)
    uses = [(crate, name) for crate, one, many in uses for name in re.findall(r"\w+", one or many)]
    return "".join(f"use {crate}::{name};\n" for crate, name in sorted(uses)
                   if name[0].isupper() and re.search(rf"\b{name}\b", named)) + "\n" + named


def copy_definitions(folder):
    """a copy of each library's types and definitions; their lines of crates.txt"""
    for crate in libraries():
        old, new = (os.path.join(at, "crates", crate) for at in (ROOT, folder))
        shutil.copytree(os.path.join(old, "specs"), os.path.join(new, "specs"))
        os.makedirs(os.path.join(new, "src"))
        with open(os.path.join(old, "src", "lib.rt"), encoding="utf-8") as f:
            types = types_only(f.read())
        with open(os.path.join(new, "src", "lib.rt"), "w", encoding="utf-8") as f:
            f.write(types)
    return [f"{name}: {' '.join(c for c in on.split() if c in libraries())}\n"
            for name, on in listed().items() if name in libraries()]


# ---- the run


def write_crate(folder, name, text):
    crate = os.path.join(folder, "crates", name)
    for path, content in (("src/lib.rt", "// Cases.\n"), ("specs/Lib.antt", "pub mod Computed\n"),
                          ("specs/Computed.antt", text)):
        os.makedirs(os.path.dirname(os.path.join(crate, path)), exist_ok=True)
        with open(os.path.join(crate, path), "w", encoding="utf-8") as f:
            f.write(content)


def walks(c, fonts):
    """how many times a case goes over all 65,536 codes"""
    if c["call"] == "vet":
        return answer(fonts[c["font"]], None, c)[0] == 0
    if c["call"] == "dump":
        return 2 * (not model.dump(text_of(c)).startswith(b"refused"))
    return 0


def dealt(cases, fonts):
    """the numbered cases in so many crates, each with as much to compute: a walk takes as long as 40 other cases"""
    batches, costs = [[] for _ in range(CRATES)], [0] * CRATES
    for cost, k in sorted(((1 + 40 * walks(c, fonts), k) for k, c in enumerate(cases)), reverse=True):
        least = costs.index(min(costs))
        batches[least].append((k, cases[k]))
        costs[least] += cost
    return batches


def computed(cases, fonts):
    """status and output of the prover on all cases"""
    uses, opened = openings()
    with tempfile.TemporaryDirectory() as folder:
        lines = copy_definitions(folder)
        for i, batch in enumerate(dealt(cases, fonts)):
            write_crate(folder, f"computed{i}", terms.module(batch, fonts, uses, opened))
            lines.append(f"computed{i}: {' '.join(libraries())}\n")
        with open(os.path.join(folder, "crates.txt"), "w", encoding="utf-8") as f:
            f.writelines(lines)
        run = subprocess.run(["rt", "all", "check", "--jobs", os.environ.get("RT_JOBS", str(CRATES))], cwd=folder,
                             stdout=subprocess.PIPE, stderr=subprocess.STDOUT, text=True)
    return run.returncode, run.stdout


def main():
    with open(os.path.join(HERE, "fonts.txt"), encoding="ascii") as f:
        fonts = [bytes.fromhex(line.strip()) for line in f]
    with open(os.path.join(HERE, "cases.jsonl"), encoding="ascii") as f:
        cases = [json.loads(line) for line in f]
    lacking = list(unseen(cases, fonts))
    if lacking:
        print("\n".join(lacking))
        print(f"definitions: {len(lacking)} kinds of cases are missing")
        return 1
    begun = time.monotonic()
    ended, said = computed(cases, fonts)
    if ended == 0:
        took = time.monotonic() - begun
        print(f"definitions: {len(cases)} cases computed in {took:.0f} seconds, each answers as the model does")
        return 0
    bad = sorted({int(k) for k in re.findall(r"error: `case(\d+)`", said)})
    for k in bad[:20]:
        print(f"case {k} differs: {json.dumps(cases[k])}")
    if bad:
        print(f"definitions: {len(bad)} of {len(cases)} cases differ from the model")
    else:
        print(said[-3000:])
        print("definitions: not computed, the check failed before the cases")
    return 1


if __name__ == "__main__":
    sys.exit(main())
