"""The table of code and stack in docs/TARGETS.md, held to what was measured."""
import os
import re

from common import ROOT, fail, read
from processors.retarget import LEVELS
from processors.table import TARGETS
from processors.x86_stack import DISASSEMBLER
from targets.tools import Need

PAGE = os.path.join("docs", "TARGETS.md")
NEEDS = [Need(DISASSEMBLER, ["binutils" if DISASSEMBLER == "objdump" else "binutils-x86-64-linux-gnu"])]
NEAR = 50  # a figure may be off by one part in so many, so that a small change of the code leaves the page as it is
ROW = re.compile(r"^\| ([\w-]+) \| (-O[2sz]|) ?\| ([\d,]+) \| ([\d,]+) \| ([\d,]+) \| ([\d,]+) \| ([\d,]+) \|$", re.M)


def columns(figures):
    return [figures.whole, figures.alone["thk_draw_string"], figures.alone["thk_vet"],
            figures.stacks["thk_draw_string"], figures.stacks["thk_vet"]]


def stated():
    return {(row[0], row[1]): [int(n.replace(",", "")) for n in row[2:]] for row in ROW.findall(read(PAGE))}


def check(measured):
    """how many figures of the page are what was measured, by target and level, and how many it has"""
    page = stated()
    if not set(measured) <= set(page):
        fail("targets: %s has no rows of %s" % (PAGE, sorted(set(measured) - set(page))))
    for key, figures in measured.items():
        for told, found in zip(page[key], columns(figures)):
            if abs(told - found) * NEAR > found:
                fail("targets: %s says %d for %s, and it is %d; `tests/targets/run.py --write` renews the table" % (
                    PAGE, told, " ".join(key), found))
    return sum(len(columns(figures)) for figures in measured.values()), sum(map(len, page.values()))


def write(measured):
    """stores what was measured; the rows of what was not stay"""
    rows, names, levels = stated(), list(TARGETS), ["", *LEVELS]
    rows.update({key: columns(figures) for key, figures in measured.items()})
    lines = ["| %s | %s | %s |" % (*key, " | ".join("{:,}".format(n) for n in rows[key]))
             for key in sorted(rows, key=lambda key: (names.index(key[0]), levels.index(key[1])))]
    text = read(PAGE)
    head = re.search(r"^\| target \| level \|.*\n\|---.*\n", text, re.M)
    after = re.sub(r"\A(?:\|.*\n)*", "", text[head.end():])
    with open(os.path.join(ROOT, PAGE), "w", encoding="utf-8") as f:
        f.write(text[:head.end()] + "\n".join(lines) + "\n" + after)
