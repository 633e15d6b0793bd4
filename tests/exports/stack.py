"""The stack that the header says each function takes, held to the archive's instructions."""
import re

from common import read
from exports import layouts
from exports.machine import ARCHIVE, fail
from processors import x86_stack

NEAR = 100  # by so much at most a figure of the header may be above


def stated():
    """the header's figures, the one for all others as None"""
    text = read("include", "thalluskin.h")
    figures = {name: int(n.replace(",", "")) for name, n in re.findall(r"\b(thk_\w+) ([\d,]*\d)\b(?=[;\n])", text)}
    figures[None] = int(re.search(r"each of the others (\d+)", text)[1])
    return figures


def stack():
    figures = stated()
    names = {layouts.in_header(name): name for name in (*layouts.functions(), "thalluskin_version")}
    if not set(figures) <= {*names, None}:
        fail("stack: the header tells of %s" % sorted(set(figures) - {*names, None}))
    depths = x86_stack.of_archive(ARCHIVE, names.values())
    measured = {told: depths[name] for told, name in names.items()}
    for name, most in sorted(measured.items()):
        figure = figures.get(name, figures[None])
        if not most <= figure or name in figures and figure - most >= NEAR:
            fail("stack: %s takes %d bytes, and the header says %d" % (name, most, figure))
    print("exports: stack of %d functions, at most %d bytes in %s" % (
        len(measured), *max((most, name) for name, most in measured.items())))
