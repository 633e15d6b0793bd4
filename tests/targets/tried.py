"""One target: its library is made at each level and calls are replayed there. What they leave is held to the model, and
how deep the stack was to what the build states. A library with a changed operation has to be noticed in the same
way."""
import collections
import os
import re

from exports import cases, layouts
from exports.asked import all_asked
from native.library import Failed
from processors import build, figures
from targets.boards import BOARDS
from targets.wasm import Node

TARGETS = {**BOARDS, "wasm": Node()}
USUAL, OTHERS = build.USUAL, [level for level in build.LEVELS if level != build.USUAL]
# the module's function that says how many rows of a glyph are drawn, up to its first division
DIVIDES = re.compile(r'^(define internal [^\n]*@"outcome::check::rows_drawn"\((?:(?!^\}).)*?) udiv ', re.M | re.S)
# functions with a figure that some call has to come near, so that the painted stack is known to be looked at
DEEP, NEAR = ["thk_draw_string", "thk_vet"], 0.9

# of a library: how many calls were made, the stack of each of the header's functions as it was seen, and the figures
Tried = collections.namedtuple("Tried", "target level calls seen figures")


def rooms(asked):
    """the most bytes of each object that is lent"""
    return {"record": layouts.size_of("Record"), "font": max(len(c["font"]) for c in asked.calls),
            "text": max(len(c["text"]) for c in asked.calls),
            "buffer": max(len(cases.stored(c, c["buf"])) for c in asked.calls)}


def made(name, level, folder, edit=lambda text: text):
    """a target's library, and its figures"""
    archive, assembler, _ = build.compiled(name, level, folder, edit)
    out = os.path.join(folder, TARGETS[name].library)
    if name == "wasm":
        figures.linked_wasm_library(archive, out)
    return out, figures.figures(name, archive, folder, assembler)


def changed(text):
    """the kit's module with a division of drawing made an addition"""
    text, times = DIVIDES.subn(r"\1 add ", text)
    if times != 1:
        raise Failed("the module has no outcome::check::rows_drawn with a division that could be changed")
    return text


def replayed(what, target, folder, library, asked):
    """makes the calls: what they leave, and how deep each function went into the stack"""
    left = os.path.join(folder, "left.bin")
    with open(os.path.join(folder, "calls.bin"), "wb") as f:
        f.write(asked.given)
    if os.path.exists(left):
        os.remove(left)
    said = target.run(what, folder, library)
    stacks = [[int(word, 16) for word in line] for line in re.findall(r"^stack (\w+) (\w+)$", said, re.M)]
    if [kind for kind, _ in stacks] != list(range(len(cases.KINDS))) or not os.path.exists(left):
        raise Failed("%s did not come to its end: %s" % (what, said))
    with open(left, "rb") as f:
        content = f.read()
    if len(content) != asked.length:
        raise Failed("%s left %d bytes, and %d are wanted" % (what, len(content), asked.length))
    return content, {cases.KINDS[kind]: depth for kind, depth in stacks}


def agreeing(name, level, folder, library, asked, of_it):
    """what a library's calls leave is what the model wants, and they take as much stack as is stated"""
    target = TARGETS[name]
    what = "%s on %s" % (level, target.words)
    left, seen = replayed(what, target, folder, library, asked)
    wrong = asked.wrong(left)
    if wrong:
        raise Failed("%s: %s" % (what, wrong))
    for call, depth in seen.items():
        stated = of_it.stacks[call]
        if depth > stated + target.linked or call in DEEP and depth < stated * NEAR:
            raise Failed("%s: %s takes %d bytes of stack, and the build states %d" % (what, call, depth, stated))
    return Tried(name, level, len(asked.calls), seen, of_it)


def tried(name, step, folder):
    """all calls with the library that users get; with those of other levels, and with the changed one, the first of
    each `step` calls"""
    target, asked = TARGETS[name], all_asked()
    share = asked.share(step)
    os.makedirs(folder)
    of_it, users = build.build(name, USUAL), build.folder_of(name)
    library = os.path.join(users, target.library)
    target.prepare(folder, rooms(asked), users)
    found = [agreeing(name, USUAL, folder, library, asked, of_it)]
    for level in OTHERS:
        library, of_it = made(name, level, os.path.join(folder, level))
        found.append(agreeing(name, level, folder, library, share, of_it))
    library, _ = made(name, USUAL, os.path.join(folder, "changed"), changed)
    if not share.wrong(replayed("the changed library", target, folder, library, share)[0]):
        raise Failed("it is not noticed that a division of the module is made an addition")
    return found
