"""WebAssembly in node: replay.mjs, and what that has to know of the calls, from the declarations."""
import json
import os

from common import TESTS
from exports import cases, layouts
from exports.asked import BEYOND, PATTERN
from processors import figures, header
from targets.tools import Need, said_by

PROGRAM = os.path.join(TESTS, "targets", "replay.mjs")
# what a call lends, in its order, with the parameter's name, and how it is aligned
OBJECTS = [("record", "rec", 8), ("font", "bytes", 1), ("text", "text", 1), ("buffer", "buf", 4)]
PARAMETERS = [parameter for _, parameter, _ in OBJECTS]
WIDTHS = {"&[u8]": 1, "&mut [u8]": 1, "&mut [u32]": 4}  # of what a slice has
NUMBERS = ["function", "font_len", "text_len", "buf_len", *cases.NUMBERS]
ELSE_NAMED = {"number": "code", "i": "start"}  # the number that a call has for a parameter of another name


def number(name):
    return NUMBERS.index(ELSE_NAMED.get(name, name))


def parameter(name, kind):
    """what is lent, with a width if it is a slice; a number; a struct, of whose numbers one without a name has the
    parameter's"""
    if name in PARAMETERS:
        return {"object": PARAMETERS.index(name), "width": WIDTHS.get(kind)}
    if kind in layouts.PLAIN:
        return {"number": number(name), "size": layouts.size_of(kind)}
    return {"size": layouts.size_of(kind), "struct": [
        {"offset": offset, "size": layouts.size_of(of), "number": number(name if path[0] == "0" else path[0])}
        for path, offset, of in layouts.leaves(kind)]}


def function(name):
    parameters, answer = layouts.functions()[name.replace("thk_", "thalluskin_")]
    return {"name": name.replace("thk_", "thalluskin_lent_"), "answer": layouts.size_of(answer),
            "parameters": [parameter(*one) for one in parameters],
            "width": WIDTHS[dict(parameters).get("buf", "&mut [u32]")]}


def plan(rooms):
    version = header.defined("THK_VERSION")
    return {"functions": [function(name) for name in cases.KINDS], "numbers": len(NUMBERS), "version": version,
            "objects": [{"name": name, "room": rooms[name], "step": step} for name, _, step in OBJECTS],
            "record": layouts.size_of("Record"), "stack": figures.WASM_STACK, "pattern": PATTERN, "beyond": BEYOND}


class Node:
    """the library is thalluskin.wasm itself, to which no linker adds anything"""
    library, words, linked = "thalluskin.wasm", "node", 0
    needs = [Need("node", ["nodejs"])]

    def prepare(self, folder, rooms, headers):
        with open(os.path.join(folder, "plan.json"), "w") as f:
            json.dump(plan(rooms), f)

    def run(self, what, folder, library):
        return said_by(what, "node", PROGRAM, library, "plan.json", "calls.bin", "left.bin", folder=folder)
