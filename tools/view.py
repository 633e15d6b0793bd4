#!/usr/bin/env python3
"""Holds the functions that take or make a view of a font to what they pass on. A method of the view passes the view's
slice and its record on with its other parameters, to a function of the same parameters, answer and clauses; a function
outside passes a view that it makes to a method. tools/view.json says which functions there are, by the shape of their
code. That the contracts hold is for the prover, which needs no proof by hand for them."""
import json
import os
import re
import sys

TOOLS = os.path.dirname(os.path.abspath(__file__))
ROOT = os.path.dirname(TOOLS)
FONT = os.path.join("crates", "font")


def read(*parts):
    with open(os.path.join(ROOT, *parts), encoding="utf-8") as f:
        return f.read()


def fail(text):
    print(text)
    sys.exit(1)


def words(text):
    """the text in one line, with one blank where there are several"""
    return re.sub(r"\s+", " ", text).strip()


# ---- the source


class Function:
    """A public function, as a source has it: parameters, answer, clauses, body."""

    def __init__(self, name, source, where):
        found = re.search(rf"^( *)pub fn {name}\((.*?)\)\s*-> (.*?)$(.*?)^\1{{\n(.*?)^\1}}$", source, re.M | re.S)
        if not found:
            fail(f"{where} has no {name}")
        self.name, self.where = name, where
        self.answer, self.clauses, self.body = words(found[3]), words(found[4]), words(found[5])
        params = [p.split(":", 1) for p in words(found[2]).rstrip(",").split(",")]
        self.parameters = [(name.strip(), (of or [""])[0].strip()) for name, *of in params]

    def others(self, first):
        """the parameters but for those that are, or make, the view"""
        return self.parameters[first:]

    def types(self, first):
        return [re.sub(r"&'\w+ ", "&", of) for _, of in self.others(first)]


def kind(of):
    """a buffer that is lent, or a value, which is anything else"""
    return "lent" if of == "&mut [u32]" else "value"


def library_function(crate, name):
    folder = os.path.join("crates", crate, "src")
    files = sorted(os.listdir(os.path.join(ROOT, folder)))
    source = "".join(read(folder, file) for file in files)
    return Function(name, source, f"{folder}")


def passed(function, begin, first):
    """the function that is called, and with what after the view: all of the body is that call"""
    found = re.fullmatch(rf"{begin}(.*)\)", function.body)
    if not found:
        fail(f"{function.where}: {function.name} is not one call that it passes the view or its fields to")
    *path, given = found.groups()
    given = [word.strip() for word in given.strip(" ,").split(",") if word.strip()]
    if given != [name for name, _ in function.others(first)]:
        fail(f"{function.where}: {function.name} does not pass its other parameters on as they are")
    return path


def method(name, source):
    """a method of the view, held to the function that it calls"""
    function = Function(name, source, f"{FONT}/src/lib.rt")
    crate, called = passed(function, r"(\w+)::(\w+)\( ?self\.bytes, self\.rec\b,?", 1)
    callee = library_function(crate, called)
    clauses = callee.clauses.replace("bytes.entry", "self.entry.bytes").replace("bytes.now", "self.entry.bytes.now")
    clauses = re.sub(r"(?<![\w.])rec(?![\w.])", "self.entry.rec", clauses)
    return held(function, 1, callee, 2, clauses)


def through(name, source, methods):
    """a function that makes a view, held to the method that it passes it to"""
    function = Function(name, source, f"{FONT}/src/shown.rt")
    called, = passed(function, r"open\(bytes, rec\)\.(\w+)\(", 2)
    callee = methods.get(called) or fail(f"{function.where}: {name} calls no method of the view")
    clauses = re.sub(r"\bself\.entry\.", "", callee.clauses)
    return held(function, 2, callee, 1, clauses)


def held(function, own, callee, first, clauses):
    """the function, whose parameters after its own first ones, answer and clauses are those of the one that it calls"""
    plain = re.sub(r"&'\w+ ", "&", function.answer), re.sub(r"&'\w+ ", "&", callee.answer)
    if function.types(own) != callee.types(first) or plain[0] != plain[1]:
        fail(f"{function.where}: {function.name} has another type than {callee.where}: {callee.name}")
    if function.clauses != clauses:
        fail(f"{function.where}: {function.name} has other clauses than {callee.where}: {callee.name}")
    return function


def main():
    with open(os.path.join(TOOLS, "view.json"), encoding="utf-8") as f:
        described = json.load(f)
    methods_of, outside = read(FONT, "src", "lib.rt"), read(FONT, "src", "shown.rt")
    paths = [path.split("::") for paths in described.values() for path in paths]
    methods = {name: method(name, methods_of) for of, name in paths if of == "Font"}
    functions = {name: through(name, outside, methods) for of, name in paths if of == "shown"}
    found = set(re.findall(r"^    pub fn (\w+)\(\s*self\b", methods_of, re.M)) | \
        set(re.findall(r"^pub fn (\w+)\((?:(?!^}).)*\n    open\(bytes, rec\)\.", outside, re.M | re.S))
    for name in sorted(found ^ {*methods, *functions}):
        fail(f"tools/view.json and {FONT}/src do not agree on {name}")
    for shape, of_it in described.items():
        of = [path.split("::")[1] for path in of_it]
        kinds = {tuple(map(kind, methods[name].types(1) if name in methods else functions[name].types(2)))
                 for name in of}
        if len(kinds) != 1:
            fail(f"{shape}: {', '.join(of_it)} are not of one shape")
    print(f"view: {len(methods)} methods and {len(functions)} functions pass on what they are given")


if __name__ == "__main__":
    main()
