"""The public functions of the libraries, and of the static libraries that export them, as their sources have them."""
import os
import re

from common import ROOT, read

CLAUSE = re.compile(r"\s*(?:requires|ensures)\b")


def static_libraries():
    """the crates that crates.txt lists as static libraries"""
    return re.findall(r"^(\w+) staticlib\b.*:", read("crates.txt"), re.M)


def public_functions():
    """crate, name, and the text from the signature to the body, of each `pub fn` of a library"""
    crates, exporting = os.path.join(ROOT, "crates"), static_libraries()
    for crate in sorted(os.listdir(crates)):
        if crate not in exporting and os.path.exists(os.path.join(crates, crate, "src", "lib.rt")):
            for name, clauses in functions_of(crate):
                yield crate, name, clauses


def exported_functions():
    """the same of each static library, and the function's body"""
    for crate in static_libraries():
        for name, clauses in functions_of(crate):
            yield crate, name, clauses


def functions_of(crate):
    """name, and the text from the signature to the body, of each `pub fn` of a crate"""
    source = os.path.join(ROOT, "crates", crate, "src")
    for file in sorted(os.listdir(source)):
        with open(os.path.join(source, file), encoding="utf-8") as f:
            text = f.read()
        for m in re.finditer(r'^( *)pub (?:extern "C" )?fn (\w+)', text, re.M):
            yield m[2], to_body(text[m.end():].split("\n"), m[1])


def to_body(lines, indent):
    """the lines before a function's body: its `{` stands on a line of its own where there are clauses, and else ends
    the signature"""
    held, clauses = [], False
    for line in lines:
        clauses = clauses or bool(CLAUSE.match(line))
        if line == indent + "{":
            return "\n".join(held)
        if line.endswith("{") and not clauses:
            return "\n".join([*held, line[:-1]])
        held.append(line)
    raise ValueError("a function without a body")
