"""What the sources have that a page may name: crates, definitions, theorems, functions, types, edits."""
import functools
import glob
import os
import re

from common import ROOT, read
from contracts.functions import public_functions

DECLARED = re.compile(r"^\s*(?:abbrev |unfoldable )?(?:pub )?(?:record )?(\S+)(?: [({].*)? :", re.M)


def path(*parts):
    return os.path.join(ROOT, *parts)


def exists(name):
    return bool(glob.glob(path(name)))


def files(pattern):
    """the names of the files that there are, without their folders"""
    return sorted(os.path.basename(found) for found in glob.glob(path(pattern)))


@functools.lru_cache(None)
def crates():
    """what each crate of crates.txt stands on"""
    return {name: on.split() for name, on in re.findall(r"^(\w+)(?: staticlib)?:(.*)$", read("crates.txt"), re.M)}


def folders(name):
    return sorted(f for f in os.listdir(path(name)) if os.path.isdir(path(name, f)) and not f.startswith("_"))


def is_program(crate):
    return exists(f"crates/{crate}/src/main.rt")


def reaches_outside(crate):
    """whether a crate reads or writes what is outside the program: files, arguments, input, output"""
    return "io" in crates()[crate] or bool(re.search(r"\bstd::(?:env|fs|io)\b|\bHostRuntime\b", source(crate)))


@functools.lru_cache(None)
def declared(file):
    """the names that a file of definitions or of theorems declares; None where there is no such file"""
    return set(DECLARED.findall(read(file))) if exists(file) else None


def definitions(crate, file):
    return declared(f"crates/{crate}/specs/{file}.antt")


def theorems(crate, file):
    return declared(f"crates/{crate}/proofs/{file}.antt")


@functools.lru_cache(None)
def all_declared(folder, crate="*"):
    """the names of all files of specs or proofs, of a crate or of all"""
    files = glob.glob(path("crates", crate, folder, "*.antt"))
    return set().union(*(declared(os.path.relpath(file, ROOT)) for file in files))


@functools.lru_cache(None)
def source(crate):
    return "".join(read(file) for file in sorted(glob.glob(path("crates", crate, "src", "*.rt"))))


@functools.lru_cache(None)
def functions(crate="*"):
    return set(re.findall(r"^ *(?:pub |pub\(crate\) )?(?:extern \"C\" )?fn (\w+)", source(crate), re.M))


@functools.lru_cache(None)
def types(crate="*"):
    return set(re.findall(r"^ *(?:pub )?(?:struct|enum) (\w+)", source(crate), re.M))


@functools.lru_cache(None)
def other_names():
    """fields of structs, of sources and of definitions; modules; edits without their crate; words of the C header"""
    of_definitions = "".join(read(file) for file in glob.glob(path("crates", "*", "specs", "*.antt")))
    return {
        "fields": set(re.findall(r"^ +(?:pub )?(\w+) ?: ", source("*") + of_definitions, re.M)),
        "modules": set(re.findall(r"^(?:pub )?mod (\w+);", source("*"), re.M)),
        "edits": {edit.split("/")[1] for edit in edits()},
        "words of C": {"size_t", *re.findall(r"\w+", read("include/thalluskin.h"))},
    }


@functools.lru_cache(None)
def edits():
    """crate/name of every must-fail edit"""
    files = glob.glob(path("crates", "*", "must-fail", "*.edit"))
    return {"/".join(re.search(r"crates/(\w+)/must-fail/(\w+)\.edit$", file).groups()) for file in files}


def public():
    """(crate, name) of each public function, and whether its answer can be a refusal"""
    refusing = set(re.findall(r"^pub enum (\w+) \{[^}]*\bRefused\(", source("*"), re.M))
    refusing |= set(re.findall(r"^pub struct (\w+) \{\s*pub refusal: u32", source("*"), re.M))
    for crate, name, clauses in public_functions():
        answer = re.search(r"-> (\w+)", clauses)
        yield (crate, name), bool(answer) and answer[1] in refusing


@functools.lru_cache(None)
def enums():
    """crate::name of each public enum"""
    return {f"{crate}::{name}" for crate in crates() for name in re.findall(r"^pub enum (\w+)", source(crate), re.M)}


@functools.lru_cache(None)
def answers():
    """those that a public function answers with; one that makes an argument answers nothing"""
    made = {"text::Wrap"}
    returned = {answer for _, _, clauses in public_functions() for answer in re.findall(r"-> (\w+)", clauses)}
    return {enum for enum in enums() - made if enum.split("::")[1] in returned}


def signatures():
    """(crate, name) of each public function, and its parameters"""
    for crate, name, clauses in public_functions():
        yield (crate, name), clauses.partition("->")[0].partition("ensures")[0]
