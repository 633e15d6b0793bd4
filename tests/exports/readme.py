"""The README's blocks of C and of Rust, and its commands that make and run the example."""
import os
import re

from common import ROOT, indented_blocks, read
from exports.machine import fail, must
from exports.rust import BUILT


def compiles_c(source):
    must("C of the README", "gcc", "-std=c99", "-Wall", "-Wextra", "-Werror", "-I", os.path.join(ROOT, "include"), "-c",
         source, "-o", source + ".o")


def compiles_rust(source):
    """with the crate that rust.py built before"""
    must("Rust of the README", "rustc", "--edition", "2021", "--crate-type", "lib", "--extern",
         "thalluskin=" + os.path.join(BUILT, "debug", "libthalluskin.rlib"), source, "--out-dir",
         os.path.dirname(source))


def commands(block, archive):
    """how many succeed, with the archive in the place of the one for x86-64, which was made before"""
    lines = [line for line in block.split("\n") if line.strip() and not line.startswith("./thalluskin build ")]
    for line in lines:
        must("of the README: " + line, "sh", "-c", line.replace(
            "target/staticlib/libthalluskin.a", os.path.relpath(archive, ROOT)), cwd=ROOT)
    return len(lines)


def readme(folder, archive):
    tried = {"c": 0, "rs": 0, "sh": 0}
    for k, block in enumerate(indented_blocks(read("README.md"))):
        for kind, sign, compiles in (("c", '#include "thalluskin.h"', compiles_c),
                                     ("rs", "use thalluskin::", compiles_rust)):
            if re.search("^" + sign, block, re.M):
                source = os.path.join(folder, "block%d.%s" % (k, kind))
                with open(source, "w") as f:
                    f.write(block)
                compiles(source)
                tried[kind] += 1
        if re.search("^cc ", block, re.M):
            tried["sh"] += commands(block, archive)
    if 0 in tried.values():
        fail("the README lacks C, Rust or the commands for the example")
    print("exports: README: %d blocks of C and %d of Rust compile, %d commands succeed" % tuple(tried.values()))
