#!/usr/bin/env python3
"""Makes the library for a processor: `./thalluskin build TARGET`. In target/TARGET/ it leaves libthalluskin.a, for
WebAssembly thalluskin.wasm too, the header, and figures.md, which it prints."""
import os
import shutil
import sys
import tempfile

ROOT = os.path.dirname(os.path.dirname(os.path.abspath(__file__)))
sys.path.insert(0, ROOT)

from processors import figures, kit  # noqa: E402
from processors.kit import Failed, run, tool  # noqa: E402
from processors.retarget import LEVELS, retargeted, text_of  # noqa: E402
from processors.table import OWN, TARGETS, at_hand  # noqa: E402
from processors.x86_stack import DISASSEMBLER  # noqa: E402

USUAL = "-O2"
COMPILED = ["-ffunction-sections", "-fdata-sections", "-fstack-size-section", "-Wno-override-module", "-x", "ir"]


def compiled(name, level, folder, edit=lambda text: text):
    """an archive for a processor in a folder, the assembler text of WebAssembly's, and the accesses that were looked
    at; `edit` may change the kit's module"""
    target = TARGETS[name]
    text, accesses = retargeted(edit(text_of(kit.module())), target, level)
    os.makedirs(folder, exist_ok=True)
    source, made, archive = (os.path.join(folder, file) for file in ("module.ll", "module.o", "libthalluskin.a"))
    with open(source, "w") as f:
        f.write(text)
    clang = [tool("clang"), *target.options, level, *COMPILED, source]
    run(*clang, "-c", "-o", made)
    if os.path.exists(archive):
        os.remove(archive)
    run(tool("llvm-ar"), "rcs", archive, made)
    return archive, run(*clang, "-S", "-o", "-") if name == "wasm" else "", accesses


def folder_of(name):
    return os.path.join(kit.TARGET, name)


def build(name, level=USUAL):
    """makes all of it in the processor's folder, and gives the figures"""
    with tempfile.TemporaryDirectory() as made:
        if name == OWN:
            archive, assembler = kit.archive(), ""
            title, words = "libthalluskin for %s" % name, "The archive is the kit's own."
        else:
            archive, assembler, accesses = compiled(name, level, made)
            title, words = "libthalluskin for %s, %s" % (name, level), "Looked at: %s." % accesses.summary()
        of_it = figures.figures(name, archive, made, assembler)
        folder = folder_of(name)
        page = os.path.join(folder, "figures.md")
        os.makedirs(folder, exist_ok=True)
        if os.path.exists(page):
            os.remove(page)  # so that it is never that of another archive
        if name == "wasm":
            figures.linked_wasm_library(archive, os.path.join(folder, "thalluskin.wasm"))
        shutil.copyfile(archive, os.path.join(folder, "libthalluskin.a"))
    shutil.copyfile(kit.HEADER, os.path.join(folder, "thalluskin.h"))
    with open(page, "w") as f:
        f.write(figures.page(name, title, of_it, words))
    return of_it


def for_this_machine():
    """the archive to link here, and what it is, in words"""
    name = at_hand()
    if not name:
        raise Failed("there is no library for the machine at hand")
    if name == OWN:
        return kit.archive(), "libthalluskin.a"
    folder = os.path.join(kit.TARGET, "native")  # and not where a user may have asked for another level
    archive = os.path.join(folder, "libthalluskin.a")
    if not kit.is_newer(archive, kit.module(), kit.HEADER, *kit.files(os.path.join(ROOT, "processors"))):
        compiled(name, USUAL, folder)
    return archive, "libthalluskin.a for %s" % name


# ---- the command


def asked(words):
    """the target and how it is compiled"""
    levels, names = [word for word in words if word in LEVELS], [word for word in words if word not in LEVELS]
    if len(levels) > 1 or len(names) != 1:
        raise Failed("build takes a target and one of %s at most" % ", ".join(LEVELS))
    if names[0] not in TARGETS:
        raise Failed("no target '%s'; 'thalluskin build' lists them" % names[0])
    if names[0] == OWN and levels:
        raise Failed("the archive for %s is the kit's own, and takes no %s" % (OWN, levels[0]))
    return names + levels


def main(words):
    if not words:
        for name, target in TARGETS.items():
            print("%-14s %s" % (name, target.words))
        return
    name, *level = asked(words)
    for needed in ("clang", "ld.lld", "llvm-ar"):
        tool(needed)
    if name == OWN and not shutil.which(DISASSEMBLER):
        raise Failed("%s is not there, by which the stack of the kit's archive is read" % DISASSEMBLER)
    build(name, *level)
    with open(os.path.join(folder_of(name), "figures.md")) as f:
        sys.stdout.write(f.read())
        sys.stdout.flush()


if __name__ == "__main__":
    kit.command(main, sys.argv[1:])
