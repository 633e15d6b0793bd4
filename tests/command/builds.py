"""`build`: its list, what it leaves for a processor, and what it cannot take. tests/targets runs what is built."""
import os
import re
import shutil
import subprocess
import sys

from command.script import expect, run
from common import ROOT, fail, read
from exports import layouts
from exports.machine import ARCHIVE, has, is_native
from processors.table import OWN, TARGETS
from processors.x86_stack import DISASSEMBLER

CALLS = 1 + len(layouts.functions())  # with the version


def content(*parts):
    with open(os.path.join(ROOT, *parts), "rb") as f:
        return f.read()


def listed(folder):
    got = run("build", folder=folder)
    names = [line.split()[0] for line in got.stdout.decode().splitlines()]
    expect("the list of targets", got, 0, got.stdout if names == list(TARGETS) else b"another list", None)
    if any("\n| %s | " % name not in read("docs", "TARGETS.md") for name in names):
        fail("docs/TARGETS.md does not have every target")


def left(folder, name, *level):
    """the page is printed and stored, and has a row for each call; the header is the repository's"""
    shutil.rmtree(os.path.join(ROOT, "target", name), ignore_errors=True)
    got = run("build", name, *level, folder=folder)
    page = content("target", name, "figures.md")
    rows = re.findall(rb"^\| `thk_\w+` \| [\d,]+ \| [\d,]+ \|$", page, re.M)
    title = "# libthalluskin for %s\n" % ", ".join([name, *level])
    right = len(rows) == CALLS and page.decode().startswith(title)
    expect("build %s" % name, got, 0, page if right else b"another page", None)
    if content("target", name, "thalluskin.h") != content("include", "thalluskin.h"):
        fail("build %s leaves another header" % name)
    return set(os.listdir(os.path.join(ROOT, "target", name))) - {"figures.md", "thalluskin.h"}


def built(folder):
    if not has(DISASSEMBLER, "binutils" if is_native() else "binutils-x86-64-linux-gnu"):
        print("command: build %s was not tried, because there is no %s" % (OWN, DISASSEMBLER))
    elif left(folder, OWN) != {"libthalluskin.a"} or content("target", OWN, "libthalluskin.a") != content(ARCHIVE):
        fail("build %s does not leave the kit's own archive" % OWN)
    if left(folder, "wasm", "-Oz") != {"libthalluskin.a", "thalluskin.wasm"}:
        fail("build wasm leaves other files")
    expect("the level first", run("build", "-Os", "riscv32", folder=folder, output=subprocess.DEVNULL), 0, None, None)
    if left(folder, "riscv32", "-Os") != {"libthalluskin.a"}:
        fail("build riscv32 leaves other files")


def unusable(folder):
    def not_taken(what, said, *words, **more):
        expect(what, run("build", *words, folder=folder, **more), 2, b"", said)

    for name in ("avr", "", "CORTEX-M4", "-O3", "../x"):
        not_taken("the target %r" % name, "no target '%s'; 'thalluskin build' lists them" % name, name)
    for words in (["-O3"], ["-O2", "-O2"], ["wasm"]):
        not_taken("build cortex-m4 %s" % words, "build takes a target and one of -O2, -Os, -Oz", "cortex-m4", *words)
    not_taken("a level alone", "build takes a target", "-O2")
    not_taken("a level for the kit's archive", "the kit's own, and takes no -Os", OWN, "-Os")
    kit = os.path.join(folder, "kit without tools")
    os.makedirs(kit)
    not_taken("a kit without its compiler", "the Rattle kit has no clang", "wasm", RATTLE_HOME=kit)
    few = os.path.join(folder, "few commands")
    os.mkdir(few)
    for command in ("bash", "dirname", "readlink"):
        os.symlink(shutil.which(command), os.path.join(few, command))
    not_taken("no Python", "python3 is not on the PATH", "wasm", PATH=few)
    os.symlink(sys.executable, os.path.join(few, "python3"))
    not_taken("no kit", "the Rattle kit's command 'rt' is not on the PATH", "wasm", PATH=few)
    os.symlink(shutil.which("rt"), os.path.join(few, "rt"))
    not_taken("no objdump", DISASSEMBLER + " is not there", OWN, PATH=few)
    with open("/dev/full", "wb") as full:
        expect("no room", run("build", folder=folder, output=full), 2, None, "standard output: No space left")
