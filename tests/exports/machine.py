"""The machine at hand and its tools. The archive is for x86-64: on another machine C programs are cross-compiled and
emulated, and the calls are replayed again, and Rust tried, with the library that tests/native makes for it, each where
the tools are to be had."""
import os
import shutil

import common
from common import ROOT, run
from native import library
from processors.table import OWN, at_hand

ARCHIVE = library.ARCHIVE


def fail(text):
    common.fail("exports: " + text)


def must(what, *words, **more):
    got = run(*words, **more)
    if got.returncode != 0:
        said = [text.decode(errors="replace")[-3000:] for text in (got.stdout, got.stderr)]
        fail("%s failed\n%s%s" % (what, *said))
    return got.stdout


def has(command, *packages):
    """whether the command is there, after an attempt to install it"""
    if not shutil.which(command):
        common.install(*packages)
    return shutil.which(command) is not None


def is_native():
    """whether the kit's archive is for the machine at hand"""
    return at_hand() == OWN


class Native:
    prefix, emulator = "", []

    def package(self, command):
        """the Debian package of a command with the prefix"""
        return command

    def build(self, source, program, *options, archive=ARCHIVE, beside=()):
        """a program of a source and of those beside it"""
        must("compiling " + source, self.prefix + "gcc", "-Wall", "-Werror", *options,
             "-I", os.path.join(ROOT, "include"), source, *beside, archive, "-o", program)
        return [*self.emulator, program]


class Cross(Native):
    """static programs, so that the emulator needs no libraries"""
    prefix = "x86_64-linux-gnu-"

    def __init__(self, emulator):
        self.emulator = [emulator]

    def package(self, command):
        return command + "-x86-64-linux-gnu"

    def build(self, source, program, *options, **more):
        return Native.build(self, source, program, "-static", *options, **more)


def machine():
    """what compiles and runs programs that are linked with the archive; None where nothing does"""
    if is_native():
        for command, *packages in (["gcc", "gcc", "libc6-dev"], ["g++", "g++"], ["nm", "binutils"], ["cargo", "cargo"]):
            if not has(command, *packages):
                fail("%s is not there and cannot be installed" % command)
        return Native()
    emulator = "qemu-x86_64" if has("qemu-x86_64", "qemu-user") else None
    if emulator and has("x86_64-linux-gnu-gcc", "gcc-x86-64-linux-gnu", "libc6-dev-amd64-cross"):
        return Cross(emulator)
    return None


def native_archive():
    """the archive that Rust and the README's commands link: on another machine than x86-64 the one that tests/native
    makes for it, which the calls are replayed with too. None where the tools are not to be had"""
    if is_native():
        return ARCHIVE
    tools = (["gcc", "gcc", "libc6-dev"], ["cargo", "cargo"])
    lacks = [command for command, *packages in tools if not has(command, *packages)]
    if lacks:
        print("exports: Rust and the README were not tried, because these are not there: %s" % ", ".join(lacks))
        return None
    made, words = library.for_this_machine()
    print("exports: Rust and the README's commands link %s, %s" % (os.path.relpath(made, ROOT), words))
    return made
