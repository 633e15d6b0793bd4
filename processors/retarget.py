"""The library's module for another processor. What is changed of it:

  - the exported functions: in the kit's module these take structs by value in the way of x86-64; in their place come
    functions that are lent structs by pointers, over the same functions of the library;
  - the alignment that every call of an internal function gives its parameters is stated;
  - the layout and the name of the processor;
  - what functions are optimised for, in the place of x86-64's name and of probes for a stack that grows by pages;
  - the width of the size of what is copied or set to 0, where pointers have 32 bits;
  - how the version, a number of 32 bits, is answered, and what an object file says of itself, where the processor's
    table has it.

Each finds what it expects or ends the work."""
import functools
import re

from processors import header
from processors.accesses import Accesses
from processors.exports import exported
from processors.kit import Failed, run, tool
from processors.module import MEMMOVE, MEMSET, functions

LAYOUT = re.compile(r"^target datalayout = .*\ntarget triple = .*$", re.M)
ATTRIBUTES = re.compile(r'^attributes #0 = \{ nounwind "probe-stack"="inline-asm" "stack-probe-size"="3072" '
                        r'"target-cpu"="x86-64" \}$', re.M)
CRATE = "thalluskin_c"  # whose functions are exported
VERSION = re.compile(r"^define noundef i32 @%s\(\)" % header.VERSION, re.M)
LEVELS = {"-O2": "", "-Os": " optsize", "-Oz": " minsize optsize"}


def text_of(module):
    """the module as text, and nothing optimised"""
    return run(tool("clang"), "--target=x86_64-unknown-linux-gnu", "-O0", "-Xclang", "-disable-llvm-passes", "-S",
               "-emit-llvm", "-x", "ir", module, "-o", "-")


def layout(options):
    """what clang says of a processor: the order of its bytes, the sizes and alignments, and its name"""
    said = run(tool("clang"), *options, "-S", "-emit-llvm", "-x", "c", "-", "-o", "-", input=b"void nothing(void) {}")
    return LAYOUT.search(said)[0]


def one(expression, by, text):
    """replaces what has to be there once"""
    made, times = re.subn(expression, lambda found: by, text)
    if times != 1:
        raise Failed("the kit's module is of another form: %d times %s" % (times, expression.pattern))
    return made


def lending(text):
    """the module with functions that are lent structs; size and alignment of the structs that they are lent, and how
    slices are reached"""
    structs, slices = {}, {}
    for answer, name, given in header.prototypes():
        called = re.findall(r'^define internal void (@"%s::%s%s")\(' % (CRATE, header.BY_VALUE, name), text, re.M)
        if len(called) != 1:
            raise Failed("the kit's module has %d functions under %s%s" % (len(called), header.BY_VALUE, name))
        kits = exported(answer, name, given, called[0], lends=False)[0]
        if text.count("\n" + kits) != 1:
            raise Failed("%s%s is not what the kit is known to make of a prototype" % (header.BY_VALUE, name))
        ours, *lent = exported(answer, name, given, called[0], lends=True)
        text = text.replace(kits, ours)
        for all_of_them, of_it in zip((structs, slices), lent):
            all_of_them.update({("@" + header.LENT + name, place): stated for place, stated in of_it.items()})
    return text, structs, slices


def aligned(text, accesses):
    """the parameters of internal functions with the alignment that every call gives"""
    def head(found):
        name, parameters = found[2], found[3].split(", ")
        for k, parameter in enumerate(parameters):
            known = accesses.aligned.get((name, parameter.split()[-1]), 1)
            if known > 1:
                parameters[k] = parameter.replace("ptr noundef", "ptr noundef align %d" % known)
        return found[1] + name + "(" + ", ".join(parameters) + ")"
    return re.sub(r'^(define internal .*)(@"[^"]+")\((.+)\)(?= #0 \{$)', head, text, flags=re.M)


@functools.lru_cache(maxsize=1)
def prepared(text):
    """what is the same for all processors, and all accesses to memory; refused where one is not understood"""
    text, structs, slices = lending(text)
    found = functions(text)
    others = {name for name, function in found.items() if not function.internal} - {"@" + header.VERSION}
    if others != {name for name, _ in structs}:
        raise Failed("the module exports what the header does not declare: %s" % ", ".join(sorted(others)))
    accesses = Accesses(found, structs, {(name, place) for name, place in structs if place == "%a0"}, slices)
    return aligned(text, accesses), accesses


def retargeted(text, target, level):
    """the kit's module, as text, for a processor, and the accesses to memory that were looked at"""
    now = layout(target.options)
    if not re.search(r'"e-.*\bi64:64\b', now):
        raise Failed("a processor with another order of bytes, or with 64-bit numbers at multiples of 4")
    text, accesses = prepared(text)
    text = one(LAYOUT, now, text)
    text = one(ATTRIBUTES, "attributes #0 = { nounwind%s }" % LEVELS[level], text)
    text = one(VERSION, "define noundef %si32 @%s()" % (target.extended, header.VERSION), text)
    if re.search(r"-p:32:32\b", now):
        for kits in (MEMMOVE, MEMSET):
            narrow = kits.replace("i64", "i32")
            text = re.sub(re.escape(kits) + r"\((ptr .*?, (?:ptr|i8)\b.*?), i64\b", narrow + r"(\1, i32", text)
    return text + 'module asm "%s"\n' % target.asm if target.asm else text, accesses
