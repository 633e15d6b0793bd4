"""The header, against the Rattle sources, in the dialects of C and C++ that it is for, and for other processors."""
import os
import re

import model
from common import ROOT, TESTS, read, run
from documents.refusals import EVERY, IN_HEADER
from exports import layouts
from exports.machine import ARCHIVE, fail, has, must
from native import library

INCLUDE = os.path.join(ROOT, "include")
# what has a pointer in it, and does not go into the archive
IN_HEADER_ALONE = {"thk_page", "thk_cells"}
SERVED = ["thumbv7em-none-eabi", "thumbv6m-none-eabi", "riscv32-unknown-elf", "riscv64-unknown-elf",
          "aarch64-linux-gnu", "wasm32-unknown-unknown", "x86_64-linux-gnu"]
# another order of bytes, and uint64_t at multiples of 4, with words of why the header is refused there
NOT_SERVED = {"powerpc64-linux-gnu": "little-endian byte order", "i386-linux-gnu": "another layout than the archive's"}
IN_C, IN_CPP = ["c99", "c11", "c17"], ["c++11", "c++17"]
REFUSAL, REASON = r"\bTHK_(?!WHY_)(\w+)", r"\bTHK_WHY_(\w+)"  # the names of both, without what all have in common


def c_numbers(names):
    """the names of the header's refusals or reasons, and their numbers"""
    return [(name, int(n)) for name, n in re.findall(names + r" = (\d+)", read("include", "thalluskin.h"))]


def words_by_number(names):
    """what the header says of each refusal or reason"""
    cases = re.findall(r'^    case ' + names + r':\n        return "(.*)";$', read("include", "thalluskin.h"), re.M)
    return {dict(c_numbers(names))[name]: words for name, words in cases}


def c_refusals():
    return c_numbers(REFUSAL)


def c_words():
    return words_by_number(REFUSAL)


def c_reasons():
    return c_numbers(REASON)


def c_reason_words():
    return words_by_number(REASON)


def of_source(name):
    """a reason's name in the Rattle sources and in Rust, as the header has it"""
    return re.sub(r"\B([A-Z])", r"_\1", name).upper()


def reasons():
    """the reasons are the sources', in the model's order; those that are refusals have their names and words"""
    told = re.findall(r"Reason::(\w+)(?:\(cut\))? => ReasonNumber \{ number: (\d+), cut", read(
        "crates", "why", "src", "lib.rt"))
    numbers, refusals, words = c_reasons(), dict(c_refusals()), c_words()
    if numbers != [(of_source(name), int(n)) for name, n in told] or [n for _, n in numbers] != list(model.REASONS):
        fail("the header's reasons are %s" % numbers)
    for name, n in numbers:
        if refusals.get(name) != (n if n in EVERY else None) or words.get(n) not in (None, c_reason_words().get(n)):
            fail("the header's reason %s, %d, is not the refusal" % (name, n))
    if list(c_reason_words()) != [n for _, n in numbers]:
        fail("the header's reasons with words are %s" % list(c_reason_words()))
    return len(numbers)


def c_modes():
    """the names and numbers of the header's modes"""
    defined = re.findall(r"^#define THK_(\w+) (\d+)$", read("include", "thalluskin.h"), re.M)
    return [(name, int(n)) for name, n in defined if name != "VERSION"]


def modes():
    """the modes are the sources' and the model's: none, and a bit for each field; how many there are"""
    fields = re.findall(r"^    pub (\w+): bool,$", read("crates", "modes", "src", "lib.rt"), re.M)
    wanted = [("PLAIN", 0), *((name.upper(), 2 ** k) for k, name in enumerate(fields))]
    if tuple(fields) != model.Mode._fields or c_modes() != wanted:
        fail("the header's modes are %s" % c_modes())
    return len(wanted)


def declared(text):
    """structs, prototypes and assertions are the sources', and each of the archive's functions has one of the header"""
    structs = set(re.findall(r"^\} (\w+);", text, re.M)) - IN_HEADER_ALONE
    if structs != set(layouts.IN_C.values()):
        fail("the header has %s" % sorted(structs ^ set(layouts.IN_C.values())))
    prototypes = {("thalluskin_" + name, " ".join(parameters.split()), answer)
                  for answer, name, parameters in re.findall(
                      r"^THK_DECLARE\((\w+), (\w+), (.*?)\);", text, re.M | re.S)}
    if prototypes != layouts.c_prototypes():
        fail("the header's prototypes are not the sources': %s" % sorted(prototypes ^ layouts.c_prototypes()))
    inline = {(name, answer, called) for answer, name, of_it, called in re.findall(
        r"^static inline (\w+) (thk_\w+)\([^)]*\)\n\{\n(?:    .*\n)*?    THK_ANSWER\((\w+), (\w+),", text, re.M)
        if answer == of_it}
    over = {(layouts.in_header(name), answer, name.replace("thalluskin_", "")) for name, _, answer in prototypes}
    if inline != over:
        fail("the header's functions are not those over the archive's: %s" % sorted(inline ^ over))
    stated = re.findall(r"\bTHK_(?:AT|SIZE)\(.*?\);", text)
    if stated != list(layouts.assertions()):
        fail("the header asserts another layout: %s" % sorted(set(stated) ^ set(layouts.assertions())))
    numbers = c_refusals()
    if [n for _, n in numbers] != IN_HEADER or sorted(c_words()) != IN_HEADER:
        fail("the header's refusals are %s" % numbers)
    return len(structs), len(prototypes), len(stated), reasons()


def dialects(at, folder, text):
    """how many compile it without a warning; with a wrong assertion all refuse it"""
    tried = IN_C
    if has(at.prefix + "g++", at.package("g++")):
        tried = IN_C + IN_CPP
    else:
        print("exports: the header was not tried in C++, because there is no %sg++" % at.prefix)
    source, wrong = os.path.join(folder, "empty"), os.path.join(folder, "wrong")
    os.makedirs(wrong)
    with open(os.path.join(wrong, "thalluskin.h"), "w") as f:
        f.write(text.replace("THK_SIZE(thk_record, 200);", "THK_SIZE(thk_record, 196);"))
    for dialect in tried:
        compiler, suffix = ("g++", ".cc") if "+" in dialect else ("gcc", ".c")
        with open(source + suffix, "w") as f:
            f.write('#include "thalluskin.h"\nint main(void) { return thk_utf8_step(0, 0, 0).found; }\n')
        for include, holds in ((INCLUDE, True), (wrong, False)):
            for lent in ([], ["-DTHK_LENT"]):
                got = run(at.prefix + compiler, "-std=" + dialect, "-Wall", "-Wextra", "-Wconversion", "-Werror",
                          "-pedantic", *lent, "-I", include, "-c", source + suffix, "-o", source + ".o")
                if (got.returncode == 0) != holds:
                    fail("the header in %s, right %s: %s" % (dialect, holds, got.stderr.decode()[-2000:]))
    if tried != IN_C:
        must("the header in C++", at.prefix + "g++", "-std=c++11", "-I", INCLUDE, source + ".cc", ARCHIVE, "-o",
             os.path.join(folder, "cc"))
    return len(tried)


def processors(at, folder):
    """the kit's clang takes the header for each processor that it serves, and for no other"""
    source = os.path.join(folder, "empty.c")
    freestanding = ["-ffreestanding", "-isystem", library.run(at.prefix + "gcc", "-print-file-name=include").strip()]
    for target in [*SERVED, *NOT_SERVED]:
        for dialect in ("c99", "c11"):
            got = run(library.tool("clang"), "--target=" + target, "-std=" + dialect, "-Wall", "-Wextra", "-Werror",
                      "-pedantic", *freestanding, "-I", INCLUDE, "-fsyntax-only", source)
            said = got.stderr.decode().replace("another_layout_than_the_archive_s", "another layout than the archive's")
            if (got.returncode == 0) != (target in SERVED) or NOT_SERVED.get(target, "") not in said:
                fail("the header for %s: %s" % (target, said[-2000:]))


def limits(at, folder):
    """the limits are what the archive takes, and the defaults what the header says; how many there are"""
    source = os.path.join(TESTS, "exports", "limits.c")
    program = at.build(source, os.path.join(folder, "limits"), "-Wextra", "-std=c99")
    return int(must("the limits", *program, os.path.join(ROOT, "examples", "f.pcf")))


def header(at, folder):
    text = read("include", "thalluskin.h")
    counts = *declared(text), modes()
    source = os.path.join(folder, "layouts.c")
    with open(source, "w") as f:
        f.write(layouts.c_program())
    program = at.build(source, os.path.join(folder, "layouts"), "-std=gnu11")
    printed = set(must("the layouts", *program).decode().splitlines())
    if printed != layouts.c_rows():
        fail("the header's structs are not the sources': %s" % sorted(printed ^ layouts.c_rows()))
    spoken = dialects(at, folder, text)
    processors(at, folder)
    version = re.search(r'^version = "(\d+)\.(\d+)\.(\d+)"$', read("bindings", "rust", "Cargo.toml"), re.M)
    number = sum(int(part) * size for part, size in zip(version.groups(), (10000, 100, 1)))
    if "#define THK_VERSION %d\n" % number not in text:
        fail("the header's version is not the Rust crate's")
    print("exports: the header's %d structs, %d prototypes, %d assertions, %d reasons and %d modes are the sources'; "
          "%d dialects, %d processors, %d limits and defaults" % (*counts, spoken, len(SERVED), limits(at, folder)))
