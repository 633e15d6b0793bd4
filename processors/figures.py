"""What a library takes on its processor: the code of each call linked alone and of all, each call's deepest stack, and
what the linker has to add; and the page that says so."""
import collections
import os

from processors import archives, elf, header, stack, x86_stack
from processors.kit import run, tool
from processors.table import OWN

# bytes by the header's functions, all of them together, names of functions, bytes by the header's functions
Figures = collections.namedtuple("Figures", "alone whole undefined stacks")
WASM_STACK = 16384


def calls(name):
    """the header's functions, and the archive's under each"""
    prefix = header.BY_VALUE if name == OWN else header.LENT
    return {"thk_version": header.VERSION, **{"thk_" + call: prefix + call for _, call, _ in header.prototypes()}}


def linked_wasm(made, exports, out):
    """a program that exports these functions; its stack lies below all else, so that one that is too deep traps"""
    run(tool("ld.lld"), "-flavor", "wasm", "--no-entry", *("--export=" + name for name in exports), "--gc-sections",
        "--strip-all", "-z", "stack-size=%d" % WASM_STACK, "--stack-first", made, "-o", out)
    return os.path.getsize(out)


def linked_wasm_library(archive, out):
    """thalluskin.wasm: all calls, and where memory for what is lent to them may begin"""
    linked_wasm(archive, [*calls("wasm").values(), "__heap_base"], out)


def linked_elf(made, exports, out):
    """a program with these functions alone, and without what the linker has to add"""
    run(tool("ld.lld"), "--gc-sections", "--unresolved-symbols=ignore-all", "-e", exports[0],
        *(word for name in exports for word in ("-u", name)), made, "-o", out)
    with open(out, "rb") as f:
        return elf.Object(f.read()).allocated()


def figures(name, archive, folder, assembler):
    """of a processor's archive; `assembler` is WebAssembly's text, and `folder` takes what is linked on the way"""
    names, out = calls(name), os.path.join(folder, "alone")
    linked = linked_wasm if name == "wasm" else linked_elf
    alone = {call: linked(archive, [function], out) for call, function in names.items()}
    whole = linked(archive, list(names.values()), out)
    os.remove(out)
    if name == "wasm":
        undefined, stacks = [], stack.of_wasm(assembler)
    else:
        undefined = archives.undefined(archive)
        stacks = (x86_stack.of_archive(archive, names.values()) if name == OWN else
                  stack.of_object(*archives.objects(archive)))
    return Figures(alone, whole, undefined, {call: stacks[function] for call, function in names.items()})


def grouped(n):
    return "{:,}".format(n)


def page(name, title, of_it, words):
    """the figures in Markdown"""
    kind = "bytes as a file" if name == "wasm" else "bytes of code and constants"
    more = "and for a page's numbers, some 300 bytes."
    if name == OWN:
        more = "and for copies of the record and of a page's numbers, some 500 bytes."
    rows = ["| `%s` | %s | %s |" % (call, grouped(of_it.alone[call]), grouped(of_it.stacks[call]))
            for call in of_it.alone]
    return "\n".join([
        "# %s" % title, "",
        "All calls together: %s %s. What the linker has to add: %s." % (
            grouped(of_it.whole), kind, ", ".join("`%s`" % one for one in of_it.undefined) or "nothing"),
        words, "",
        "| call | linked alone, bytes | deepest stack, bytes |", "|---|---:|---:|", *rows, "",
        "Without what the linker adds. The stack is without the caller's own: the header's functions become part of",
        "the caller, which needs room for the answer " + more, ""])
