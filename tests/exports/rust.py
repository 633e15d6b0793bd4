"""The Rust crate: its declarations against the Rattle sources, its own tests in both shapes of the archive, and its
build script."""
import os
import re

from common import ROOT, read, run
from exports import layouts
from exports.header import c_modes, c_reason_words, c_reasons, c_refusals, c_words, of_source
from exports.machine import ARCHIVE, fail, must
from native import library

ELSEWHERE = ["thumbv7em-none-eabi", "thumbv6m-none-eabi", "riscv32imac-unknown-none-elf",
             "riscv64imac-unknown-none-elf", "aarch64-unknown-linux-gnu", "wasm32-unknown-unknown"]
CRATE = os.path.join(ROOT, "bindings", "rust")
BUILT = os.path.join(ROOT, "target", "rust")


def declarations():
    """the crate's prototypes are the sources', and its refusals, reasons, words, limits and modes the header's"""
    listed = re.search(r"^calls! \{$(.*?)^\}$", read("bindings", "rust", "src", "calls.rs"), re.M | re.S)[1]
    prototypes = {("thalluskin_" + name, parameters, answer) for name, parameters, answer in re.findall(
        r"^    fn (\w+)\((.*)\) -> (\w+);$", listed, re.M)}
    if prototypes != layouts.rust_prototypes():
        fail("the Rust crate's prototypes are not the sources': %s" % sorted(prototypes ^ layouts.rust_prototypes()))
    refusal = read("bindings", "rust", "src", "refusal.rs")
    constants = [(name, int(n)) for name, n in re.findall(r"^    pub const (\w+): u32 = (\d+);", refusal, re.M)]
    if constants != c_refusals()[1:]:
        fail("the Rust crate's refusals are not the header's: %s" % sorted(set(constants) ^ set(c_refusals()[1:])))
    words = {dict(constants)[name]: said for name, said in re.findall(r'Refusal::(\w+) => \{?\s*"(.*)"', refusal)}
    if {0: c_words()[0], **words} != c_words():
        fail("the Rust crate's words are not the header's: %s" % sorted(set(words.items()) ^ set(c_words().items())))
    reason = read("bindings", "rust", "src", "reason.rs")
    numbers = [(of_source(name), int(n)) for n, name in re.findall(r"^ +(\d+) => Reason::(\w+)", reason, re.M)]
    if numbers != c_reasons():
        fail("the Rust crate's reasons are not the header's: %s" % sorted(set(numbers) ^ set(c_reasons())))
    words = re.findall(r'Reason::(\w+)(?:\(_\))? => "(.*)"', reason)
    words = {dict(numbers)[of_source(name)]: said for name, said in words}
    if words != c_reason_words():
        fail("the Rust crate's words of reasons are not the header's: %s" % sorted(
            set(words.items()) ^ set(c_reason_words().items())))
    limits = re.findall(r"^pub const (MAX_\w+): u64 = ([\d_]+);", read("bindings", "rust", "src", "page.rs"), re.M)
    limits = [(name, n.replace("_", "")) for name, n in limits]
    in_c = re.findall(r"\bTHK_(MAX_\w+) UINT64_C\((\d+)\)", read("include", "thalluskin.h"))
    if sorted(limits) != sorted(in_c) or not limits:
        fail("the Rust crate's limits are not the header's: %s" % sorted(set(limits) ^ set(in_c)))
    modes()
    types()


def modes():
    """its numbers for modes are the header's, and there is a field for each but the plain one"""
    source = read("bindings", "rust", "src", "structs.rs")
    numbers = [(name, int(n)) for name, n in re.findall(r"^pub\(crate\) const (\w+): u32 = (\d+);", source, re.M)]
    fields = re.findall(r"^    pub (\w+): bool,$", read("bindings", "rust", "src", "mode.rs"), re.M)
    if numbers != c_modes() or [name.upper() for name in fields] != [name for name, _ in numbers[1:]]:
        fail("the Rust crate's modes are not the header's: %s, %s" % (numbers, fields))


def types():
    """the fields of its structs have the types of the sources'"""
    structs = read("bindings", "rust", "src", "structs.rs")
    for kind, fields in layouts.STRUCTS.items():
        body = re.search(r"struct %s(?: \{(.*?)^\}|\((.*?)\);)" % layouts.rust_struct(kind), structs, re.M | re.S)
        found = re.findall(r"^    pub \w+: (\w+),$", body[1], re.M) if body[1] else [body[2].replace("pub ", "")]
        if found != [layouts.in_rust(of) for _, of in fields]:
            fail("the Rust struct %s has other types: %s" % (layouts.rust_struct(kind), found))


def put_archive(folder):
    """an archive that is empty, where only its place matters"""
    os.makedirs(folder)
    open(os.path.join(folder, "libthalluskin.a"), "wb").close()


def build_script(folder):
    """what the crate's build script says to a target or a folder that it cannot link"""
    script = os.path.join(folder, "build")
    must("the build script", "rustc", "--edition", "2021", os.path.join(CRATE, "build.rs"), "-o", script)
    empty = os.path.join(folder, "repository", "bindings", "rust")
    os.makedirs(empty)
    right = {"PATH": os.environ["PATH"], "CARGO_MANIFEST_DIR": empty, "TARGET": "x86_64-unknown-linux-gnu",
             "CARGO_CFG_TARGET_ARCH": "x86_64", "CARGO_CFG_TARGET_POINTER_WIDTH": "64",
             "CARGO_CFG_TARGET_ENDIAN": "little", "CARGO_CFG_TARGET_OS": "linux"}
    named = {"THALLUSKIN_LIB": os.path.dirname(ARCHIVE)}

    def of(target, arch, **more):
        return {"TARGET": target, "CARGO_CFG_TARGET_ARCH": arch,
                **{"CARGO_CFG_TARGET_" + name: value for name, value in more.items()}}
    arm = of("thumbv7em-none-eabi", "arm", OS="none", POINTER_WIDTH="32")
    tries = [
        ({"CARGO_MANIFEST_DIR": CRATE}, None), (named, None), ({**arm, **named}, None),
        ({}, "staticlib/libthalluskin.a is not there; `./thalluskin build x86-64` makes it"),
        ({**of("armv7-unknown-linux-gnueabi", "arm"), **named}, None),
        ({"THALLUSKIN_LIB": os.path.join("target", "staticlib")}, "absolute path"),
        ({"THALLUSKIN_LIB": ""}, "absolute path"), ({"THALLUSKIN_LIB": folder}, "is not there; THALLUSKIN_LIB"),
        (of("armv7-unknown-linux-gnueabi", "arm"), "makes no libthalluskin.a for armv7"),
        (of("riscv64gc-unknown-none-elf", "riscv64"), "makes no libthalluskin.a for riscv64gc"),
        (of("aarch64-apple-darwin", "aarch64"), "makes no libthalluskin.a for aarch64-apple"),
        (of("aarch64-unknown-none-softfloat", "aarch64"), "makes no libthalluskin.a for aarch64-unknown-none-soft"),
        (of("aarch64-unknown-uefi", "aarch64"), "makes no libthalluskin.a for aarch64-unknown-uefi"),
    ]
    for target, arch, place in (
            ("thumbv7em-none-eabihf", "arm", "cortex-m4"), ("thumbv6m-none-eabi", "arm", "cortex-m0plus"),
            ("thumbv7m-none-eabi", "arm", "cortex-m0plus"), ("thumbv8m.main-none-eabihf", "arm", "cortex-m0plus"),
            ("riscv32imac-unknown-none-elf", "riscv32", "riscv32"), ("riscv32imc-esp-espidf", "riscv32", "riscv32"),
            ("riscv64imac-unknown-none-elf", "riscv64", "riscv64"),
            ("aarch64-unknown-linux-gnu", "aarch64", "aarch64"), ("wasm32-unknown-unknown", "wasm32", "wasm")):
        lacks = "%s/libthalluskin.a is not there; `./thalluskin build %s` makes it" % (place, place)
        other = os.path.join(folder, "with", target, "bindings", "rust")
        put_archive(os.path.join(folder, "with", target, "target", place))
        os.makedirs(other)
        tries += [(of(target, arch), lacks), ({**of(target, arch), "CARGO_MANIFEST_DIR": other}, None)]
    for wrong, words in ((of("x86_64-pc-windows-gnu", "x86_64", OS="windows"), "64-bit Linux"),
                         (of("x86_64-unknown-linux-gnux32", "x86_64", POINTER_WIDTH="32"), "64-bit Linux"),
                         (of("powerpc64-unknown-linux-gnu", "powerpc64", ENDIAN="big"), "little-endian")):
        tries += [(wrong, words), ({**wrong, **named}, words)]
    for given, words in tries:
        got = run(script, env={**right, **given}, cwd=ROOT)
        said = got.stderr.decode(errors="replace")
        links = "cargo:rustc-link-lib=static=thalluskin" in got.stdout.decode(errors="replace").splitlines()
        if (got.returncode, links) != (int(words is not None), words is None) or (words or "") not in said:
            fail("the build script, %s: status %d, %s" % (given, got.returncode, said))
    return len(tries)


def elsewhere(cargo, folder):
    """how many other targets the crate compiles for, of those that the compiler has, and which it has not"""
    installed = os.path.join(must("rustc", "rustc", "--print", "sysroot").decode().strip(), "lib", "rustlib")
    lacking = [target for target in ELSEWHERE if not os.path.exists(os.path.join(installed, target))]
    named = os.path.join(folder, "empty")
    put_archive(named)
    for target in ELSEWHERE:
        if target not in lacking:
            cargo("check", "--target", target, THALLUSKIN_LIB=named)
    return len(ELSEWHERE) - len(lacking), lacking


def rust(folder, archive):
    """the crate, linked with an archive for this machine"""
    words = {**os.environ, "CARGO_TARGET_DIR": BUILT, "THALLUSKIN_LIB": os.path.dirname(archive)}
    if "HOME" not in words:
        words["CARGO_HOME"] = os.path.join(BUILT, "home")

    def cargo(*command, **more):
        what = "cargo %s" % command[0]
        return must(what, "cargo", command[0], "--offline", *command[1:], cwd=CRATE, env={**words, **more}).decode()

    def passed(said):
        return [int(n) for n in re.findall(r"^test result: ok. (\d+) passed; 0 failed; 0 ignored", said, re.M)]

    cargo("build")
    counts = passed(cargo("test"))
    if len(counts) != 2 or 0 in counts:
        fail("cargo test ran %s tests" % counts)
    said = cargo("test", "--lib", "layout", "--", "--nocapture")
    printed = {tuple(row.split()) for row in re.findall(r"\blayout ((?:\w+ ){1,3}\d+)$", said, re.M)}
    rows = set(layouts.rows(layouts.rust_struct, layouts.rust_field))
    if printed != rows:
        fail("the Rust structs are not the sources': %s" % sorted(printed ^ rows))
    declarations()
    linted = "clippy is not installed"
    if run("cargo", "clippy", "--version", env=words).returncode == 0:
        cargo("clippy", "--all-targets", "--", "-D", "warnings")
        linted = "clippy passes"
    shapes = "with structs lent"
    if archive == ARCHIVE:
        shapes = "with structs by value and lent"
        lent = library.lent(os.path.join(folder, "lent"))
        again = passed(cargo("test", "--lib", RUSTFLAGS="--cfg thalluskin_lent", THALLUSKIN_LIB=os.path.dirname(lent),
                             CARGO_TARGET_DIR=os.path.join(folder, "rust")))
        if again != counts[:1]:
            fail("with structs lent, cargo test ran %s tests" % again)
    checked, lacking = elsewhere(cargo, folder)
    if lacking:
        print("exports: Rust: not compiled for %s, whose core is not installed" % ", ".join(lacking))
    scripts = build_script(folder)
    print("exports: Rust: %d unit tests %s, %d doc tests, %d other targets, %d tries of the build script, %s; its "
          "structs, declarations, refusals, reasons, words, limits and modes are the sources' or the header's" % (
              counts[0], shapes, counts[1], checked, scripts, linted))
