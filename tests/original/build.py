"""Builds programs around 000, the Rust original, whose text is not kept here.

The text is read from the path that the variable THALLUSKIN_ORIGINAL gives, or else from
../shared/docs/src/crates/gfx/src/format/pcf.rs beside the repository. A copy of it with lines appended, which reach its
private parts, is a crate of its own; not a byte of the text itself is changed. Cargo is not needed: the one library
that 000 uses, bytemuck, is compiled from Debian's package."""
import os
import re
import shutil
import subprocess

from common import ROOT, install

BESIDE = os.path.join(os.path.dirname(ROOT), "shared", "docs", "src", "crates", "gfx", "src", "format", "pcf.rs")
BYTEMUCK = "/usr/share/cargo/registry/bytemuck-1.12.1/src/lib.rs"
OLDEST = (1, 80)  # the first rustc that knows size_of, which 000 uses, without an import


class Missing(Exception):
    """what cannot be had here"""


def text():
    """the path of 000's text"""
    path = os.environ.get("THALLUSKIN_ORIGINAL", BESIDE)
    if not os.path.isfile(path):
        raise Missing("000's text is not there; THALLUSKIN_ORIGINAL may give its path")
    return path


def version():
    if not shutil.which("rustc"):
        return (0, 0)
    said = subprocess.run(["rustc", "--version"], stdout=subprocess.PIPE, stderr=subprocess.DEVNULL).stdout.decode()
    found = re.match(r"rustc (\d+)\.(\d+)\.", said)
    return tuple(map(int, found.groups())) if found else (0, 0)


def tools():
    """sees that a compiler new enough and bytemuck are there"""
    if version() < OLDEST:
        install("rustc-web")  # Debian's newer compiler
    if version() < OLDEST:
        raise Missing("rustc %d.%d or newer is not there" % OLDEST)
    if not os.path.exists(BYTEMUCK):
        install("librust-bytemuck-dev")
    if not os.path.exists(BYTEMUCK):
        raise Missing("bytemuck 1.12.1, of Debian's librust-bytemuck-dev, is not there")


def rustc(*words):
    got = subprocess.run(["rustc", "--edition", "2021", "-C", "opt-level=3", *words],
                         stdout=subprocess.PIPE, stderr=subprocess.STDOUT)
    if got.returncode != 0:
        raise RuntimeError("rustc %s failed\n%s" % (" ".join(words), got.stdout.decode(errors="replace")))


def crate(folder, appended, *options):
    """the crate `original` in the folder: 000's text, then the appended file's"""
    tools()
    os.makedirs(folder, exist_ok=True)
    library, source = os.path.join(folder, "libbytemuck.rlib"), os.path.join(folder, "original.rs")
    rustc("--crate-name", "bytemuck", "--crate-type", "rlib", "--cap-lints", "allow", BYTEMUCK, "-o", library)
    with open(text(), "rb") as whole, open(appended, "rb") as more, open(source, "wb") as both:
        both.write(whole.read() + b"\n" + more.read())
    rustc("--crate-name", "original", "--crate-type", "rlib", "--cap-lints", "allow", "--extern",
          "bytemuck=" + library, *options, source, "-o", os.path.join(folder, "liboriginal.rlib"))


def program(folder, main, archive, *options):
    """the program of a main file, linked with the crate `original` of the folder and an archive"""
    made = os.path.join(folder, os.path.splitext(os.path.basename(main))[0])
    rustc("--extern", "original=" + os.path.join(folder, "liboriginal.rlib"), "-L", folder, *options,
          "-C", "link-arg=" + archive, main, "-o", made)
    return made
