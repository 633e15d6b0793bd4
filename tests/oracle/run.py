#!/usr/bin/env python3
"""Runs the port beside 000, the Rust original, and compares every answer.

    run.py [--seed N] [--long [MINUTES]] [--departures] [000's text]

Without arguments a fixed seed is used. --long takes a fresh one, which is printed, and goes on for so many minutes, 10
if it does not say; --departures prints the smallest input of each departure with both answers. 000's text may also be
given by the variable THALLUSKIN_ORIGINAL."""
import argparse
import gzip
import os
import secrets
import subprocess
import sys

HERE = os.path.dirname(os.path.abspath(__file__))
sys.path.insert(0, os.path.dirname(HERE))

from common import install  # noqa: E402
from native import library  # noqa: E402
from original import build  # noqa: E402

FOLDER = os.path.join(library.TARGET, "oracle")
# of the program too: rustc makes code for small functions of 000 there, and the program's own option decides for them
CHECKED = ["-C", "overflow-checks=on"]
EVERY = {"xfonts-terminus": 1, "xfonts-base": 17}  # of each package every so many font


def files(package):
    """the font files of a package, which is installed if it is missing"""
    for attempt in (False, True):
        if attempt:
            install(package)
        got = subprocess.run(["dpkg", "-L", package], stdout=subprocess.PIPE, stderr=subprocess.DEVNULL)
        named = sorted(name for name in got.stdout.decode().split() if name.endswith(".pcf.gz"))
        if named and all(map(os.path.exists, named)):
            return named
    print("oracle: without the fonts of %s, because the package cannot be had" % package)
    return []


def real_fonts():
    folder = os.path.join(FOLDER, "fonts")
    os.makedirs(folder, exist_ok=True)
    for old in os.listdir(folder):
        os.remove(os.path.join(folder, old))
    for package, every in EVERY.items():
        for name in files(package)[::every]:
            with gzip.open(name) as packed, open(os.path.join(folder, os.path.basename(name)[:-3]), "wb") as plain:
                plain.write(packed.read())
    return folder


def departures(program):
    """the smallest inputs with both answers, as a table"""
    return subprocess.run([program, "--departures"], stdout=subprocess.PIPE, check=True).stdout.decode()


def table_of_page():
    """the one in docs/DIFFERENCES.md"""
    with open(os.path.join(library.ROOT, "docs", "DIFFERENCES.md"), encoding="utf-8") as page:
        return page.read().split("<!-- departures -->\n")[1].split("<!-- end of departures -->")[0]


def main():
    words = argparse.ArgumentParser()
    words.add_argument("text", nargs="?")
    words.add_argument("--seed", type=int)
    words.add_argument("--long", type=int, nargs="?", const=10)
    words.add_argument("--departures", action="store_true")
    given = words.parse_args()
    if given.text:
        os.environ["THALLUSKIN_ORIGINAL"] = given.text
    try:
        build.text()
        build.crate(FOLDER, os.path.join(os.path.dirname(HERE), "original", "appended.rs"), *CHECKED)
        archive, what = library.for_this_machine()
        program = build.program(FOLDER, os.path.join(HERE, "main.rs"), archive, *CHECKED)
    except build.Missing as missing:
        print("oracle: not run, because %s" % missing)
        return 0
    except (library.Failed, RuntimeError) as failed:
        print("oracle: %s" % failed)
        return 1
    if given.departures:
        print(departures(program), end="")
        return 0
    if table_of_page() != departures(program):
        print("oracle: docs/DIFFERENCES.md has another table than --departures prints")
        return 1
    print("oracle: 000 beside %s" % what, flush=True)
    seed = given.seed if given.seed is not None else secrets.randbelow(2 ** 32) if given.long else 1
    options = ["--seed", str(seed)] + (["--long", str(given.long)] if given.long else [])
    return subprocess.run([program, *options, real_fonts()]).returncode


if __name__ == "__main__":
    sys.exit(main())
