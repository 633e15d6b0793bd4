#!/usr/bin/env python3
"""Tries libthalluskin.a from outside Rattle: its symbols and its stack; the header and the Rust crate against the
Rattle sources; calls of all its functions from C against the model of document 01; the program examples/draw.c; the
Rust crate's own tests, and clippy's where it is installed; the README's C, Rust and commands."""
import os
import sys
import tempfile

sys.path.insert(0, os.path.dirname(os.path.dirname(os.path.abspath(__file__))))

from exports.example import example  # noqa: E402
from exports.header import header  # noqa: E402
from exports.machine import Native, fail, machine, native_archive  # noqa: E402
from exports.readme import readme  # noqa: E402
from exports.replayed import replay, replay_here  # noqa: E402
from exports.rust import rust  # noqa: E402
from exports.stack import stack  # noqa: E402
from exports.symbols import symbols  # noqa: E402
from native import library  # noqa: E402


def main():
    library.archive()
    at = machine()
    with tempfile.TemporaryDirectory() as folder:
        if at:
            symbols(at)
            stack()
            header(at, folder)
            replay(at, folder)
            example(at, folder)
        else:
            print("exports: C was not tried, because no program for x86-64 can be linked and emulated here")
        archive = native_archive()
        if archive:
            if archive != library.ARCHIVE:
                replay_here(Native(), folder, archive)
            rust(folder, archive)
            readme(folder, archive)


if __name__ == "__main__":
    try:
        main()
    except library.Failed as failed:
        fail(str(failed))
