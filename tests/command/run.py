#!/usr/bin/env python3
"""Tries the script `thalluskin` as a person would, with good, refused and unusable files, and holds what
it prints to the model of document 01. The script itself builds the programs that it runs."""
import os
import sys
import tempfile

sys.path.insert(0, os.path.dirname(os.path.dirname(os.path.abspath(__file__))))

from command import (builds, dumps, help_and_bench, pictures, readme, records, refusals, script, shows,  # noqa: E402
                     whys)
from pcf.font_f import two_digits  # noqa: E402


def main():
    with tempfile.TemporaryDirectory() as folder:
        # the first runs may build the programs and the library, and say so
        script.store(folder, "first.pcf", two_digits())
        for words in (["dump", "first.pcf"], ["show", "12"], ["why", "first.pcf", "0"], ["record", "first.pcf"]):
            if script.run(*words, folder=folder, error=None).returncode != 0:
                sys.exit(1)
        dumps.good(folder)
        dumps.made_fonts(folder)
        dumps.unusable(folder)
        shows.shown(folder)
        shows.shown_by_default(folder)
        refusals.not_shown(folder)
        refusals.two_formats(folder)
        refusals.not_asked(folder)
        pictures.pictures(folder)
        whys.every_reason(folder)
        whys.by_default(folder)
        whys.two_bytes(folder)
        whys.ways_to_ask(folder)
        whys.refused(folder)
        whys.not_asked(folder)
        refusals.no_room(folder)
        records.compiled(folder)
        records.refused(folder)
        records.named(folder)
        records.unusable(folder)
        builds.listed(folder)
        builds.built(folder)
        builds.unusable(folder)
        help_and_bench.helped(folder)
        help_and_bench.benched(folder)
        readme.commands()
        readme.of_rattle()
    print("command: %d cases, as the model and the script's help say" % script.tried)


if __name__ == "__main__":
    main()
