#!/usr/bin/env python3
"""Holds the pages for people to the sources: what docs/PROMISES.md names exists, and every public function, edit and
test stands there, and every enum that a public function answers with; refusals have the same numbers and orders
wherever they are told, and a function that takes a record tells 6 first; lines are short, links lead somewhere, and
decisions are numbered without a gap."""
import collections
import os
import sys

sys.path.insert(0, os.path.dirname(os.path.dirname(os.path.abspath(__file__))))

from documents import layout, named, refusals  # noqa: E402


def main():
    counts, faults = collections.Counter(), []
    for counted, found in (named.check(), refusals.check(), layout.check()):
        counts.update(counted)
        faults += found
    for fault in faults:
        print(fault)
    looked_at = ", ".join(f"{count} {kind}" for kind, count in counts.items())
    print(f"documents: {looked_at}; {len(faults)} faults")
    return 1 if faults else 0


sys.exit(main())
