#!/usr/bin/env python3
"""In proofs by hand: the steps that are named after functions keep the functions' spelling, as c.u32_at and
tie.After-byte_at3, where the older kit wrote dashes.

usage: python3 tools/step_names.py      at the top, once, after tools/respell.py
"""

import pathlib
import re

FUNCTION = re.compile(r"\bfn\s+(\w+)")
# Of the kit's library, what the crates call.
LENT = ["write_all", "read_full", "print_decimal", "print_hex", "large_buffer", "open_read", "arg_count", "leading_zeros"]


def main():
    root = pathlib.Path(".")
    names = {name for path in root.glob("crates/*/src/**/*.rt") for name in FUNCTION.findall(path.read_text())}
    names = sorted((n for n in [*names, *LENT] if "_" in n), key=len, reverse=True)
    dashed = "|".join(re.escape(n.replace("_", "-")) for n in names)
    # after a dot, at the start of a step's name, or after a word that Rattle puts before it
    step = re.compile(r"(?<=\.)((?:After-|Then-|Else-|In-)?)(%s)(?=\d*(?![\w-])|\d*-)" % dashed)
    goal = re.compile(r"(?<=-- )(%s)(?=\d*-)" % dashed)
    changed = 0
    for path in sorted(root.glob("crates/*/proofs/**/Proof.antt")):
        old = path.read_text()
        new = step.sub(lambda m: m.group(1) + m.group(2).replace("-", "_"), old)
        new = goal.sub(lambda m: m.group(1).replace("-", "_"), new)
        if new != old:
            path.write_text(new)
            changed += 1
    print(f"{changed} files")


if __name__ == "__main__":
    main()
