#!/usr/bin/env python3
"""Brings the repository's own definitions and lemmas to the spelling of today's Rattle: words in snake case.

usage: python3 tools/respell.py [--list]      at the top, once, right after the kit's port.py

Names that specs/ and proofs/ declare and that are written with a capital inside (glyphOf) or with dashes (next-digit)
become snake case (glyph_of, next_digit); a name that joins two definitions keeps its dash (length-painted). Facts and
types keep their capitals. Functions of src/, exported names, strings, inputs and outputs keep theirs. Where a lemma
would get the name of a definition, it ends in _lem. --list prints old and new and changes nothing.
"""

import pathlib
import re
import sys

DECLARED = re.compile(
    r"^[ \t]*(?:abbrev |unfoldable |data |record )?(?:pub )?(?:abbrev |data |record )?"
    r"([^\s:(){}=,.|]+)(?: \{[^{}=]*\}| \([^()=]*(?:\([^()]*\)[^()=]*)*\))* :(?= |$)",
    re.M,
)
TOKEN = re.compile(r"(?<![\w'′₀-₉-])[A-Za-z_][\w'′₀-₉]*(?:-[\w'′₀-₉]+)*(?![\w'′₀-₉-])")

# Names that join two definitions, so that their dash stays, and names that a rule alone would not find.
KEPT = {"length-field", "length-hex", "length-painted", "length-picture", "length-tails", "sets-append", "hex-append"}
GIVEN = {
    "getD-painted": "get_or-painted",
    "F-passes": "f_passes",
    "firstRun": "is_first_run",  # beside a field first_run
    "nameIn": "name_inside",  # beside a field name_in
}
# Names that a let or a where gives.
LOCAL = ["sizesAt", "inHere", "linesFrom", "inStrip", "noRows", "inMore", "modeOf"]
# A lemma, in one file, whose name a definition takes now; and the font that one file calls by a letter.
IN_FILE = {
    "crates/promises/proofs/GivenF.antt": {"record_of": "record_of_passed"},
}
FONT = re.compile(r"crates/promises/(?:specs|proofs|must-fail)/")


def snake(name):
    return re.sub(r"(?<=[a-z0-9])([A-Z])", r"_\1", name).lower().replace("-", "_")


def antt(root):
    return sorted(root.glob("crates/*/specs/*.antt")) + sorted(root.glob("crates/*/proofs/*.antt"))


def renamed(root):
    """Old names to new ones."""
    names, plain = {name: snake(name) for name in LOCAL}, set()
    for path in antt(root):
        for name in DECLARED.findall(path.read_text()):
            if not re.search(r"[A-Z-]", name):
                plain.add(name)
            elif name in GIVEN:
                names[name] = GIVEN[name]
            elif name in KEPT or not name[0].islower():
                continue
            else:
                names[name] = snake(name)
    # What would fall together: the definition keeps the name, and the lemma with it ends in _lem.
    taken = {new for old, new in names.items() if "-" not in old} | plain
    return {old: new + "_lem" if "-" in old and new in taken else new for old, new in names.items()}


def in_code(text, replace, comment="--"):
    """The text with what stands outside of comments replaced too: all of it, line by line, comment apart."""
    out = []
    for line in text.split("\n"):
        at = line.find(comment) if comment else -1
        if at >= 0 and (at == 0 or line[at - 1].isspace()):
            out.append(replace(line[:at]) + line[at:])
        else:
            out.append(replace(line))
    return "\n".join(out)


def main():
    root = pathlib.Path(".")
    names = renamed(root)
    if "--list" in sys.argv:
        for old, new in sorted(names.items()):
            print(old, new)
        return
    inverse = {}
    for old, new in names.items():
        inverse.setdefault(new, []).append(old)
    for new, olds in sorted(inverse.items()):
        if len(olds) > 1:
            sys.exit(f"{' and '.join(olds)} fall together as {new}")
    capitals = {o: n for o, n in names.items() if re.search("[A-Z]", o)}

    def turner(path, known, dotted):
        def turn(match):
            name, at = match.group(0), match.start()
            if name not in known:
                return name
            if not dotted and "-" in name and at and match.string[at - 1] == ".":
                return name
            return known[name]

        return lambda text: TOKEN.sub(turn, text)

    changed = 0
    places = ["crates/**/*", "docs/**/*.md", "*.md", "tests/**/*.py", "tests/definitions/*.jsonl"]
    for path in [path for place in places for path in sorted(root.glob(place))]:
        name = path.as_posix()
        if not path.is_file() or "/out/" in name or path.suffix not in (".antt", ".rt", ".edit", ".md", ".py", ".jsonl"):
            continue
        old = path.read_text()
        if path.suffix == ".antt":
            by_hand = path.name in ("Proof.antt", "Answers.antt", "Invariants.antt")
            known = dict(names, **IN_FILE.get(name, {}))
            new = turner(path, known, not by_hand)(old)
            if by_hand:
                new = re.sub(r"(?<![\w.'])([a-z][\w'-]*)-spec(?![\w'-])", lambda m: m.group(1).replace("-", "_") + "_spec", new)
        elif path.suffix == ".rt":
            # Only what is ghost: names with a capital inside or dashes do not stand in code.
            new = in_code(old, turner(path, names, True), "//")
            new = re.sub(r"//[^\n]*", lambda m: turner(path, capitals, True)(m.group(0)), new)
        elif path.suffix == ".edit":
            new = turner(path, names, True)(old)
        elif path.suffix in (".py", ".jsonl"):
            # The tests' definitions are asked by their names; no name of Python has a capital inside.
            new = turner(path, capitals, True)(old)
        else:
            ticks = re.compile(r"`[^`\n]+`")
            new = turner(path, capitals, True)(old)
            new = ticks.sub(lambda m: turner(path, names, True)(m.group(0)), new)
        if FONT.match(name) and path.suffix in (".antt", ".edit"):
            new = in_code(new, lambda line: re.sub(r"(?<![\w.'`-])F(?![\w'`-])", "font_f", line), "--")
        if new != old:
            path.write_text(new)
            changed += 1
    print(f"{len(names)} names, {changed} files")


if __name__ == "__main__":
    main()
