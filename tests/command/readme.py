"""What the README and docs/CALLS.md say of the script and of Rattle."""
import re
import shlex

from command.script import count, expect, run
from common import ROOT, fail, indented_blocks, read


def commands():
    """what the README says that a command prints, which leaves out blanks at a line's end"""
    shown = [found for block in indented_blocks(read("README.md"))
             for found in re.findall(r"^\$ \./thalluskin (.*)\n((?:(?!\$ ).*\n)*)", block, re.M)]
    if not shown:
        fail("the README shows no command")
    for words, said in shown:
        got = run(*shlex.split(words), folder=ROOT)
        printed = "".join(line.rstrip() + "\n" for line in got.stdout.decode().splitlines())
        missing = words.startswith("why ") and any(": drawn: " not in line for line in said.splitlines())
        output = got.stdout if printed == said else said.encode()
        expect("the README's " + words, got, 1 if missing else 0, output, None)


def of_rattle():
    """the lines of Rattle in the README and in docs/CALLS.md stand in crates/meter, which is proved and run"""
    example = read("crates", "meter", "src", "main.rt")
    for page, heading in (("README.md", "## Use from Rattle\n"), ("docs/CALLS.md", "## Reading\n")):
        section = read(page).split(heading)[1].split("\n## ")[0]
        pieces = [piece for block in indented_blocks(section) for piece in block.split("\n\n")]
        if not pieces:
            fail("%s has no lines of Rattle" % page)
        for piece in pieces:
            count()
            if any(line + "\n" not in example for line in piece.splitlines()) or not (
                    piece.startswith("use ") or piece.strip() in example):
                fail("%s has other lines of Rattle than crates/meter:\n%s" % (page, piece))
