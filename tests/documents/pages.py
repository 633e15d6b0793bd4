"""The pages for people, cut into tables, cells, paragraphs and names in backticks, each with its line."""
import collections
import glob
import os
import re

from documents import code

PROMISES = "docs/PROMISES.md"
CALLS = "docs/CALLS.md"
DECISIONS = "docs/DECISIONS.md"
ARCHITECTURE = "docs/ARCHITECTURE.md"
DIFFERENCES = "docs/DIFFERENCES.md"

# a table with its heading, the names of its columns, and its rows: the line and the cells
Table = collections.namedtuple("Table", "section head rows")
# a stretch of text in which names belong together: a cell, with its row's first cell, or a paragraph
Piece = collections.namedtuple("Piece", "line section column first text")


def all_pages():
    """README.md and those of docs/, but for the page on the port, which quotes what stood before it"""
    found = (os.path.relpath(p, code.ROOT) for p in glob.glob(code.path("docs", "*.md")))
    return ["README.md"] + sorted(page for page in found if not os.path.basename(page).startswith("PORT"))


def lines(page):
    return code.read(page).split("\n")


def cells(line):
    return [cell.strip() for cell in line.strip().strip("|").split("|")]


def blocks(page):
    """stretches of lines: a table, or a paragraph or an item of a list; with the heading above and the first line"""
    section, held, start = "", [], 0
    for number, line in enumerate(lines(page) + [""], 1):
        begins = not line.strip() or re.match(r"#|\s*(- |\d+\. )", line)
        if held and (begins or line.startswith("|") != held[0].startswith("|")):
            yield section, start, held
            held = []
        if line.startswith("#"):
            section = line.lstrip("# ")
        elif line.strip():
            start = start if held else number
            held.append(line)


def tables(page):
    for section, start, held in blocks(page):
        if held[0].startswith("|"):
            yield Table(section, cells(held[0]), [(start + k, cells(row)) for k, row in enumerate(held) if k > 1])


def pieces(page):
    for table in tables(page):
        for line, row in table.rows:
            for column, text in zip(table.head, row):
                yield Piece(line, table.section, column, row[0], text)
    for section, start, held in blocks(page):
        if not held[0].startswith("|"):
            yield Piece(start, section, None, None, "\n".join(held))


def names(text):
    """what stands in backticks: how many lines further down, and the name, on one line"""
    for m in re.finditer(r"`([^`]*)`", text):
        yield text[:m.start()].count("\n"), re.sub(r"\s+", " ", m[1])
