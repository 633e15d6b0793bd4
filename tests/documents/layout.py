"""The pages' lines are short, their links lead to files, and decisions have numbers without a gap, which other files
cite."""
import collections
import os
import re

from documents import code, pages

MOST, MOST_IN_TABLES = 120, 210
WRITTEN = re.compile(r"<!-- (end of )?\w+ -->")  # what stands between two such lines a program writes


def long_lines(page):
    written = False
    for number, line in enumerate(pages.lines(page), 1):
        if WRITTEN.fullmatch(line):
            written = not written
        most = MOST_IN_TABLES if line.startswith("|") else MOST
        if len(line) > most and not written:
            yield f"{page}:{number}: {len(line)} characters, where {most} are the most"
        if line != line.rstrip():
            yield f"{page}:{number}: a blank at the end"


def links(page):
    """each relative link: its line, and the path from the repository's folder"""
    text = code.read(page)
    for m in re.finditer(r"\]\(([^)#\s]*)[^)]*\)", text):
        if m[1] and "://" not in m[1]:
            line = text[:m.start()].count("\n") + 1
            yield line, os.path.normpath(os.path.join(os.path.dirname(page), m[1]))


def columns(page):
    """rows with another number of cells than their table has columns"""
    for table in pages.tables(page):
        for line, row in table.rows:
            if len(row) != len(table.head):
                yield f"{page}:{line}: {len(row)} cells in a table of {len(table.head)} columns"


def cited():
    """each number by which a file cites a decision: the file, the line and the number"""
    for folder, folders, files in os.walk(code.ROOT):
        folders[:] = [f for f in folders if f not in (".git", "out", "target", "data", "__pycache__")]
        for file in files:
            if re.search(r"\.(md|rt|antt|edit|py|rs|c|h|txt)$|^(run|test|thalluskin)$", file):
                name = os.path.relpath(os.path.join(folder, file), code.ROOT)
                for number, line in enumerate(code.read(name).split("\n"), 1):
                    for m in re.finditer(r"DECISIONS(?:\.md)?[, ]+(\d+)", line):
                        yield name, number, int(m[1])


def check():
    counts, faults = collections.Counter(), []
    for page in pages.all_pages():
        text = code.read(page)
        counts.update({"pages": 1, "lines": text.count("\n")})
        faults += list(long_lines(page)) + list(columns(page))
        if not text.endswith("\n") or text.endswith("\n\n"):
            faults.append(f"{page}: does not end with one newline")
        for line, target in links(page):
            counts["links"] += 1
            if not code.exists(target):
                faults.append(f"{page}:{line}: a link to {target}, which there is not")
    decisions = [int(n) for n in re.findall(r"^(\d+)\. ", code.read(pages.DECISIONS), re.M)]
    counts["decisions"] = len(decisions)
    if decisions != list(range(1, len(decisions) + 1)):
        gap = next((k for k, n in enumerate(decisions, 1) if k != n))
        faults.append(f"{pages.DECISIONS}: {decisions[gap - 1]} stands where {gap} should")
    for name, line, number in cited():
        counts["cited decisions"] += 1
        if number not in decisions:
            faults.append(f"{name}:{line}: there is no decision {number}")
    return counts, faults
