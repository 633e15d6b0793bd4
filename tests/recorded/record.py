#!/usr/bin/env python3
"""Writes answers/: a sample of 000's answers, to which run.py holds the port with 000's text or without.

The sample was made by this script and is remade by it. questions.py makes calls on fonts (twins.py), which are files of
crates/replay/data too; record.rs, linked with 000 as tests/original/build.py builds it, with overflow checks, makes
each call and writes down what came of it: the values, that 000 answered None or Err, or that it panicked; and after a
call that drew, which pixels of the buffer have the colour. Nothing else is in the files, and nothing of 000's text.

With --check nothing is written: the answers are recorded anew and compared with the files byte for byte."""
import os
import subprocess
import sys
import tempfile

HERE = os.path.dirname(os.path.abspath(__file__))
TESTS = os.path.dirname(HERE)
FOLDER = os.path.join(os.path.dirname(TESTS), "target", "recorded")
ANSWERS = os.path.join(HERE, "answers")
sys.path.insert(0, TESTS)

from original import build  # noqa: E402
from replay import calls, make  # noqa: E402


def recorder():
    """the program that answers with 000"""
    checks = ("-C", "overflow-checks=on")
    build.crate(FOLDER, os.path.join(TESTS, "original", "appended.rs"), *checks)
    made = os.path.join(FOLDER, "record")
    build.rustc("--extern", "original=" + os.path.join(FOLDER, "liboriginal.rlib"), "-L", FOLDER, *checks,
                os.path.join(HERE, "record.rs"), "-o", made)
    return made


def recorded():
    """the files of 000's answers"""
    program, made = recorder(), {}
    with tempfile.TemporaryDirectory() as folder:
        asked, answered = os.path.join(folder, "asked"), os.path.join(folder, "answered")
        for name, sections in make.recorded().items():
            with open(asked, "wb") as f:
                f.write(calls.content(sections))
            subprocess.run([program, asked, answered], check=True)
            with open(answered, "rb") as f:
                made[name.replace(".calls", ".txt")] = f.read()
    return made


def stored():
    made = {}
    for name in os.listdir(ANSWERS):
        with open(os.path.join(ANSWERS, name), "rb") as f:
            made[name] = f.read()
    return made


def difference(name, kept, made):
    """the first line that a stored file does not have as it is recorded now"""
    for number, (old, new) in enumerate(zip(kept.splitlines(), made.splitlines()), 1):
        if old != new:
            return "%s, line %d, is not what 000 answers" % (name, number)
    return None if kept == made else "%s has not as many lines as there are fonts and calls" % name


def differences(kept, made):
    if sorted(kept) != sorted(made):
        yield "answers: not the files that questions.py asks about"
    yield from filter(None, (difference(name, kept.get(name, b""), made[name]) for name in made))


def cases(files):
    return sum(not line.startswith(b"font of") for content in files.values() for line in content.splitlines())


def check():
    kept = stored()
    for told in differences(kept, recorded()):
        print("recorded: " + told)
        sys.exit(1)
    print("recorded: %d cases, the files are 000's answers" % cases(kept))


def remake():
    made = recorded()
    os.makedirs(ANSWERS, exist_ok=True)
    for name, content in made.items():
        with open(os.path.join(ANSWERS, name), "wb") as f:
            f.write(content)
    print("recorded: %d cases" % cases(made))


if __name__ == "__main__":
    try:
        check() if "--check" in sys.argv[1:] else remake()
    except build.Missing as missing:
        print("recorded: not run, because %s" % missing)
