"""The files that are stored beside a program of crates/: what it is given, and what it has to write."""
import os

from common import ROOT, fail


def path(program, *parts):
    return os.path.join(ROOT, "crates", program, *parts)


def read(program, *parts):
    with open(path(program, *parts), "rb") as f:
        return f.read()


def store(content, program, *parts):
    with open(path(program, *parts), "wb") as f:
        f.write(content)


def store_data(program, files):
    """these files alone, by their names, in the program's data/"""
    os.makedirs(path(program, "data"), exist_ok=True)
    for name in os.listdir(path(program, "data")):
        os.remove(path(program, "data", name))
    for name, content in files.items():
        store(content, program, "data", name)


def hold_data(program, files):
    """ends the test unless data/ has these files and no other"""
    kept = sorted(os.listdir(path(program, "data")))
    if kept != sorted(files):
        fail("crates/%s/data has %s, make.py makes %s" % (program, kept, sorted(files)))
    for name, content in files.items():
        if read(program, "data", name) != content:
            fail("crates/%s/data/%s is not what make.py makes" % (program, name))


def hold(want, write):
    """ends the test unless each file, by program and name, has this content; `write` stores it first"""
    for (program, name), content in want.items():
        if write:
            store(content, program, name)
        if read(program, name) != content:
            fail("crates/%s/%s is not what the model says" % (program, name))
