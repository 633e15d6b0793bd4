"""Runs the script `thalluskin`, and counts what was tried of it."""
import os
import subprocess

from common import ROOT, fail

SCRIPT = os.path.join(ROOT, "thalluskin")

tried = 0


def count():
    global tried
    tried += 1


def run(*words, folder, script=SCRIPT, output=subprocess.PIPE, error=subprocess.PIPE, **more):
    return subprocess.run([script, *words], cwd=folder, stdin=subprocess.DEVNULL, stdout=output, stderr=error,
                          env={**os.environ, **more})


def expect(what, got, status, output, said):
    """the exit status, standard output, and words of the one line on standard error, of each in a list, or None for no
    line"""
    count()
    error = got.stderr.decode()
    wanted = [] if said is None else [said] if isinstance(said, str) else said
    lines = [line + "\n" for line in error.split("\n")[:-1]]
    right = "".join(lines) == error and len(lines) == len(wanted) and all(
        line.startswith("thalluskin: ") and words in line for line, words in zip(lines, wanted))
    if (got.returncode, got.stdout) != (status, output) or not right:
        fail("%s: exit status %d, %s, %s" % (what, got.returncode, got.stdout[:200], error))


def store(folder, name, content):
    with open(os.path.join(folder, name), "wb") as out:
        out.write(content)
    return name
