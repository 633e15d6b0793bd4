"""What the tests share: where the repository is, how a test ends, and how it runs or installs a command."""
import os
import re
import shutil
import subprocess
import sys

TESTS = os.path.dirname(os.path.abspath(__file__))
ROOT = os.path.dirname(TESTS)


def fail(text):
    print(text)
    sys.exit(1)


def read(*parts):
    """a file of the repository, as text"""
    with open(os.path.join(ROOT, *parts), encoding="utf-8") as f:
        return f.read()


def run(*words, **more):
    return subprocess.run(words, stdout=subprocess.PIPE, stderr=subprocess.PIPE, **more)


def install(*packages):
    """by apt-get, where there is one"""
    if shutil.which("apt-get"):
        for words in (["update", "-q"], ["install", "-qy", *packages]):
            subprocess.run(["apt-get", *words], stdin=subprocess.DEVNULL, stdout=subprocess.DEVNULL,
                           stderr=subprocess.DEVNULL)


def indented_blocks(page):
    """the blocks of a page of Markdown that are indented by four blanks, without these"""
    blocks = re.findall(r"(?:^    .*\n|^\n(?=    ))+", page, re.M)
    return [re.sub("^    ", "", block, flags=re.M).lstrip("\n") for block in blocks]
