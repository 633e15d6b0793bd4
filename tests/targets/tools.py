"""What has to be installed for a target, and how its programs are run."""
import functools
import os
import shutil
import subprocess

import common
from native.library import Failed

LONGEST = 60  # seconds that a program may take, which needs one or two


class Need:
    """a command, and groups of Debian packages, of which one brings it; `finds` is a file of a second package of the
    group, which a compiler has to find"""

    def __init__(self, command, *groups, finds=None):
        self.command, self.groups, self.finds = command, groups, finds

    def is_there(self):
        if not shutil.which(self.command):
            return False
        return not self.finds or os.path.isabs(found_by(self.command, self.finds))

    @functools.lru_cache(maxsize=None)
    def lacks(self):
        """in words, what is not there after an attempt to install it; None if all is"""
        for packages in self.groups:
            if not self.is_there():
                common.install("--no-install-recommends", *packages)
        if self.is_there():
            return None
        return "%s is not there and cannot be installed (%s)" % (
            " with ".join(filter(None, (self.command, self.finds))), " or ".join(map(" ".join, self.groups)))


def lacking(needs):
    """why something cannot be run, of those that cannot, by their names"""
    found = {}
    for name, of_it in needs.items():
        reasons = [need.lacks() for need in of_it if need.lacks()]
        if reasons:
            found[name] = "; ".join(reasons)
    return found


def found_by(compiler, file):
    """the path of a file that a compiler has, or the bare name if it has none"""
    return common.run(compiler, "-print-file-name=" + file).stdout.decode().strip()


def said_by(what, *words, folder):
    """what a program says, which has to end with status 0"""
    try:
        got = subprocess.run(words, cwd=folder, stdin=subprocess.DEVNULL, stdout=subprocess.PIPE,
                             stderr=subprocess.STDOUT, timeout=LONGEST)
    except subprocess.TimeoutExpired:
        raise Failed("%s did not end within %d seconds" % (what, LONGEST))
    said = got.stdout.decode(errors="replace")
    if got.returncode != 0:
        raise Failed("%s ended with status %d: %s" % (what, got.returncode, said[-3000:]))
    return said
