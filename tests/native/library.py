"""The library for the machine that runs the tests, made as `./thalluskin build` makes it."""
import os
import sys

ROOT = os.path.dirname(os.path.dirname(os.path.dirname(os.path.abspath(__file__))))
sys.path.insert(0, ROOT)

from processors.build import USUAL, compiled, for_this_machine  # noqa: E402
from processors.kit import ARCHIVE, TARGET, Failed, archive, module, run, tool  # noqa: E402
from processors.table import OWN  # noqa: E402

__all__ = ["ARCHIVE", "ROOT", "TARGET", "Failed", "archive", "for_this_machine", "lent", "module", "run", "tool"]


def lent(folder):
    """the archive as other processors have it, for x86-64: with functions that are lent structs"""
    return compiled(OWN, USUAL, folder)[0]


if __name__ == "__main__":
    try:
        print("%s (%s)" % for_this_machine())
    except Failed as failed:
        sys.exit("native: %s" % failed)
