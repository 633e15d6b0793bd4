"""The caller's mode: what a call does otherwise than document 01 says, at the caller's wish."""
from typing import NamedTuple


class Mode(NamedTuple):
    """a field a wish; in the mode's number a bit each, from the lowest on"""
    default: bool = False                    # a code without a glyph takes the default code's


PLAIN = Mode()
MODES = range(2 ** len(Mode._fields))        # every number in which no other bit is set


def is_known(number):
    return number in MODES


def mode_of(number):
    return Mode(*(number // 2 ** i % 2 == 1 for i in range(len(Mode._fields))))
