"""What replay.c is given, and what it has to leave: of all calls, or of a share of them."""
import bisect
import functools
import itertools

from exports import cases, layouts

BEYOND, PATTERN = 64, 0xA5  # as replay.c has them


class Asked:
    """calls and what the model wants of each, kept so that all bytes are compared at once"""

    def __init__(self, calls, wanted):
        self.calls, self.wanted = calls, wanted
        self.given = b"".join(cases.encoded(c, k > 0 and c["font"] is calls[k - 1]["font"])
                              for k, c in enumerate(calls))
        left = [left_of(c, *of_it) for c, of_it in zip(calls, wanted)]
        self.ends = list(itertools.accumulate(len(one) for one in left))
        self.length, self.left = self.ends[-1], int.from_bytes(b"".join(left), "little")
        self.counting = int.from_bytes(b"".join(counting(kind, len(one)) for (kind, _, _), one in zip(wanted, left)),
                                       "little")

    def share(self, step):
        """the first of each `step` calls"""
        return Asked(self.calls[::step], self.wanted[::step])

    def wrong(self, left):
        """in words, what differs first in what was left; None if nothing does"""
        if len(left) != self.length:
            return "%d bytes were left, and %d are wanted" % (len(left), self.length)
        differing = (int.from_bytes(left, "little") ^ self.left) & self.counting
        if not differing:
            return None
        k = bisect.bisect_right(self.ends, low_bit(differing) // 8)
        start = self.ends[k - 1] if k else 0
        return told(self.calls[k], *self.wanted[k], left[start:self.ends[k]])


@functools.lru_cache(maxsize=None)
def all_asked():
    calls = list(cases.all_calls())
    return Asked(calls, [cases.expected_of(c) for c in calls])


def low_bit(n):
    return (n & -n).bit_length() - 1


def left_of(c, kind, want, buf):
    """the answer's size, the answer, its memory with some beyond, and the buffer"""
    answer = layouts.put(kind, want)
    return (layouts.size_of(kind).to_bytes(8, "little") + answer + answer + bytes([PATTERN]) * BEYOND
            + cases.stored(c, buf))


def counting(kind, length):
    """255 for each of these bytes that counts: all but the padding of both answers"""
    of_answers = b"\xff" * 8 + 2 * layouts.in_fields(kind)
    return of_answers + b"\xff" * (length - len(of_answers))


def told(c, kind, want, buf, left):
    """what differs in what a call left"""
    size, shown = layouts.size_of(kind), {name: c[name] for name in c if name not in ("font", "rec", "buf")}
    said, answers, beyond = int.from_bytes(left[:8], "little"), left[8:8 + 2 * size], left[8 + 2 * size:][:BEYOND]
    if said != size:
        return "%s answers %d bytes" % (c["function"], said)
    for answer in (answers[:size], answers[size:]):
        if layouts.got(kind, answer) != want:
            return "%s answers %s, the model %s" % (shown, layouts.got(kind, answer), want)
    if beyond != bytes([PATTERN]) * BEYOND:
        return "%s writes past its answer" % shown
    return "%s leaves another buffer than the model" % shown
