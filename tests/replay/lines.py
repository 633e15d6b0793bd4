"""What is called to put a line or bytes into a buffer, and to check a text: a file's name, and its fonts with their
calls."""
from pcf.font_f import two_digits
from replay.calls import ROOM, but, check, damages, fill, frame, refused
from replay.texts import ILL_FORMED, WELL_FORMED

LACKING = [  # changes of F's record by which the frame of '1' lacks something: 10 to 14, 17, 18
    {"metrics__count": 1}, {"accel__maxbounds__ascent": 2}, {"bitmaps__count": 1}, {"bitmaps__unit": 3},
    {"bitmaps__unit": 1}, {"bitmaps__size": 5}, {"names__count": 1}, {"names__size": 7}, {"names__size": 3},
]


def frames():
    """each code of F and those around them, in every room near the line's length"""
    for code in (0x30, 0x31):
        for room in (0, 1, 42, 43, 44, 45, ROOM):
            yield frame(code, room)
    for code in (0, 0x2F, 0x32, 0x10030, 4294967295):
        yield frame(code, ROOM)
        yield frame(code, 0)


def lacking():
    f = two_digits()
    for changes in damages(f):
        yield but(frame(0x31, ROOM), **changes)
    for changes in LACKING:
        yield but(frame(0x31, ROOM), **changes)
        yield but(frame(0x31, 0), **changes)
        yield but(frame(0x30, ROOM), **changes)
    for first in LACKING:
        for second in LACKING:
            if not set(first) & set(second):
                yield but(frame(0x31, ROOM), **{**first, **second})


def refusals():
    for number in (0, 1, 9, 10, 20, 98, 99, 100, 101, 255):
        for room in (0, 10, 11, ROOM):
            yield refused(number, room)


def fills():
    for content in (b"", b"41\n", b"414243\n", b"41\n4243\n", b"4142\n43\n44\n"):
        count = len(content.replace(b"\n", b"")) // 2
        for room in sorted({0, max(count - 1, 0), count, count + 1, ROOM}):
            yield fill(content, room)
    for content in (b"4", b"41", b"\n", b"414\n", b"4a\n", b"41\n42", b"41\n\n42\n", b"41\r\n", b"4" * 66 + b"\n"):
        yield fill(content, ROOM)
        yield fill(content, 0)


def checks():
    for content in (b"", b"01", b"21 \xc2\xb0C", *WELL_FORMED):
        yield check(content)
        yield check(content * 3)
    for content in ILL_FORMED:
        yield check(content)
        yield check(b"a\xc2\xb0" + content + b"b")


def topics():
    f = two_digits()
    return [
        ("frames", [(f, frames())]),
        ("frames_lacking", [(f, lacking())]),
        ("lines_refused", [(f, refusals())]),
        ("lines_filled", [(f, fills())]),
        ("texts_checked", [(f, checks())]),
    ]
