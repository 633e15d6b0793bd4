"""Numbers in bytes, format bits, and the bounds' six numbers."""


def uint(b, i, n, big):
    """n bytes from i, as an unsigned number."""
    v = 0
    if big:
        for k in range(n):
            v = v * 256 + b[i + k]
    else:
        for k in range(n):
            v = v + b[i + k] * (256 ** k)
    return v


def u16(b, i, big):
    return uint(b, i, 2, big)


def u32(b, i, big):
    return uint(b, i, 4, big)


def i16(b, i, big):
    v = u16(b, i, big)
    return v - 65536 if v >= 32768 else v


def i32(b, i, big):
    v = u32(b, i, big)
    return v - 2 ** 32 if v >= 2 ** 31 else v


def bit(word, value):
    """format bits are named by their value"""
    return (word // value) % 2 == 1


def bounds12(b, i, big):
    return {
        "left": i16(b, i, big),
        "right": i16(b, i + 2, big),
        "width": i16(b, i + 4, big),
        "ascent": i16(b, i + 6, big),
        "descent": i16(b, i + 8, big),
        "attributes": u16(b, i + 10, big),
    }
