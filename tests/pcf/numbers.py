"""Numbers in a PCF file, as bytes. Those of a table have the byte order that its format says; format words and the
directory are little-endian always."""

BIG, TOP, COMPRESSED = 4, 8, 256  # format bits, by their value
NO_GLYPH = 65535


def order(form):
    return "big" if form & BIG else "little"


def word(n):
    return n.to_bytes(4, "little")


def u16(form, *numbers):
    return b"".join(n.to_bytes(2, order(form)) for n in numbers)


def u32(form, *numbers):
    return b"".join(n.to_bytes(4, order(form)) for n in numbers)


def i16(form, *numbers):
    return b"".join(n.to_bytes(2, order(form), signed=True) for n in numbers)


def i32(form, *numbers):
    return b"".join(n.to_bytes(4, order(form), signed=True) for n in numbers)


def padded(b):
    return b + bytes(-len(b) % 4)


def lines(content, digits=64):
    """a file as lines of so many hexadecimal digits"""
    text = content.hex().upper()
    return "".join(text[i:i + digits] + "\n" for i in range(0, len(text), digits))
