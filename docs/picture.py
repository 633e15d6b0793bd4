#!/usr/bin/env python3
"""Makes a picture of a panel as it looks behind its glass: docs/panel.png is made by

    ./thalluskin show "$(printf '12 345 kWh\\n3.07 m³  21 °C')" --pbm panel.pbm
    python3 docs/picture.py panel.pbm docs/panel.png"""
import struct
import sys
import zlib

SQUARE, GAP, MARGIN = 7, 1, 12
CELL = SQUARE + GAP
GLASS, CLEAR, SET = 0, 1, 2
PALETTE = bytes([0x9F, 0xB4, 0x62, 0x98, 0xAD, 0x5B, 0x1F, 0x2B, 0x16])


def pbm_rows(text):
    """the rows of a plain PBM picture, as lists of 0 and 1"""
    kind, width, height, *digits = text.split()
    if kind != "P1":
        sys.exit("not a plain PBM picture")
    width, height = int(width), int(height)
    pixels = [int(digit) for digit in "".join(digits)]
    if len(pixels) != width * height:
        sys.exit("not %d times %d pixels" % (width, height))
    return [pixels[i:i + width] for i in range(0, len(pixels), width)]


def behind_glass(rows):
    """each pixel as a square with a thin gap around it, in lines of colour numbers"""
    side = bytes([GLASS]) * MARGIN
    empty = bytes([GLASS]) * (2 * MARGIN + CELL * len(rows[0]))
    lines = [empty] * MARGIN
    for row in rows:
        squares = b"".join(bytes([SET if pixel else CLEAR]) * SQUARE + bytes([GLASS]) * GAP for pixel in row)
        lines += [side + squares + side] * SQUARE + [empty] * GAP
    return lines + [empty] * MARGIN


def chunk(kind, content):
    return struct.pack(">I", len(content)) + kind + content + struct.pack(">I", zlib.crc32(kind + content))


def png(lines):
    """eight bits a pixel, by the palette; no line is filtered"""
    header = struct.pack(">IIBBBBB", len(lines[0]), len(lines), 8, 3, 0, 0, 0)
    body = zlib.compress(b"".join(b"\0" + line for line in lines), 9)
    return (b"\x89PNG\r\n\x1a\n" + chunk(b"IHDR", header) + chunk(b"PLTE", PALETTE) + chunk(b"IDAT", body)
            + chunk(b"IEND", b""))


def main():
    if len(sys.argv) != 3:
        sys.exit("picture.py takes a PBM picture and the file to write")
    with open(sys.argv[1], encoding="ascii") as f:
        rows = pbm_rows(f.read())
    with open(sys.argv[2], "wb") as f:
        f.write(png(behind_glass(rows)))


if __name__ == "__main__":
    main()
