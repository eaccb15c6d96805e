#!/usr/bin/env python3
"""Writes lines of hexadecimal link messages, the same each time: make_lines.py FILE [MEGABYTES]."""

import random
import struct
import sys

from frames import frame, head, u32

SMALLEST, LARGEST = 20, 2000
REFUSED = 0.1  # the part of the messages whose last frame is cut off


def text(chance, longest):
    count = chance.randrange(1, longest)
    return bytes(chance.choice(b"abcdefghijklmnopqrstuvwxyz0123456789") for _ in range(count)) + b"\0"


def virtual_function(chance, number):
    index = struct.pack("<I", number)
    statistics = b"".join(frame(kind, chance.randbytes(8)) for kind in (0, 1, 2, 3, 4, 5, 7, 8))
    return frame(1, b"".join((
        frame(1, index + chance.randbytes(6) + bytes(26)),
        frame(2, index + struct.pack("<II", chance.randrange(4095), 0)),
        frame(4, index + struct.pack("<I", chance.randrange(2))),
        frame(5, index + struct.pack("<I", chance.randrange(3))),
        frame(9, index + struct.pack("<I", chance.randrange(2))),
        frame(8, statistics),
    )))


def settings(chance):
    """Settings of the internet families, as a kernel reports them."""
    inet = frame(1, chance.randbytes(132))
    inet6 = b"".join((
        frame(1, u32(chance.getrandbits(32))),
        frame(5, chance.randbytes(16)),
        frame(2, chance.randbytes(240)),
        frame(3, chance.randbytes(304)),
        frame(6, chance.randbytes(56)),
        frame(7, bytes(16)),
        frame(8, bytes(1)),
    ))
    return frame(26, frame(2, inet) + frame(10, inet6))


def attribute(chance):
    """One attribute of a link, of one of the usual kinds."""
    pick = chance.randrange(16)
    if pick == 0:
        return frame(3, text(chance, 15))
    if pick == 1:
        return frame(chance.choice((1, 2, 54)), chance.randbytes(6))
    if pick == 2:
        return frame(chance.choice((6, 56, 57)), text(chance, 24))
    if pick == 3:
        return frame(chance.choice((16, 17, 33, 39)), chance.randbytes(1))
    if pick == 4:
        return frame(23, chance.randbytes(200))
    if pick == 5:
        return frame(7, chance.randbytes(96))
    if pick == 6:
        return frame(14, chance.randbytes(28) + bytes(4))
    if pick == 7:
        return settings(chance)
    if pick == 8:
        count = chance.randrange(1, 4)
        return frame(22, b"".join(virtual_function(chance, number) for number in range(count)))
    if pick == 9:
        names = b"".join(frame(53, text(chance, 30)) for _ in range(chance.randrange(1, 5)))
        return frame(52 | 0x8000, names)
    if pick == 10:
        return frame(18, frame(1, b"bridge\0") + frame(2, chance.randbytes(40)))
    if pick == 11:
        return frame(43, frame(2, b"\0"))
    if pick == 12:
        return frame(chance.randrange(100, 200), chance.randbytes(chance.randrange(1, 60)))
    return frame(chance.choice((4, 5, 13, 27, 30, 31, 32, 35, 40, 41, 50, 51)), u32(chance.getrandbits(32)))


def message(chance):
    wanted = chance.randrange(SMALLEST, LARGEST - 4)
    parts = [head(0, chance.randrange(1, 5000), chance.getrandbits(19))]
    length = len(parts[0])
    while length < wanted:
        part = attribute(chance)
        if length + len(part) > LARGEST - 4:
            break
        parts.append(part)
        length += len(part)
    if chance.random() < REFUSED:
        parts.append(struct.pack("<HH", 100, 3))
    return b"".join(parts)


def main():
    chance = random.Random(20)
    left = int(float(sys.argv[2] if len(sys.argv) > 2 else "50") * 1_000_000)
    with open(sys.argv[1], "wb") as out:
        while left > 0:
            line = message(chance).hex().encode() + b"\n"
            out.write(line)
            left -= len(line)


main()
