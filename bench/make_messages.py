#!/usr/bin/env python3
"""Writes link messages as kernels send them, each after its length: make_messages.py FILE [GROWING].

Into GROWING go four messages of 1 kB to 1.5 MB, of names, MTUs and attributes that are kept as they are.
"""

import random
import struct
import sys

from frames import frame, head, u32

COUNT = 240  # messages
NESTED = 0x8000  # NLA_F_NESTED


def text(words):
    return words.encode() + b"\0"


def numbers(chance):
    """The queue's length, state, MTUs, groups, counts of queues and sizes that each link has."""
    values = {13: 1000, 50: 68, 51: 9216, 27: 0, 30: 0, 61: 0, 31: 4, 40: 65535, 41: 65536, 58: 65536, 63: 65536,
              64: 65536, 59: 65536, 60: 65535, 32: 4, 35: 2, 47: 1, 48: 1}
    out = [frame(4, u32(chance.choice((1400, 1500, 9000))))]
    out += [frame(kind, u32(value)) for kind, value in values.items()]
    out += [frame(16, bytes([chance.choice((0, 2, 6))])), frame(17, b"\0"), frame(33, b"\1"), frame(39, b"\0")]
    return b"".join(out)


def counts(chance):
    """The statistics of both widths, and the map of the hardware."""
    counted = [chance.getrandbits(chance.choice((0, 8, 30))) for _ in range(25)]
    wide, narrow = struct.pack("<25Q", *counted), u32(*counted[:24])
    return frame(14, bytes(32)) + frame(23, wide) + frame(7, narrow)


def settings(chance):
    """The settings of the internet families, with the statistics of IPv6."""
    inet6 = b"".join((
        frame(1, u32(0x80000000)),
        frame(5, u32(65535, 2991, 37000, 1000)),
        frame(2, u32(*(chance.randrange(3) for _ in range(60)))),
        frame(3, struct.pack("<38Q", 38, *(chance.getrandbits(20) for _ in range(37)))),
        frame(6, struct.pack("<7Q", 7, *(chance.getrandbits(8) for _ in range(6)))),
        frame(7, bytes(16)),
        frame(8, b"\0"),
    ))
    inet = frame(1, u32(*(chance.randrange(2) for _ in range(33))))
    return frame(26, frame(2, inet) + frame(10, inet6))


def function(chance, index):
    """One virtual function: addresses, rates, switches, statistics."""
    number = u32(index)
    switches = b"".join(frame(kind, number + u32(chance.randrange(2))) for kind in (4, 5, 9))
    counted = b"".join(frame(kind, struct.pack("<Q", chance.getrandbits(30))) for kind in (0, 1, 2, 3, 4, 5, 7, 8))
    return frame(1, b"".join((
        frame(1, number + chance.randbytes(6) + bytes(26)),
        frame(13, b"\xff" * 6 + bytes(26)),
        frame(2, number + u32(chance.randrange(4095), 0)),
        frame(12, frame(1, number + u32(7, 0) + b"\x81\0\0\0")),
        frame(6, number + u32(0, 10000)),
        frame(3, number + u32(10000)),
        switches,
        frame(8, counted),
    )))


def common(chance, index, name, discipline):
    """What each link's message begins with."""
    return head(0, index, 0x11043) + frame(3, text(name)) + numbers(chance) + frame(6, text(discipline))


def addresses(chance):
    own = b"\2" + chance.randbytes(5)
    return frame(1, own) + frame(2, b"\xff" * 6)


def card(chance, index):
    names = frame(52 | NESTED, frame(53, text(f"enx{chance.getrandbits(48):012x}")) + frame(53, text(f"eno{index}np0")))
    bus = frame(56, text(f"0000:{index % 256:02x}:00.0")) + frame(57, text("pci"))
    port = frame(34, chance.randbytes(8)) + frame(36, chance.randbytes(8)) + frame(38, text("p0"))
    return (common(chance, index, f"enp{index}s0", "mq") + addresses(chance) + counts(chance)
            + frame(43, frame(2, b"\0")) + frame(54, chance.randbytes(6)) + port + bus + settings(chance) + names)


def pair(chance, index):
    info = frame(18, frame(1, text("veth")))
    other = frame(5, u32(index + 1)) + frame(37, u32(0))
    return (common(chance, index, f"veth{chance.getrandbits(28):07x}", "noqueue") + addresses(chance) + counts(chance)
            + frame(43, frame(2, b"\0")) + info + other + settings(chance))


def port(chance, index):
    """A port of a bridge: it names the bridge, and has its own data beside those of the kind."""
    own = b"".join(frame(kind, bytes([chance.randrange(2)])) for kind in (4, 5, 6, 7, 8, 9, 27, 28, 33))
    own = frame(1, b"\3") + frame(2, b"\x20\0") + frame(3, u32(2)) + own
    info = frame(18, frame(1, text("tun")) + frame(4, text("bridge")) + frame(5, own))
    return (common(chance, index, f"tap{index}", "fq_codel") + frame(10, u32(2)) + addresses(chance) + counts(chance)
            + info + frame(43, frame(2, b"\0")) + settings(chance))


def loopback(chance, index):
    return (common(chance, index, "lo", "noqueue") + frame(1, bytes(6)) + frame(2, bytes(6)) + counts(chance)
            + frame(43, frame(2, b"\0")) + settings(chance))


def with_functions(chance, index):
    functions = b"".join(function(chance, number) for number in range(8))
    return card(chance, index) + frame(21, u32(8)) + frame(22, functions)


KINDS = (card, card, card, pair, pair, pair, pair, port, port, port, loopback, with_functions)


def of_length(wanted):
    out, part = head(0, 2, 0x11043), frame(3, text("eth0.100")) + frame(4, u32(1500)) + frame(99, b"\x11" * 9)
    return out + part * ((wanted - len(out)) // len(part))


def write(path, bodies):
    with open(path, "wb") as out:
        for body in bodies:
            out.write(struct.pack("<I", len(body)) + body)


def main():
    chance = random.Random(14)
    write(sys.argv[1], [KINDS[place % len(KINDS)](chance, place + 1) for place in range(COUNT)])
    if len(sys.argv) > 2:
        write(sys.argv[2], [of_length(wanted) for wanted in (1000, 10000, 100000, 1500000)])


main()
