#!/usr/bin/env python3
"""Writes the lines of the workloads that users have, of the messages stored in messages.txt: usual_lines.py FOLDER.

From line to line the index, the MTU, the last letter of the name and the counters of a message turn, so that no program
gets it twice. What is by chance is the same each time.
"""

import random
import struct
from pathlib import Path

from frames import frame, head, u32, write_files

IFLA_ADDRESS, IFLA_IFNAME, IFLA_MTU, IFLA_STATS, IFLA_IFALIAS, IFLA_VFINFO_LIST, IFLA_STATS64 = 1, 3, 4, 7, 20, 22, 23
HEADER_SIZE = 16
COUNTERS = 8  # how many of a record turn
WORDS = b"type=new time=1764187200.123456 host=rack7 kernel=6.12.0-47 "
HOSTS, DUMPED, ANNOUNCED, UNLIKE = 8, 25, 40, 8  # machines, links of each, announcements, lines under one name
STEADY = 32  # in how many rounds a link that is dumped changes once
LINES = 128  # of a round of awkward ones


class Message:
    """A stored message, and where what turns stands in it."""

    def __init__(self, stored):
        self.bytes = bytearray(stored)
        self.mtus, self.names, self.counters = [], [], []
        at = HEADER_SIZE
        while at + 4 <= len(stored):
            size, kind = struct.unpack_from("<HH", stored, at)
            if size < 4 or at + size > len(stored):
                break
            if kind == IFLA_IFNAME and size > 6:
                self.names.append(at + size - 2)
            elif kind == IFLA_MTU and size == 8:
                self.mtus.append(at + 4)
            for counted, width in ((IFLA_STATS64, 8), (IFLA_STATS, 4)):
                if kind == counted and size >= 4 + COUNTERS * width:
                    self.counters += range(at + 4, at + 4 + COUNTERS * width, width)
            at += (size + 3) // 4 * 4

    def line(self, index, mtu, chance):
        """Its digits, with that index and the low byte of that MTU."""
        self.bytes[4:7] = index.to_bytes(3, "little")
        for at in self.names:
            self.bytes[at] = ord("0") + index % 10
        for at in self.mtus:
            self.bytes[at] = mtu % 256
        for at in self.counters:
            self.bytes[at] = chance.getrandbits(8)
        return self.bytes.hex().encode()


def read(path):
    """The stored messages, by the word in front of them."""
    found = {}
    for line in path.read_text().splitlines():
        word, digits = line.split()
        found.setdefault(word, []).append(Message(bytes.fromhex(digits)))
    return found


def in_turn(messages, rounds, chance):
    """Messages in turn, with another index in each round."""
    for index in range(rounds):
        for message in messages:
            yield message.line(index, chance.getrandbits(8), chance)


def fleet(stored, rounds, chance):
    """Dumps of each machine again and again, what is announced meanwhile, and two machines under one name. All have
    counters, so that none comes twice."""
    dumps, events = ([it for it in stored[word] if it.counters] for word in ("dump", "event"))
    for number in range(rounds):
        for host in range(HOSTS):
            for link in range(DUMPED):
                mtu = (number + host * DUMPED + link) // STEADY
                yield host, dumps[(link * 4 + host % 4) % len(dumps)].line(link + 1, mtu, chance)
        for at, event in enumerate(events[:ANNOUNCED]):
            yield at % HOSTS, event.line(100 + at, number, chance)
        for at in range(ANNOUNCED, ANNOUNCED + UNLIKE):
            yield HOSTS, dumps[(at * 3 + number) % len(dumps)].line(200 + at % 2, number, chance)


def function(number, chance):
    """What is said of one virtual function."""
    of = u32(number)
    vlan = of + bytes([chance.getrandbits(8)]) + bytes(7)
    counters = b"".join(frame(kind, chance.randbytes(8)) for kind in (0, 1, 2, 3, 4, 5, 7, 8))
    switches = b"".join(frame(kind, of + u32(1)) for kind in (4, 9))
    return b"".join((frame(1, of + chance.randbytes(6) + bytes(26)), frame(2, vlan), switches, frame(8, counters),
                     frame(12, frame(1, vlan + b"\x81\0"))))


def of(*attributes):
    return head(0, 1, 0x1043) + b"".join(attributes)


def awkward_messages(chance):
    """Huge messages, one with a fault at its end, and tiny ones; whether their digits are in upper case."""
    functions = b"".join(frame(1, function(number, chance)) for number in range(128))
    number = u32(0x30201)
    texts = (bytes(chance.choice(b"abcdefghijklmnopqrstuvwxyz") for _ in range(count)) for count in (65530, 32000))
    name, alias = (text + b"\0" for text in texts)
    cut = of(*(frame(kind, number) for kind in (13, 27, 30, 40)), frame(16, b"\2"), frame(17, b"\0"), frame(31, number))
    return [
        (of(frame(IFLA_VFINFO_LIST, functions)), False),
        (of(frame(IFLA_VFINFO_LIST, functions[:-28] + b"\3" + functions[-27:])), False),
        (of(frame(300, chance.randbytes(65531))), False),
        (of(frame(300, chance.randbytes(65531))), True),
        (of(frame(IFLA_IFNAME, name), frame(IFLA_IFALIAS, alias)), False),
        (of(*(frame(200 + kind % 1000, b"") for kind in range(4000))), False),
        (cut[:-4], False),
        (of(frame(IFLA_MTU, u32(1500))), False),
        (of(frame(IFLA_IFNAME, b"eth12\0")), False),
        (of(frame(IFLA_ADDRESS, chance.randbytes(6))), True),
    ]


def awkward(rounds, chance):
    """Each of the huge messages once a round, those with a fault, and tiny ones; a few lines have a CR, a digit too
    many, or letters that are no digits, so that the line has an odd length or an even one."""
    all_ = [(Message(message), is_upper) for message, is_upper in awkward_messages(chance)]
    fronts = {at: b"x" if at < 52 else b"xx" for at in range(48, 56)}
    ends = {at: b"\r" if at < 44 else b"0" if at < 48 else b"0x" for at in (*range(40, 48), *range(56, 60))}
    for line in range(rounds * LINES):
        at = line % LINES
        message, is_upper = all_[at if at < 6 else 6 if at < 24 else 7 + at % 3]
        digits = message.line(line, chance.getrandbits(8), chance)
        yield fronts.get(at, b"") + (digits.upper() if is_upper else digits) + ends.get(at, b"")


def lines():
    """The lines of each file."""
    stored = read(Path(__file__).with_name("messages.txt"))
    seen, pairs, chance = stored["dump"] + stored["event"], stored["first"] + stored["again"], random.Random(1)
    return {
        "wire": in_turn(seen, 400, chance),
        "state": (b"host=rack7 " + line for line in in_turn(pairs, 700, chance)),
        "show": (WORDS + line for line in in_turn(seen, 400, chance)),
        "diff": (b"host=rack%d " % host + line for host, line in fleet(stored, 200, chance)),
        "awkward": awkward(150, chance),
    }


write_files(lines())
