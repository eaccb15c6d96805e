#!/usr/bin/env python3
"""Holds each program to a model over long messages and long lines, from 5 kB to 20 MB.

    python3 scripts/test/sizes.py FOLDER..      these have the five programs; of two the first counts"""
import itertools
import json
import math
import os
import random
import shutil
import struct
import sys
import time
from collections import Counter
from resource import RUSAGE_CHILDREN, getrusage

from shared import TOP, answers, attribute, compare, ran, said

sys.path += [f"{TOP}/tests/second", f"{TOP}/tests/linkdump"]
import captures
import laws
import told
from check import Said

SIZES = {"5 kB": 5_000, "70 kB": 70_000, "1.2 MB": 1_200_000, "20 MB": 20_000_000}
PACKETS = 5_000, 70_000, 250_000  # libpcap reads no packet above 262,144 bytes
PAYLOADS = [0, 1, 2, 3, 5, 8, 100, 1000, 4096, 65531]
# numbers of linux/if_link.h, and the first of those that no kernel has
IFNAME, MTU, IFALIAS, CARRIER_CHANGES, UNKNOWN = 3, 4, 20, 35, 300
FLAGS = 0xC000
LETTERS = 'a"\\/\n\x01\x1f\x7f\u00e9\U0001f517 '
# how many words of a line are members of its answer; a list has the others
MEMBERS = 32


def header(reserved, index=7):
    return struct.pack("<BBHiII", 0, reserved, 1, index, 0x43, 0x55)


class Made:
    """A message of about so many bytes, the same with a fault at its end, and the members that linkshow shows of it."""

    def __init__(self, size, mtu=1500, changes=5, last=b"last"):
        chance, others = random.Random(size), []
        alias = "".join(chance.choices(LETTERS, k=min(size, 60_000) // 4))
        parts = [header(9), attribute(IFNAME, b"eth0"), attribute(MTU | FLAGS, struct.pack("<I", mtu), b"\xaa"),
                 attribute(IFALIAS, alias.encode(), b"\xaa")]
        left = size - sum(map(len, parts))
        while left > 0:
            others.append(chance.randbytes(min(PAYLOADS[len(others) % len(PAYLOADS)], left)))
            left -= 4 + len(others[-1])
        others = [(UNKNOWN + at % 1000, payload) for at, payload in enumerate([*others, last])]
        parts += [attribute(number, payload, b"\xaa") for number, payload in others]
        self.message = b"".join([*parts, attribute(CARRIER_CHANGES, struct.pack("<I", changes))])
        self.faulty = self.message + b"\3\0\1\0"
        self.members = {"ifi-family": 0, "ifi-type": 1, "ifi-index": 7, "ifi-flags": ["up", "broadcast", "running"],
                        "ifi-change": 0x55, "ifname": "eth0", "mtu": mtu, "carrier-changes": changes, "ifalias": alias,
                        "other": [{"number": number, "flags": [], "payload": it.hex()} for number, it in others]}


def look_at_linkwire(programs, made, size):
    no_digits = [b"0" * (size | 1), b"0" * (2 * size - 1) + b"g", b"g" * size, b" " * size]
    lines = [made.message.hex().encode(), SHORT, made.message.hex().upper().encode(), made.faulty.hex().encode(),
             SHORT, *no_digits, SHORT]
    compare("sizes: linkwire", lines, answers(programs["linkwire"], lines), [Said(it).encoded.encode() for it in lines])


def look_at_linkstate(programs, made, size):
    words = b"host=" + b"h" * size + b" \t"
    many = b"a=b " * (size // 4)
    lines = [(b"", made.message.hex().encode()), (b"", SHORT), (words, made.message.hex().encode()), (many, SHORT),
             (words, None), (b"", made.faulty.hex().encode()), (b"", SHORT)]
    compare("sizes: linkstate", lines, answers(programs["linkstate"], [front + (it or b"") for front, it in lines]),
            [front + (Said(it).stated.encode() if it else b"") for front, it in lines])


def look_at_linkshow(programs, made, size):
    program = programs["linkshow"]
    host = (LETTERS.replace(" ", "").replace("\n", "\r") * (size // 8)).encode()[:size].decode(errors="ignore")
    words = b"host=" + host.encode() + b" "
    keys = [f"k{at}" for at in range(min(size, 1_200_000) // 16)]
    many = "".join(f"{key}=v " for key in keys).encode()
    short = {"ifi-family": 0, "ifi-type": 1, "ifi-index": 7, "ifi-flags": made.members["ifi-flags"], "ifi-change": 0x55}
    lines = [made.message.hex().encode(), SHORT, words + SHORT, many + SHORT, made.faulty.hex().encode(), SHORT]
    *found, faulty, last = [json.loads(it) for it in answers(program, lines)]
    others = {"words": [f"{key}=v" for key in keys[MEMBERS:]]} if keys[MEMBERS:] else {}
    worded = {**dict.fromkeys(keys[:MEMBERS], "v"), **others, **short}
    wanted = [made.members, short, {"host": host, **short}, worded, short]
    compare("sizes: linkshow", lines, [*found, last], wanted)
    before = {name: value for name, value in made.members.items() if not name.startswith("ifi-")}
    told = ["fault", "offset", "before"]
    compare("sizes: linkshow: of a fault", told, list(map(faulty.get, told)),
            ["frame-under", len(made.message), before])


def look_at_linkdiff(programs, made, size):
    digits = [it.message.hex().encode() for it in (made, Made(size, changes=6), Made(size, mtu=9000, last=b"\xff" * 9),
                                                   Made(0))]
    known = told.messages(programs["linkshow"], (), digits, [None])
    front = [f"host={'h' * size}{end} ".encode() for end in "ab"]
    lines = [front[0] + digits[0], front[1] + digits[3], *[front[0] + it for it in digits[1:]], front[1] + digits[3]]
    model = told.Model(())
    wanted = [text.encode() for line in lines for text in model.take(told.Line(line, known))]
    compare("sizes: linkdiff", wanted, said(programs["linkdiff"], lines), wanted)
    laws.hold_files(programs["linkdiff"], [], known, [lines[0], lines[1]], [lines[3], lines[1]], Counter())


SHORT = header(0).hex().encode()
LOOKS = {"linkwire": look_at_linkwire, "linkstate": look_at_linkstate, "linkshow": look_at_linkshow,
         "linkdiff": look_at_linkdiff}

path = os.pathsep.join(map(os.path.abspath, sys.argv[1:]))
programs = {it: shutil.which(it, path=path) or sys.exit(f"sizes: no {it} in {path}") for it in [*LOOKS, "linkdump"]}
if any(b"built without libpcap" in it for it in said(programs["linkdump"], [], "--help")):
    PACKETS = []
    print("sizes: linkdump: skipped: it is built without libpcap")
for size, (name, form) in itertools.product(PACKETS, captures.FORMS.items()):
    texts = [Made(size).message, header(0), Made(size // 3).message, header(1)]
    packets = [captures.cooked([captures.message(16, it)]) for it in texts[:2]]
    packets.append(captures.cooked([captures.message(16, it) for it in texts[2:]]))
    found = ran(programs["linkdump"], form([(10**9, it) for it in packets]), "--read", "-", "--plain")
    wanted = [it.hex().encode() for it in texts]
    compare(f"sizes: linkdump of a {name}", wanted, found, wanted)
# lists sixteen times as long take linkdiff as many times as long, and little more: their length to this power
names = [attribute(53, b"%05d" % at) for at in range(5000)]
functions = [attribute(1, attribute(4, struct.pack("<II", at, 1))) for at in range(2500)]
for what, kind, values, step in (("names reversed", 52, names, -1), ("each second name goes", 52, names, 2),
                                 ("functions reversed", 22, functions, -1)):
    taken = {16: [], 1: []}
    for turn in range(8):  # the least of three times, and of more where other work disturbs it
        for part, times in taken.items():
            some = values[:len(values) // part]
            lines = [(header(0) + attribute(kind, b"".join(it))).hex() for it in (some, some[::step])] * (12 * part)
            start = getrusage(RUSAGE_CHILDREN).ru_utime
            answers(programs["linkdiff"], lines)
            times.append(getrusage(RUSAGE_CHILDREN).ru_utime - start)
        power = 1 + math.log(min(taken[1]) / min(taken[16]), 16)
        if turn > 1 and power <= 1.2:
            break
    else:
        sys.exit(f"sizes: linkdiff: {what}: {taken}")
    print(f"sizes: linkdiff: {what}: {power:.2f}")
seconds = Counter()
for size in SIZES.values():
    made = Made(size)
    for name, look in LOOKS.items():
        start = time.monotonic()
        look(programs, made, size)
        seconds[name] += time.monotonic() - start
print(f"sizes: {', '.join(SIZES)}: {', '.join(f'{it} {seconds[it]:.0f} s' for it in LOOKS)}: ok")
