#!/usr/bin/env python3
"""Holds linkdiff to told.py of tests/second, a model of docs/LINKDIFF.md, over messages of kernels.

    python3 scripts/test/diff_tests.py LINKDIFF LINKSHOW"""
import random
import sys

from shared import HEADER_SIZE, TOP, answers, attribute, compare, frames, pairs, said

sys.path.append(f"{TOP}/tests/second")
import told

COUNT = 300  # how many are made of a kind
WAYS = (), ("--counters",), ("--lenient",), ("--lenient", "--counters")
PIECES = [b"a", b"9", b"=", b'"', b"\\", b"/", b"\0", b"\1", b"\b", b"\f", b"\r", b"\x1f", b"\x7f", b"\xc3", b"\xff",
          "\u00e9".encode(), "\u2028".encode(), "\U0001f517".encode()]


def altered(rng, message):
    """Returns the message with a few attributes changed, dropped, moved or added, and its flags perhaps."""
    header, found = bytearray(message[:HEADER_SIZE]), [(kind, it) for _, kind, it in frames(message)[0]]
    for _ in range(rng.choice([0, 1, 1, 2, 3])):
        at = rng.randrange(len(found)) if found else 0
        way = rng.choice(["drop", "number", "move", "flags", "name", "add"])
        if way == "drop" and found:
            del found[at]
        elif way == "number" and found and len(found[at][1]) in (1, 4):
            found[at] = (found[at][0], bytes([rng.randrange(2)]) + found[at][1][1:])
        elif way == "move" and found:
            found.append(found.pop(at))
        elif way == "flags":
            header[8] ^= 1 << rng.randrange(8)
        elif way == "name":
            found = [(k, b"renamed\0") if k == 3 else (k, p) for k, p in found]
        elif way == "add":
            one = rng.choice([(4, b"\xdc\5\0\0"), (20, b"text\0"), (35, bytes(4)), (35, b"\1\0\0\0"), (23, bytes(200)),
                              (7, bytes(96)), (300, b"\1\2\3"), (300, b""), (0x8000 | 301, b"")])
            found.insert(rng.randrange(at, len(found) + 1), one)
    return bytes(header) + b"".join(attribute(*it) for it in found)


def spoilt(rng, message):
    """Returns the message with refused attributes among the others, of which some stand twice or more often."""
    found = [(kind, it) for _, kind, it in frames(message)[0]]
    wrong = [(20, b"\xe8"), (20, b"\xe9"), (4, b"a"), (4, b"b"), (0x8004, b"a"), (13, b"")]
    for it in rng.choices(wrong, k=rng.randrange(5)):
        found.insert(rng.randrange(len(found) + 1), it)
    return message[:HEADER_SIZE] + b"".join(attribute(*it) for it in found)


def with_addresses(rng):
    """Returns a message of a macvlan with a list of addresses, of which some come twice; one in twelve is damaged."""
    values = [bytes([2, 0, 0, 0, 0, rng.randrange(3)]) if rng.randrange(12) else b"odd"
              for _ in range(rng.choice([0, 1, 1, 2, 3, 4]))]
    addresses = attribute(5, b"".join(attribute(4, it) for it in values))
    info = attribute(1, b"macvlan\0") + attribute(2, addresses)
    return bytes([0, 0, 0, 0, 1, *bytes(HEADER_SIZE - 5)]) + attribute(18, info)


def changed(linkdiff, linkshow, messages, *options):
    """Holds what is told of two messages each, of a host of its own, to the model; returns how many changed."""
    digits = [[it.hex().encode() for it in pair] for pair in messages]
    known = told.messages(linkshow, options, [it for pair in digits for it in pair], [None])
    model = told.Model(options)
    lines = [b"host=h%d %s" % (at, it) for at, pair in enumerate(digits) for it in pair]
    wanted = [text.encode() for line in lines for text in model.take(told.Line(line, known))]
    found = said(linkdiff, lines, *options)
    compare(f"diff_tests: {' '.join(options)}", found, found, wanted)
    return sum(b'"change":"changed"' in it for it in found)


linkdiff, linkshow = sys.argv[1:]
# the words of lines that are no messages, as linkshow tells them: texts, what JSON escapes, and no UTF-8
rng, keys = random.Random(8), (b"type", b"time", b"host")
lines = [b"".join(key + b"=" + b"".join(rng.choices(PIECES, k=rng.randrange(5))) + b" " for key in keys) + b"00"
         for _ in range(1000)]
compare("diff_tests: words", lines, answers(linkdiff, lines), answers(linkshow, lines))
print(f"diff_tests: the words of {len(lines)} lines as linkshow tells them")
rng, stored = random.Random(7), pairs()
if changed(linkdiff, linkshow, [pair for _, *pair in stored]):
    sys.exit("diff_tests: a pair of one state changed, and nobody touched it")
moved = changed(linkdiff, linkshow, [pair for _, *pair in stored], "--counters")
if changed(linkdiff, linkshow, [(one, one) for _, one, _ in stored], "--counters"):
    sys.exit("diff_tests: a message changed beside itself")
print(f"diff_tests: {len(stored)} pairs of one state, of which nothing is told; with --counters {moved} differ")
made = [(one, altered(rng, other)) for _, one, other in rng.choices(stored, k=COUNT)]
refused = [(spoilt(rng, one), spoilt(rng, rng.choice([one, other]))) for one, other in made]
lists = [(with_addresses(rng), with_addresses(rng)) for _ in range(COUNT)]
for messages, what, ways in ((made, "altered messages", WAYS), (lists, "messages with lists", WAYS),
                             (refused, "messages with refused attributes", WAYS[2:])):
    for options in ways:
        different = changed(linkdiff, linkshow, messages, *options)
        print(f"diff_tests: {' '.join([*options, str(COUNT)])} {what}, of which {different} differ: ok")
