#!/usr/bin/env python3
"""Compares what linkwire_show answers with what linkshow does, and what linkwire_diff tells with what linkdiff does,
byte for byte. By ARCHIVE tests/c/shown.c is built.

    python3 scripts/test/call_answers.py ARCHIVE LINKSHOW LINKDIFF"""
import itertools
import os
import random
import re
import subprocess
import sys
import tempfile

from damaged import damaged_bytes
from shared import HEADER_SIZE, TOP, answers, compare, frames, read, said

FILES = ["tests/captures.txt", "tests/kernels/messages.txt", "crates/linkshow/stdin", "crates/linkwire/stdin",
         "crates/linkdiff/stdin", "bench/messages.txt"]
# the numbers of orders, and the release of a kernel that has each
ORDERS = {0: "6.14", 1: "6.12.3", 2: "6.18"}
# the arguments of a program that stand for each flag of linkwire.h
FLAGS = {1: "--lenient", 2: "--counters"}
DIGITS = re.compile(r"(?<!\S)(?:[0-9a-fA-F]{2})+(?=\s*$)", re.M)
LONGEST = 1 << 19
DAMAGED = 4
# linkdiff passes over a message with a name and IFLA_WIRELESS alone
WIRELESS = 11
# an attribute IFLA_EVENT, which neither compares
EVENT = bytes([8, 0, 44, 0, 4, 0, 0, 0])
OTHER = "another interface"


def options(flags):
    return [option for flag, option in FLAGS.items() if flags & flag]


def unannounced(digits):
    """The message without IFLA_WIRELESS."""
    octets = bytes.fromhex(digits)
    found, end = frames(octets)
    ends = [at for at, _, _ in found[1:]] + [end]
    kept = [octets[at:to] for (at, kind, _), to in zip(found, ends) if kind & 0x3fff != WIRELESS]
    return octets[:HEADER_SIZE] + b"".join(kept) + octets[end:]


def of_one_interface(old, new):
    """The new message with the family and the index of the old one."""
    is_whole = len(new) >= HEADER_SIZE <= len(old)
    return old[:1] + new[1:4] + old[4:8] + new[8:] if is_whole else new


def told(program, pairs, order, flags):
    """What linkdiff tells of each pair, each of a host of its own: the list of changes; '' where nothing changed; None
    of a refusal; and OTHER where the kind is another, so that the interface went and a new one came."""
    front = f"kernel={ORDERS[order]}"
    lines = [f"host=h{at} {front} {message.hex()}" for at, pair in enumerate(pairs) for message in pair]
    found = [""] * len(pairs)
    for line in map(bytes.decode, said(program, lines, *options(flags))):
        at = int(re.search(r'"host":"h(\d+)"', line)[1])
        if '"fault":' in line:
            found[at] = None
        elif '"change":"gone"' in line:
            found[at] = OTHER
        elif '"change":"changed"' in line:
            found[at] = line[line.index(',"changes":') + len(',"changes":'):-1]
    return found


archive, linkshow, linkdiff = sys.argv[1:]
lines = [it.lower() for file in FILES for it in DIGITS.findall(read(file)) if len(it) <= LONGEST]
chance = random.Random(58)
more = [damaged_bytes(chance, line) for line in lines for _ in range(DAMAGED)]
with tempfile.TemporaryDirectory() as folder:
    call = f"{folder}/shown"
    cc = os.environ.get("CC", "cc").split()
    subprocess.run([*cc, "-std=c11", "-O1", f"-I{TOP}/include", "-o", call, f"{TOP}/tests/c/shown.c", archive],
                   check=True)
    for (order, release), flags in itertools.product(ORDERS.items(), (0, 1)):
        ours = answers(call, lines + more, "show", str(order), str(flags))
        theirs = answers(linkshow, lines + more, "--kernel", release, *options(flags))
        compare(f"linkwire_show, flags {flags}", lines + more, ours, theirs)
    shown = len(lines + more) * len(ORDERS) * 2
    print(f"call_answers: {len(lines)} messages, {len(more)} damaged ones: {shown} answers are linkshow's")
    # each message and the next one, as if it were of the same interface, each and a damaged one, and each and itself
    # with IFLA_EVENT; a line of words alone is no message
    messages = [unannounced(line) for line in lines]
    pairs = [(old, of_one_interface(old, new)) for old, new in zip(messages, messages[1:])]
    pairs += [(new, old) for old, new in pairs]
    pairs += [(it, of_one_interface(it, unannounced(damaged_bytes(chance, it.hex())))) for it in messages if it]
    pairs += [(it, it[:HEADER_SIZE] + EVENT + it[HEADER_SIZE:]) for it in messages]
    pairs, changes = [pair for pair in pairs if all(pair)], 0
    for order, flags in itertools.product(ORDERS, range(4)):
        ours = said(call, [it.hex() for pair in pairs for it in pair], "diff", str(order), str(flags))
        ours = [None if re.fullmatch(r"-\d+", it) else it for it in map(bytes.decode, ours)]
        # linkwire_diff knows of no other interface
        theirs = [our if our and it is OTHER else it
                  for our, it in zip(ours, told(linkdiff, pairs, order, flags), strict=True)]
        compare(f"linkwire_diff, flags {flags}", [f"{old.hex()} {new.hex()}" for old, new in pairs], ours, theirs)
        changes += sum(map(bool, ours))
print(f"call_answers: {len(pairs)} pairs: {changes} lists of changes are linkdiff's")
print("call_answers: ok")
