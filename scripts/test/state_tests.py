#!/usr/bin/env python3
"""Holds linkstate to what kernels sent, and to lines with words in front, by the second reader of tests/second.

    [KERNELS=FOLDER] python3 scripts/test/state_tests.py LINKSTATE"""
import random
import re
import sys
from pathlib import Path

from damaged import sources
from shared import TOP, answers, compare, digits_of, kernels, pairs

sys.path.append(f"{TOP}/tests/second")
from check import Said

# words in front of a line: a key with neither = nor blank, a value without a blank, and blanks after each or no more
FRONT = re.compile(rb"(?:[^ \t=]+=[^ \t]*(?:[ \t]+|\Z))*")
# pairs of kernels whose interface asked for routers between the dumps: at this place of the state the second one has
# this bit of IFLA_INET6_FLAGS, IF_RS_SENT
ASKED = {"6.1.0 truth-bridge 54": (1196, 0x10)}
PARTS = [b"host=a", b"kernel=6.12.0-rc1+", b"time=2026-11-25T12:00:00.5Z", b"a=", b"a=b=c", b"=", b"=a", b"a", b"",
         b"\xff\xfe=\x80", b"a=\0\r", b"00", b"ok=", b"x" * 300 + b"=" + b"y" * 300]
BLANKS = [b" ", b" ", b" ", b"\t", b"  ", b" \t ", b""]


def worded(chance, digits):
    """Returns a line with some words in front, now and then with what is no word among them."""
    words, blanks = (PARTS[:5], BLANKS[:-1]) if chance.randrange(2) else (PARTS, BLANKS)
    found = [chance.choice(words) + chance.choice(blanks) for _ in range(chance.randrange(5))]
    return b"".join(found) + digits.encode()


def stated(linkstate, lines):
    """Returns the answers to lines, which are the second reader's behind the words, strictly and leniently, and those
    of words alone; and how many have words."""
    fronts = [FRONT.match(line)[0] for line in lines]
    saids = [Said(line[len(front):]) for line, front in zip(lines, fronts)]
    found, leniently = answers(linkstate, lines), answers(linkstate, lines, "--lenient")
    for what, given, name in ("", found, "stated"), (": --lenient", leniently, "stated_leniently"):
        wanted = [front if line == front != b"" else front + getattr(it, name).encode()
                  for line, front, it in zip(lines, fronts, saids)]
        compare(f"state_tests{what}", lines, given, wanted)
    return found, sum(front != b"" for front in fronts)


def states(linkstate, found):
    """Returns the two answers of each pair by its name."""
    both, _ = stated(linkstate, [it.hex().encode() for _, *pair in found for it in pair])
    accepted = [it for it in both if it.startswith(b"ok ")]
    compare("state_tests: the state of a state", accepted, answers(linkstate, [it[3:] for it in accepted]), accepted)
    return {name: pair for (name, *_), pair in zip(found, zip(both[::2], both[1::2]))}


def dump(path):
    """Returns the messages of a dump by their indices."""
    messages = map(bytes.fromhex, digits_of(Path(path).read_text("utf-8")))
    return {int.from_bytes(message[4:8], "little"): message for message in messages}


def has_asked(name, first, second):
    """Whether the two states are those of an interface of ASKED."""
    if len(first) != len(second) or not first[:3] == second[:3] == b"ok ":
        return False
    both = zip(*(bytes.fromhex(it[3:].decode()) for it in (first, second)))
    return [(at, a ^ b) for at, (a, b) in enumerate(both) if a != b] == [ASKED.get(name)]


linkstate, chance, found = sys.argv[1], random.Random(2), pairs()
lines = sources() + [it.hex() for _, *pair in found for it in pair]
_, with_words = stated(linkstate, [worded(chance, line) for line in lines for _ in range(20)])
wrong = [name for name, (first, second) in states(linkstate, found).items()
         if first != second or not first.startswith(b"ok ")]
if wrong:
    sys.exit(f"state_tests: two states, or a refusal: {wrong}")
print(f"state_tests: {with_words} lines with words; {len(found)} pairs of one state")
for release, out in kernels("state_tests"):
    # the pairs of the links that are in both dumps
    dumps = [(path.stem, dump(path), dump(f"{path}2")) for path in sorted(Path(out).glob("*.hex"))]
    found = states(linkstate, [(f"{release} {name} {index}", first[index], second[index])
                               for name, first, second in dumps for index in first.keys() & second.keys()])
    moved = {name: pair for name, pair in found.items() if pair[0] != pair[1]}
    wrong = [name for name, pair in moved.items() if not has_asked(name, *pair)]
    if wrong or not found:
        sys.exit(f"state_tests: kernel {release}: {len(found)} pairs; of two states, or refused once: {wrong}")
    print(f"state_tests: kernel {release}: {len(found)} pairs, {list(found.values()).count((b'refused',) * 2)} "
          f"refused twice, the others of one state; two where an interface asked for routers: "
          f"{', '.join(moved) or 'none'}")
