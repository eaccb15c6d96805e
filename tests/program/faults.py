#!/usr/bin/env python3
"""Programs keep the memory of one long line for the next: faults.py FOLDER PROGRAM..

Page faults are counted over few lines of 70 kB to 1 MB and over many, so that those of a start fall out. Where memory
goes back to the system after each line there are 28 to 80 a line. That is so with another C library than glibc, and
the test is skipped there. Answers of linkdiff, a change for each name, have up to 2.5 MB here: of that much some memory
does go back."""

import platform
import random
import resource
import subprocess
import sys

FEW, MANY, MOST, MOST_OF = 30, 150, 3, {"linkdiff": 60}
SIZES = 35_000, 70_000, 150_000, 300_000, 500_000


def attribute(number, payload):
    return (4 + len(payload)).to_bytes(2, "little") + number.to_bytes(2, "little") + payload + bytes(-len(payload) % 4)


def line(at):
    """A message of texts and of lists of names, which has another MTU than the one before."""
    size = random.Random(at).choice(SIZES)
    names = b"".join(attribute(53, b"alt%d_%d\0" % (at, it)) for it in range(2000))
    found = bytes((0, 0, 1, 0, 7)) + bytes(11) + attribute(3, b"e0\0") + attribute(4, (1400 + at).to_bytes(4, "little"))
    while len(found) < size:
        found += attribute(20, b"a text " * 3000 + b"\0") + attribute(52, names)
    return found.hex().encode() + b"\n"


def faults(program, text):
    before = resource.getrusage(resource.RUSAGE_CHILDREN).ru_minflt
    subprocess.run([program], input=text, stdout=subprocess.DEVNULL, check=True)
    return resource.getrusage(resource.RUSAGE_CHILDREN).ru_minflt - before


def main(folder, *names):
    if platform.libc_ver()[0] != "glibc":
        print("faults: skipped: another C library than glibc")
        return
    lines = [line(at) for at in range(MANY)]
    for it in names:
        few, many = (faults(f"{folder}/{it}", b"".join(lines[:count])) for count in (FEW, MANY))
        found = (many - few) / (MANY - FEW)
        most = MOST_OF.get(it, MOST)
        if found > most:
            sys.exit(f"faults: {it}: {found:.1f} page faults a line, and not {most}")
        print(f"faults: {it}: {found:.1f} page faults a line of 70 kB to 1 MB: ok")


main(*sys.argv[1:])
