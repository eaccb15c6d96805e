#!/usr/bin/env python3
"""Holds docs/LINKDIFF.md to the crates and to linkdiff: on how many definitions what linkdiff tells stands, by the
`use` lines of the specs, that the page quotes them as they stand, and what the program tells of the page's streams.

    python3 scripts/test/linkdiff_page.py [LINKDIFF]
    python3 scripts/test/linkdiff_page.py --list    prints the definitions, a file a line, and runs nothing"""
import json
import re
import struct
import sys
import tempfile
from pathlib import Path

from headline import Module, hold_words, show, size, walk
from shared import attribute, joined, read, said, table

PAGE = "docs/LINKDIFF.md"
OURS = "message_diff.specs.", "frame_diff.specs."
NAMED = [(section, (module, name)) for section, (module, names) in table("scripts/test/linkdiff_page.txt")
         for name in names.split()]
STARTS = [it for section, it in NAMED if section == "starts"]
SAID = [it for section, it in NAMED if section == "said"]     # what the page says in words
QUOTED = re.compile(r"^```antt\n([\s\S]*?)^```$", re.M)
STREAM = re.compile(r"^```stream\n([\s\S]*?)^```$", re.M)
LINK = re.compile(r"link\((?:(\d+):)?(\d+)((?: [^()]*)?)\)")
WIRELESS = struct.pack("<HH4xH", 10, 0x8c07, 1)
ATTRIBUTES = {"name": lambda it: attribute(3, it.encode() + b"\0"),
              "mtu": lambda it: attribute(4, struct.pack("<I", int(it))),
              "kind": lambda it: attribute(18, attribute(1, it.encode() + b"\0")),
              "carrier": lambda it: attribute(35, struct.pack("<I", int(it))),
              "ipv6": lambda it: attribute(12, attribute(3, struct.pack(f"<{it}Q", *range(int(it))))),
              "alias": lambda it: attribute(20, bytes.fromhex(it)),
              "trees": lambda it: attribute(26, attribute(6, b"".join(map(tree, it.split(","))))),
              "vlans": lambda it: attribute(26, b"".join(
                  attribute(2, struct.pack("<HH", flags | end, number)) for number, end, flags, _ in ranges(it))),
              "tunnels": lambda it: attribute(26, b"".join(tunnel(*one) for one in ranges(it))),
              "names": lambda it: attribute(52, b"".join(attribute(53, one.encode()) for one in it.split(","))),
              "targets": lambda it: attribute(18, attribute(1, b"bond") + attribute(2, attribute(8, b"".join(
                  attribute(at, bytes([10, 0, 0, int(one)])) for at, one in enumerate(it.split(",")))))),
              "unknown": lambda it: b"".join(map(unknown, it.split(",")))}


def unknown(it):
    number, _, payload = it.partition("/")
    return attribute(int(number), bytes.fromhex(payload))


def tree(it):
    number, _, state = it.partition("/")
    if number == "odd":
        return attribute(1, b"odd")
    inside = attribute(1, struct.pack("<H", int(number)))
    return attribute(1, inside + attribute(2, bytes([int(state)])) if state else inside)


def ranges(text):
    """The values of a list of VLANs: the number, the flag of an end of a range, what is said of the first VLAN, and how
    far this one is behind it."""
    for it in text.split(","):
        numbers, _, said = it.partition("/")
        first, *last = map(int, numbers.split("-"))
        yield first, 8 * len(last), int(said or 0), 0
        yield from ((it, 16, int(said or 0), it - first) for it in last)


def tunnel(number, end, it, behind):
    parts = attribute(1, struct.pack("<I", it + behind)) + attribute(2, struct.pack("<H", number))
    return attribute(3, parts + attribute(3, struct.pack("<H", end)))


def fails(what):
    sys.exit(f"linkdiff page: {PAGE}: {what}")


# ** streams

def spelled(line):
    """The line of input that stands for this one."""
    def digits(it):
        words, octets = it[3].split(), struct.pack("<BBHiII", int(it[1] or 0), 0, 1, int(it[2]), 0, 0)
        while words:
            name = words.pop(0)
            octets += attribute(11, WIRELESS) if name == "wireless" else ATTRIBUTES[name](words.pop(0))
        return octets.hex()
    return LINK.sub(digits, line)


def change(row):
    texts = [json.dumps(row[it], separators=(",", ":")) if it in row else "-" for it in ("old", "new")]
    return " ".join([row["path"], *texts] if row["path"] != "state" else ["state"])


def told(line):
    """How the page shows what is told."""
    it = json.loads(line)
    if "fault" in it:
        return f"fault {it['fault']}"
    if it["change"] == "lost":
        return "lost"
    family = f"{it['ifi-family']}:" if it["ifi-family"] else ""
    changes = ", ".join(map(change, it.get("changes", [])))
    return " ".join([it["change"], f"{family}{it['ifi-index']}", it["ifname"]]) + (f": {changes}" if changes else "")


# what one reads of message_diff and frame_diff from the contracts on
found = walk(STARTS, lambda module, name: not module.startswith(OURS) or (module, name) in SAID)
if sys.argv[1:] == ["--list"]:
    sys.exit(show(found))
page, files, texts = read(PAGE), {module for module, _ in found}, set()
# the page quotes definitions as they stand in their files, comments aside
for module, name in found:
    lines = Module(module).items[name].splitlines()
    texts.add("\n".join(it for it in lines if it.strip() and not it.lstrip().startswith("--")))
quoted = dict.fromkeys(it.strip("\n") for block in QUOTED.findall(page) for it in block.split("\n\n"))
for it in filter(lambda it: it not in texts, quoted):
    fails(f"no definition stands so:\n{it}")
counted = f"{size(found)} in {len(files)} files", f"quotes {len(quoted)} of them as they stand"
hold_words(fails, page, [*counted, *(f"`{file.split('.')[-1]}.antt`" for file in sorted(files))])
print(f"linkdiff page: {'; '.join(counted)}")
held, streams, linkdiff = 0, STREAM.findall(page), sys.argv[1] if sys.argv[1:] else "out/linkdiff"
for block in streams:
    lines = "\n".join(it for it in block.splitlines() if it and it[0] != "#")
    for words, part in re.findall(r"^(?:linkdiff ?(.*)\n)?((?:(?!linkdiff\b).*\n?)+)", lines, re.M):
        # the program has to tell of these lines what stands behind their arrows
        given, arrows, wanted = zip(*(map(str.strip, it.partition("->")) for it in part.splitlines()))
        if "OLD" in words.split():
            middle = given.index("NEW")
            with tempfile.TemporaryDirectory() as folder:
                for name, part in ("OLD", given[1:middle]), ("NEW", given[middle + 1:-1]):
                    Path(folder, name).write_bytes(joined(map(spelled, part)))
                found = [[told(it) for it in said(linkdiff, [], f"{folder}/OLD", f"{folder}/NEW")]]
            given, arrows, wanted = ["two files"], arrows[-1:], wanted[-1:]
        else:
            # by the number of the line that brings it
            found = [[] for _ in given]
            for it in said(linkdiff, [f"time={at} {spelled(it)}" for at, it in enumerate(given)], *words.split()):
                found[int(json.loads(it)["time"])].append(told(it))
        for line, arrow, one, other in zip(given, arrows, found, wanted, strict=True):
            if not arrow:
                fails(f"'{line}' has no arrow")
            if "; ".join(one) != other:
                fails(f"'{line}': told is '{'; '.join(one)}'")
        held += len(given)
print(f"linkdiff page: {held} lines of {len(streams)} streams\nlinkdiff page: ok")
