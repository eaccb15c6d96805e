#!/usr/bin/env python3
"""Damages lines, the same way each time, and holds what the programs say of them to the second reader of tests/second.

    python3 scripts/test/damaged.py FOLDER              FOLDER has linkwire, linkstate and linkshow
    python3 scripts/test/damaged.py --write FILE LINES  so many lines of bench/make_lines.py, each damaged, and after
                                                        them every tenth as it was"""
import glob
import json
import random
import re
import subprocess
import sys
import tempfile
from itertools import islice
from pathlib import Path

from shared import HEADER_SIZE, TOP, answers, attribute, compare, digits_of, frames, joined, pairs, read

HEADER = "00" * 16
LONG = [
    HEADER + "ffff0300" + "61" * 65531,  # a name
    HEADER + "58031a0054030a00" + "04000300" * 212,  # counters of IPv6, each of which grows by all of its numbers
    HEADER + "f4ff1600" + "100001000c0004000000000001000000" * 4095,  # functions
    HEADER + "0800040001000000" * 16000,  # one name at one place
]
# the attributes that hold others, by their numbers: the kernel's name, of which small letters are the one that is shown
HOLDERS = {12: "IFLA_PROTINFO", 18: "IFLA_LINKINFO", 22: "IFLA_VFINFO_LIST", 24: "IFLA_VF_PORTS", 25: "IFLA_PORT_SELF",
           26: "IFLA_AF_SPEC", 43: "IFLA_XDP", 52: "IFLA_PROP_LIST", 55: "IFLA_PROTO_DOWN_REASON",
           62: "IFLA_DEVLINK_PORT", 65: "IFLA_DPLL_PIN"}
ROUNDS = 100  # how often each line is damaged


def sources():
    """Returns the lines of linkshow's stored run, and the lines and canonical texts that linkwire's tests have."""
    tests = "\n".join(map(read, sorted(glob.glob("crates/linkwire/src/tests/**/*.rt", root_dir=TOP, recursive=True))))
    found = re.findall("[0-9a-fA-F]{32,}", re.sub(r"\\\n\s*", "", tests))
    stored, tested = digits_of(read("crates/linkshow/stdin")), [it for it in found if len(it) % 2 == 0]
    assert stored and tested, "linkshow's stored run, or the tests of linkwire, have no lines"
    return list(dict.fromkeys(stored + tested))


def damaged_bytes(chance, line):
    """Returns a line with a few bytes changed, cut or doubled."""
    bytes_ = bytearray.fromhex(line)
    for _ in range(chance.randrange(1, 4)):
        if not bytes_:
            break
        at = chance.randrange(chance.choice((len(bytes_), min(len(bytes_), 48))))
        what = chance.randrange(4)
        if what == 0:
            bytes_[at] = chance.choice((0, 1, 3, 4, 5, 255, chance.randrange(256)))
        elif what == 1:
            del bytes_[at:]
        elif what == 2:
            bytes_[at:at] = bytes_[16:at][: chance.randrange(1, 64)]
        else:
            bytes_[at] ^= 1 << chance.randrange(8)
    return bytes_.hex()


def damaged(chance, line):
    """Returns a line with a few bytes changed, cut or doubled, or a digit that is none."""
    digits = damaged_bytes(chance, line)
    if chance.randrange(50) == 0:
        at = chance.randrange(len(digits) + 1)
        digits = digits[:at] + chance.choice(("", "0", "g", " ", "\r", "\0", "é")) + digits[at + 1 :]
    return digits


def made(count):
    """Returns so many lines of bench/make_lines.py."""
    command = [sys.executable, f"{TOP}/bench/make_lines.py", "/dev/stdout", "10000"]
    with subprocess.Popen(command, stdout=subprocess.PIPE, text=True) as it:
        lines = [line.rstrip("\n") for line in islice(it.stdout, count)]
        it.kill()
    return lines


def object_of(pairs):
    """Returns an object as a dictionary; no name stands twice in it."""
    if len(dict(pairs)) != len(pairs):
        raise ValueError("a name stands twice in one object")
    return dict(pairs)


def fault_of(line, answer):
    """Returns the fault that an answer tells, or nothing; it has to be an object of JSON."""
    try:
        if min(answer) < 32:
            raise ValueError("a control character")
        return json.loads(answer.decode(), object_pairs_hook=object_of).get("fault")
    except ValueError as error:
        sys.exit(f"damaged: {line[:300]}: {error}: {answer[:300]}")


# ** what linkshow --lenient says, by what it says without it of one attribute at a time

def parts(message):
    """Returns offset and line of a message of each attribute alone; nothing where one is no frame."""
    found, end = frames(message)
    found = found if end >= len(message) else []
    return [(at, (message[:HEADER_SIZE] + attribute(kind, payload)).hex()) for at, kind, payload in found]


def refused_as(at, line, answer):
    """Returns what stands under refused of an attribute there, by the answer to it alone; nothing if it is accepted."""
    alone = json.loads(answer)
    if "fault" not in alone:
        return None
    (_, kind, payload), = frames(bytes.fromhex(line))[0]
    holder = HOLDERS.get(kind & 0x3FFF, "")
    told = {"at": alone["at"], "fault": alone["fault"]}
    for name, value in alone.items():       # numbers in the order of the answer
        if name in ("got", "need", "want", "left", "length", "offset"):
            told[name] = value - HEADER_SIZE + at if name == "offset" else value
    if alone["offset"] > HEADER_SIZE and alone["at"] != holder:
        told["in"] = holder.removeprefix("IFLA_").lower().replace("_", "-")
    told["payload"] = payload.hex()
    return json.dumps(told, separators=(",", ":")).encode()


def leniently(show, lines, shown):
    """Returns what the model says with --lenient, of most lines as without it, and of how many it is another answer."""
    faults = [fault_of(line, answer) for line, answer in zip(lines, shown)]
    split = {n: found for n, fault in enumerate(faults)
             if fault not in (None, "not-hex") and (found := parts(bytes.fromhex(lines[n])))}
    asked = list({line for found in split.values() for _, line in found})
    alone, accepted, refused = dict(zip(asked, answers(show, asked))), [], []
    for n, found in split.items():
        told = [(line, refused_as(at, line, alone[line])) for at, line in found]
        accepted.append(lines[n][:2 * HEADER_SIZE] + "".join(it[2 * HEADER_SIZE:] for it, why in told if why is None))
        refused.append(b",".join(why for _, why in told if why is not None))
    wanted = list(shown)
    for n, answer, why in zip(split, answers(show, accepted), refused):
        wanted[n] = answer[:-1] + b',"refused":[' + why + b"]}"
    return wanted, len(split)


def main(folder):
    chance, messages = random.Random(1), [it.hex() for _, *pair in pairs() for it in pair]
    whole = sources() + messages
    lines = whole + LONG + [damaged(chance, it) for it in whole + messages for _ in range(ROUNDS)]
    lines += [damaged(chance, it) for it in LONG for _ in range(ROUNDS // 10)]
    show = f"{folder}/linkshow"
    wanted, count = leniently(show, lines, answers(show, lines))
    found = answers(show, lines, "--lenient")
    compare("damaged: --lenient", lines, found, wanted)
    for line, answer in zip(lines, found):
        fault_of(line, answer)
    with tempfile.NamedTemporaryFile() as it:
        Path(it.name).write_bytes(joined(lines))
        subprocess.run(["python3", "tests/second/check.py", "--lines", it.name, folder, "-"], check=True, cwd=TOP)
    print(f"damaged: {len(lines)} lines, damaged and whole, of which {count} are shown with --lenient alone: ok")


def write(path, count):
    chance, lines = random.Random(2), made(int(count))
    Path(path).write_bytes(joined([*(damaged(chance, it) for it in lines), *lines[::10]]))


if __name__ == "__main__":
    write(*sys.argv[2:]) if sys.argv[1] == "--write" else main(*sys.argv[1:])
