#!/usr/bin/env python3
"""Damages captures, the same way each time, and looks at what linkdump, built with sanitizers, does with them.

    python3 tests/linkdump/damaged.py LINKDUMP [FILES]

Messages that are damaged in a whole capture have to give the lines that the rules give here: where a length is wrong,
the rest of its packet is told and left out. Of a capture whose own bytes are damaged, whatever libpcap makes of it,
each line is whole, the status is 0 or 1, and nothing is told but what linkdump tells.
"""

import random
import re
import struct
import subprocess
import sys
import tempfile

from captures import FORMS, STORED, Told, cooked, message, read_lines

PACKETS = 4000
LINE = re.compile(rb"(?:time=[-0-9]{10}T[:0-9]{8}\.[0-9]{9}Z )?type=(?:new|del|get|set) seq=[0-9]+ port=[0-9]+ "
                  rb"(?:[0-9a-f]{2})*")
NAMES = {16: "new", 17: "del", 18: "get", 19: "set"}


def change(chance, bytes_, at):
    if at < len(bytes_):
        bytes_[at] = chance.choice((0, 1, 2, 15, 16, 17, 255, bytes_[at] ^ 1 << chance.randrange(8)))


def is_turned(len_, type_, left):
    turned = struct.unpack(">I", struct.pack("<I", len_))[0]
    return 16 <= turned <= left and type_ & 255 == 0 and type_ != 0


def walk(packet):
    """Returns the lines without their times, and how much is told, or nothing for one of a big-endian machine."""
    lines, told, at = [], 0, 16
    while len(packet) - at >= 16:
        left = len(packet) - at
        len_, type_, _, seq, port = struct.unpack_from("<IHHII", packet, at)
        if len_ < 16 or len_ > left:
            return None if is_turned(len_, type_, left) else (lines, told + 1)
        if type_ in NAMES:
            lines.append(f"type={NAMES[type_]} seq={seq} port={port} {packet[at + 16:at + len_].hex()}")
        elif type_ == 2 and len_ >= 36:
            error, _, quoted = struct.unpack_from("<iIH", packet, at + 16)
            told += error != 0 and quoted in NAMES
        at += len_ + -len_ % 4
    return lines, told


def damaged_packet(chance, all_):
    some = [chance.choice(all_).message() for _ in range(chance.randrange(1, 4))]
    if chance.randrange(4) == 0:
        some.insert(0, message(2, struct.pack("<i", chance.choice((0, -1, -22, 7))) + some[0]))
    packet = bytearray(cooked(some))
    starts = [16]
    for it in some[:-1]:
        starts.append(starts[-1] + len(it) + -len(it) % 4)
    for _ in range(chance.randrange(1, 4)):
        change(chance, packet, chance.choice(starts) + chance.randrange(40))
    if chance.randrange(8) == 0:
        del packet[chance.randrange(16, len(packet)):]
    return bytes(packet)


def run(program, file, capture):
    with open(file, "wb") as it:
        it.write(capture)
    return subprocess.run([program, "--read", file], capture_output=True, timeout=60)


def damaged_messages(program, file, all_, chance):
    for form in FORMS.values():
        packets = [it for it in (damaged_packet(chance, all_) for _ in range(PACKETS)) if walk(it) is not None]
        ran = run(program, file, form([(0, it) for it in packets]))
        wanted = [line for it in packets for line in walk(it)[0]]
        told = sum(walk(it)[1] for it in packets)
        found = [line.split(" ", 1)[1] for line in ran.stdout.decode().split("\n")[:-1]]
        if ran.returncode != 0 or found != wanted or len(ran.stderr.split(b"\n")) - 1 != told:
            first = next((pair for pair in zip(found, wanted) if pair[0] != pair[1]), (len(found), len(wanted)))
            sys.exit(f"damaged: status {ran.returncode}, {told} to be told, {first}\n{ran.stderr.decode()[-3000:]}")
        print(f"damaged: {len(packets)} packets: {len(wanted)} messages, {told} told and left out")


def damaged_files(program, file, all_, chance, count):
    """The damage of a capture itself: its headers, lengths, times and blocks."""
    ends = {0: 0, 1: 0}
    for number in range(count):
        packets = [(it.when, cooked([it.message()])) for it in chance.sample(all_, 6)]
        capture = bytearray(list(FORMS.values())[number % 2](packets))
        for _ in range(chance.randrange(1, 5)):
            change(chance, capture, chance.randrange(chance.choice((48, 120, len(capture)))))
        if chance.randrange(4) == 0:
            del capture[chance.randrange(len(capture)):]
        ran = run(program, file, bytes(capture))
        lines, told = ran.stdout.split(b"\n"), ran.stderr.split(b"\n")
        if (ran.returncode not in ends or lines[-1] != b"" or not all(LINE.fullmatch(it) for it in lines[:-1]) or
                told[-1] != b"" or not all(it.startswith(b"linkdump: ") for it in told[:-1]) or
                (ran.returncode == 1 and len(told) < 2)):
            sys.exit(f"damaged: {capture.hex()}: status {ran.returncode}\n{ran.stderr.decode()[-3000:]}")
        ends[ran.returncode] += 1
    print(f"damaged: {count} captures: {ends[0]} read, {ends[1]} refused")


def main():
    chance = random.Random(1)
    all_ = read_lines(STORED)
    all_ += [Told(len(all_), "type=new " + "00" * len_) for len_ in range(16, 40)]
    with tempfile.TemporaryDirectory() as folder:
        damaged_messages(sys.argv[1], f"{folder}/capture", all_, chance)
        damaged_files(sys.argv[1], f"{folder}/capture", all_, chance, int(sys.argv[2]) if len(sys.argv) > 2 else 300)


main()
