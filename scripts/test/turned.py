#!/usr/bin/env python3
"""Turns the numbers of lines: lowest byte first to highest byte first, as machines of the other order have them.

    python3 scripts/test/turned.py LINES ANSWERS TO_LINES TO_ANSWERS

Lines and answers of which some record ends within a number are left out: filled up with zeros it is another number in
either order. The last line says how many are kept."""
import sys
from pathlib import Path

from kernel_ours import Repository, width
from shared import TOP, joined

OURS = Repository(TOP)
second = OURS.second
HEADER = [(2, 2), (4, 4), (8, 4), (12, 4)]
EVENT = [(0, 2), (2, 2)]


class Ends(Exception):
    """A record ends within a number."""


def reversed_at(payload, places):
    made = bytearray(payload)
    for at, size in places:
        if at < len(made) < at + size:
            raise Ends
        made[at:at + size] = made[at:at + size][::-1]
    return bytes(made)


def by_form(form, table, levels, payload):
    """A payload that a row reads by this form."""
    if form.word == "nest":
        return frames(table, levels, payload)
    if form.word == "struct":
        return reversed_at(payload, [(it.offset, width(it.type)) for it in OURS.records[form.record][0]
                                     if it.type[0] in "us"])
    if form.value == "WirelessEvent":
        return reversed_at(payload, EVENT) if len(payload) >= 8 else payload
    return payload[::-1] if width(form.word) == len(payload) else payload


def frames(table, levels, data):
    """A list of attributes, up to the header of the first that is damaged."""
    out, end = [], 0
    for at, kind, payload in second.frames_in(data):
        end = at + 4 + len(payload) + 3 & ~3
        row, inside, made = (table or {}).get(kind & 0x3fff), None, payload
        # the levels of the state encoding inside of the attribute, those of link info by the kinds that it names
        what, *said = (levels or {}).get(kind & 0x3fff, ["Keep"])
        if what in ("Enter", "EnterInfo"):
            inside = second.level("Info", *second.kinds_in(payload)) if what == "EnterInfo" else second.level(said[0])
        if row and row[2] and row[0] in (None, len(payload)):
            made = by_form(OURS.form(row[3]), getattr(row[2], "table", None), inside, payload)
        elif inside is not None:
            made = frames(None, inside, payload)
        out += [header(data, at), made, data[at + 4 + len(payload):end]]
    left = header(data, end) if len(data) - end >= 4 else b""
    return b"".join(out) + left + data[end + len(left):]


def header(data, at):
    return data[at:at + 2][::-1] + data[at + 2:at + 4][::-1]


def turned(text):
    """A line, or an answer."""
    front, digits = (b"ok ", text[3:]) if text.startswith(b"ok ") else (b"", text)
    if not digits or not second.is_hex(digits):
        return text
    data = bytes.fromhex(digits.decode())
    if len(data) >= 16:
        levels = second.level("Message", second.FAMILY_NAME.get(data[0]))
        data = reversed_at(data[:16], HEADER) + frames(second.top(data), levels, data[16:])
    return front + data.hex().encode()


lines, answers = (Path(name).read_bytes().split(b"\n")[:-1] for name in sys.argv[1:3])
if len(lines) != len(answers):
    sys.exit("turned: there are not as many answers as lines")
kept = []
for one, other in zip(lines, answers):
    try:
        kept.append((turned(one), turned(other)))
    except Ends:
        continue
for name, column in zip(sys.argv[3:5], zip(*kept)):
    Path(name).write_bytes(joined(column))
print(f"{len(kept)} of {len(lines)} lines")
