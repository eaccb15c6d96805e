#!/usr/bin/env python3
"""Writes the lines of the workloads that somebody may choose to make a program slow: slow_lines.py FOLDER.

They are texts of which each byte wants an escape, or the last one does, names and words by the thousand, a word that is
no UTF-8, a key of ten million bytes, and lines that begin with no digit.
"""

from frames import frame, head, u32, write_files

IFLA_MTU, IFLA_IFALIAS, IFLA_PROP_LIST, IFLA_ALT_IFNAME = 4, 20, 52, 53


def digits(*attributes):
    return (head(0, 1, 0) + b"".join(attributes)).hex().encode()


def names(text, count):
    return digits(frame(IFLA_PROP_LIST, frame(IFLA_ALT_IFNAME, text) * count))


def words(key, value, count):
    return (key + b"=" + value + b" ") * count + digits()


def mtu_in_turn(front, count):
    """Words, and a message whose MTU has two values in turn."""
    return [front + digits(frame(IFLA_MTU, u32(1000 + at % 2))) for at in range(count)]


def lines():
    """The lines of each file."""
    letters = b"x" * 7999
    return {
        "names": [names(b"\1\1\1", 7500)] * 100,
        "words": [words(b"\1\1\1", b"\1\1\1", 7000)] * 200,
        "quotes": [words(b'"', b'"', 7000)] * 400,
        "utf8": ["\u20ac".encode() * 20000 + b'"=\xff ' + digits()] * 200,
        "key": [b"\1" * 10_000_000 + b"=a " + digits()] * 2,
        "late": [digits(frame(IFLA_IFALIAS, letters + b'"'))] * 1500,
        "no-digit": [b"g" + b"0" * 31] * 1_000_000,
        "names-turn": [names(b"\1\1\1", 3000), names(b"\1\1\2", 3000)] * 50,
        "late-turn": [digits(frame(IFLA_IFALIAS, letters + b'"')), digits(frame(IFLA_IFALIAS, letters + b"\\"))] * 400,
        "host": mtu_in_turn(b"host=" + b"\1" * 3000 + b" ", 2000),
    }


write_files(lines())
