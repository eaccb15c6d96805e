#!/usr/bin/env python3
"""Which interfaces there are, by lines as linkdump writes them: a model of what a reader of its lines keeps.

    python3 tests/linkdump/model.py <LINES

prints each interface that came or went, and then those that are left. An interface is a host, a family and an index.
Each keeps the place of its last line, and each host that of the line `begin` of its last dump. At the line `done` of
the same seq= and port= each interface of its family that had no line since `begin` went; in AF_UNSPEC also the parts of
an interface, its messages of AF_BRIDGE and of AF_INET6, where neither had one. A message that is refused is a line of
its interface, and with type=del its end; one of type=del that is accepted is told also where all before was refused. A
dump among whose lines is one of no interface that can be read ends nothing; what was asked, type=get and type=set, is
no line of a dump. The kind of an interface is the last that a message of it named.
"""

import re
import sys

from beside import HEADER, INFO, KIND, MTU, NAME, attributes, index_of, text

UNSPEC, BRIDGE, INET6 = 0, 7, 10
PARTS = BRIDGE, INET6
WIRELESS = 11


def split(line):
    """Returns the words in front of a line, the first of each key, and what follows them."""
    words = {}
    while True:
        part = re.match(r"[^ \t]*", line).group()
        if part.find("=") <= 0:
            return words, line
        words.setdefault(*part.split("=", 1))
        line = line[len(part):].lstrip(" \t")


class Message:
    """What the model reads of a message: whether it is refused, its name, its kind, and whether it is of wireless."""

    def __init__(self, bytes_):
        try:
            found = attributes(bytes_[HEADER:])
            self.kind = text(attributes(found.get(INFO, b"")).get(KIND, b""))
            self.is_refused = len(found.get(MTU, bytes(4))) != 4
        except ValueError:
            found, self.kind, self.is_refused = {}, "", True
        self.name = text(found.get(NAME, b""))
        self.says_nothing = set(found) == {NAME, WIRELESS}


class Seen:
    """Of an interface the place of its last line, the last message that was accepted, and the kind that is known."""

    def __init__(self):
        self.at, self.message, self.kind = 0, None, ""


class Model:
    def __init__(self):
        self.at, self.known, self.begun = 0, {}, {}
        self.has_dumps, self.whole = False, set()  # whether one began or ended; hosts and families of which all came

    def take(self, line):
        """Returns what a line tells: pairs of 'new' or 'gone' and an interface."""
        self.at += 1
        words, digits = split(line)
        host = words.get("host", "")
        if words and not digits:
            return self.take_words(host, words)
        if words.get("type") in ("get", "set"):
            return []
        if not re.fullmatch("(?:[0-9a-fA-F]{2})*", digits) or len(digits) < 2 * HEADER:
            self.begun.pop(host, None)
            return []
        bytes_ = bytes.fromhex(digits)
        key = host, bytes_[0], index_of(bytes_)
        if words.get("type") == "del":
            is_told = key in self.known and not Message(bytes_).is_refused
            told = self.end(it for it in self.reached(host, key[1]) if it[2] == key[2])
            return told if not is_told or ("gone", key) in told else sorted([*told, ("gone", key)])
        return self.see(key, Message(bytes_))

    def take_words(self, host, words):
        dump = words.get("seq"), words.get("port")
        self.has_dumps |= words.get("type") in ("begin", "done")
        if words.get("type") == "begin":
            self.begun[host] = dump, self.at
        if words.get("type") != "done" or host not in self.begun or self.begun[host][0] != dump:
            return []
        family, begun = int(words["family"]), self.begun[host][1]
        self.whole.add((host, family))
        return self.end(key for key in self.reached(host, family)
                        if self.last(key) < begun and self.last((host, family, key[2])) < begun)

    def last(self, key):
        return self.known[key].at if key in self.known else 0

    def reached(self, host, family):
        """Returns what an end in this family can end: in AF_UNSPEC the parts too."""
        families = (UNSPEC, *PARTS) if family == UNSPEC else (family,)
        return [key for key in self.known if key[0] == host and key[1] in families]

    def end(self, keys):
        gone = [(key, self.known[key].message) for key in sorted(keys)]
        for key, _ in gone:
            del self.known[key]
        return [("gone", key) for key, message in gone if message]

    def see(self, key, message):
        told, seen = [], self.known.get(key)
        if message.says_nothing:
            return told
        if message.is_refused:
            self.known.setdefault(key, Seen()).at = self.at
            return told
        if seen and seen.message and "" not in (seen.kind, message.kind) and seen.kind != message.kind:
            told = self.end(it for it in self.reached(key[0], key[1]) if it[2] == key[2])
        seen = self.known.setdefault(key, Seen())
        if not seen.message:
            told.append(("new", key))
        seen.at, seen.message, seen.kind = self.at, message, message.kind or seen.kind
        return told

    def names(self, host, family):
        """Returns the names by index; of an interface with no message that was accepted it is None."""
        return {index: seen.message and seen.message.name for (of, in_, index), seen in self.known.items()
                if (of, in_) == (host, family)}


def main():
    model = Model()
    for line in sys.stdin:
        for change, key in model.take(line.rstrip("\n")):
            print(change, *key)
    for (host, family, index), seen in sorted(model.known.items()):
        print("is", host, family, index, seen.message and seen.message.name)


if __name__ == "__main__":
    main()
