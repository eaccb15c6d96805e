#!/usr/bin/env python3
"""Makes streams of 50 hosts as linkdump writes them, and holds the model of model.py to what each host has.

    python3 tests/linkdump/hosts.py [--linkdiff LINKDIFF] [SEED..]

A fifth of the news is lost, a tenth of the messages are refused. Dumps are cut, repeated, or have a line that cannot be
read, and links come and go within them; the lines of the hosts are interleaved. After each whole dump the model has the
host's interfaces, by index and name, and a dump that is not whole ends none. With --linkdiff the lines `new` and `gone`
of linkdiff are compared with the model's for each line, and those of two files, which are parts of the lines. The last
line says how many there were.
"""

import random
import sys

from beside import INFO, KIND, MTU, NAME
from model import BRIDGE, UNSPEC, WIRELESS, Model
from told import Told, differ_as_files

HOSTS, STEPS, INDEXES = 50, 60, range(1, 9)
KINDS = None, "veth", "bridge", "vxlan"


def attribute(number, payload):
    return (4 + len(payload)).to_bytes(2, "little") + number.to_bytes(2, "little") + payload + bytes(-len(payload) % 4)


def digits(family, index, link, *others):
    header = bytes((family, 0, 1, 0)) + index.to_bytes(4, "little") + bytes(8)
    return (header + attribute(NAME, link["name"].encode() + b"\0") + b"".join(others)).hex()


def of_link(family, index, link):
    kind = attribute(INFO, attribute(KIND, link["kind"].encode() + b"\0")) if link["kind"] and not family else b""
    return digits(family, index, link, attribute(MTU, link["mtu"].to_bytes(4, "little")), kind)


def refused(family, index, link):
    return digits(family, index, link, attribute(MTU, bytes(2)))


class Host:
    """Links by index, those that are ports, and what was written: pairs of a line and what has to hold after it."""

    def __init__(self, chance, number):
        self.chance, self.name = chance, f"h{number}"
        self.links, self.ports, self.written, self.seq, self.port = {}, set(), [], 0, chance.randrange(1, 99)
        self.unread = set()  # of what the last message is refused

    def write(self, type_, text="", holds=None, **words):
        words = "".join(f" {key}={value}" for key, value in words.items())
        self.written.append((f"type={type_} kernel=6.18.0{words}{text and ' '}{text}", holds))

    def message(self, family, index, link):
        is_refused = self.chance.random() < 0.1
        (self.unread.add if is_refused else self.unread.discard)((family, index))
        return (refused if is_refused else of_link)(family, index, link)

    def news(self, type_, family, index, link, lost=0.2):
        if self.chance.random() >= lost:
            self.write(type_, self.message(family, index, link), seq=0, port=0)

    def make(self, lost=0.2):
        index = self.chance.choice(INDEXES)
        if index not in self.links:
            self.links[index] = {"name": f"n{self.chance.randrange(99)}", "kind": self.chance.choice(KINDS),
                                 "mtu": self.chance.randrange(68, 9000)}
            self.news("new", UNSPEC, index, self.links[index], lost)

    def delete(self, lost=0.2):
        if self.links:
            index = self.chance.choice(list(self.links))
            self.news("del", UNSPEC, index, self.links.pop(index), lost)
            self.ports.discard(index)

    def change(self, lost=0.2):
        if self.links:
            index, link = self.chance.choice(list(self.links.items()))
            if self.chance.random() < 0.1:
                self.write("new", digits(UNSPEC, index, link, attribute(WIRELESS, bytes(8))), seq=0, port=0)
                return
            link["mtu"] = self.chance.randrange(68, 9000)
            self.news("new", UNSPEC, index, link, lost)

    def move(self, lost=0.2):
        if self.links:
            index = self.chance.choice(list(self.links))
            self.ports ^= {index}
            self.news("new" if index in self.ports else "del", BRIDGE, index, self.links[index], lost)

    def dump(self, family):
        self.seq += 1
        number = {"seq": self.seq, "port": self.port}
        first = len(self.written)
        self.write("begin", **number)
        there = sorted(self.links if family == UNSPEC else self.ports)
        half = self.chance.randrange(len(there) + 1)
        made = [self.message(family, index, self.links[index]) for index in there]
        for text in made[:half]:
            self.write("new", text, **number)
        if self.chance.random() < 0.3:  # the kernel has made all parts; news of them come in order, for none is lost
            self.chance.choice((self.change, self.make))(0)
        for text in made[half:]:
            self.write("new", text, **number)
        if self.chance.random() < 0.3:
            self.chance.choice((self.delete, self.make, self.change))(0)
        known = {index: None if (family, index) in self.unread else it["name"] for index, it in self.links.items()
                 if family == UNSPEC or index in self.ports}
        self.write("done", holds=(family, known), **number, family=family, links=len(there))
        self.spoil(first)

    def spoil(self, first):
        """Some dumps are repeated, and of some not all lines come, or come whole."""
        done = self.written[-1][0]
        way = self.chance.choice(("begin", "done", "rest", "line", "again", *["none"] * 9))
        if way == "again":
            self.written += self.written[first:]
        elif way == "begin":
            del self.written[first]
            self.written[-1] = done, "nothing"
        elif way == "done":
            self.written.pop()
        elif way == "rest":
            del self.written[self.chance.randrange(first + 1, len(self.written)):]
            self.seq, self.port = 0, self.chance.randrange(100, 10**6)
        elif way == "line":
            self.written.insert(self.chance.randrange(first + 1, len(self.written)), ("type=new seq=1 00000", None))
            self.written[-1] = done, "nothing"

    def step(self):
        makes = self.make, self.make, self.delete, self.change, self.move
        if self.chance.random() < 0.7:
            self.chance.choice(makes)()
        elif self.chance.random() < 0.1:
            self.write("lost")
        else:
            self.dump(UNSPEC)
            self.dump(BRIDGE)


def made(seed):
    """Returns lines of all hosts, a few of one and then of another, and what has to hold after each."""
    chance = random.Random(seed)
    hosts = [Host(chance, number) for number in range(HOSTS)]
    for host in hosts:
        for _ in range(STEPS):
            host.step()
    found = []
    while hosts:
        host = chance.choice(hosts)
        for _ in range(min(len(host.written), chance.randrange(1, 5))):
            text, holds = host.written.pop(0)
            found.append((host.name, f"host={host.name} time={len(found)} {text}", holds))
        if not host.written:
            hosts.remove(host)
    return found


def differs(linkdiff, lines, told):
    """Returns how many lines linkdiff tells otherwise than the model."""
    own = Told(linkdiff)
    for (_, line, _), it in zip(lines, told):
        own.take(line, it)
    wrong = own.ends()
    for it in wrong[:3]:
        print(f"hosts: {it}", file=sys.stderr)
    return len(wrong)


def differs_as_files(linkdiff, lines, chance):
    """Returns 1 where linkdiff has other interfaces that came or went from one part of the lines to another."""
    at, again = sorted(chance.randrange(len(lines)) for _ in range(2))
    own, wanted = differ_as_files(linkdiff, *([line for _, line, _ in it] for it in (lines[:at], lines[again:])))
    if own == wanted:
        return 0
    print(f"hosts: two files: {own}\nand not\n  {wanted}", file=sys.stderr)
    return 1


def is_wrong(model, host, holds, told):
    """Whether the model has other interfaces than a whole dump leaves, or ended one that is there."""
    family, there = holds
    names = model.names(host, family)
    is_other = names.keys() != there.keys() or any(None not in (names[key], there[key]) and names[key] != there[key]
                                                   for key in there)
    is_left = family == UNSPEC and not model.names(host, BRIDGE).keys() <= there.keys()
    return is_other or is_left or any(index in there for _, (_, _, index) in told)


def main():
    arguments = sys.argv[1:]
    linkdiff = None
    if arguments[:1] == ["--linkdiff"]:
        _, linkdiff, *arguments = arguments
    count = dict.fromkeys(("lines", "whole dumps", "others", "ended by a dump", "of another kind", "differ"), 0)
    for seed in map(int, arguments or range(4)):
        lines, model, told = made(seed), Model(), []
        for host, line, holds in lines:
            told.append(model.take(line))
            count["of another kind"] += [it for it, _ in told[-1]][:1] == ["gone"] and told[-1][-1][0] == "new"
            if holds == "nothing":
                count["others"] += 1
                count["differ"] += told[-1] != []
            elif holds:
                count["whole dumps"] += 1
                count["ended by a dump"] += len(told[-1])
                count["differ"] += is_wrong(model, host, holds, told[-1])
        count["lines"] += len(lines)
        if linkdiff:
            count["differ"] += differs(linkdiff, lines, told)
            count["differ"] += sum(differs_as_files(linkdiff, lines, random.Random(it)) for it in range(8))
    print(f"hosts: {HOSTS} hosts" + (", as linkdiff has them" if linkdiff else "") + ": " +
          ", ".join(f"{number} {what}" for what, number in count.items()))
    sys.exit(1 if count["differ"] else 0)


if __name__ == "__main__":
    main()
