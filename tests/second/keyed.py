#!/usr/bin/env python3
"""Holds what linkdiff tells of lists whose values say a number to told.py: of VLANs, tunnels and spanning trees of a
bridge's port, of mappings of priorities, virtual functions and their ports, of attributes that are kept as they are;
and of lists of texts: alternative names, addresses of a macvlan, targets of a bond.

    keyed.py [--pairs N] [--seed N] FOLDER

FOLDER has linkdiff and linkshow. So many pairs of messages are made and told without options, as many with --counters,
and a fourth as many leniently. They are of a bridge's port, a vlan, a macvlan and a bond. Each message has the lists of
the one before it, with values that are added, dropped, changed or moved, or one of the lists in another order. In half
of the pairs numbers also come twice or not at all, and values are damaged. Attributes that are kept stand in the
message, in lists that have rows, in the list of alternative names, and in values of the other lists.

In the other half each value of a list has a number of its own. What is told of these pairs is held to the bytes too,
without linkshow and told.py: the numbers whose values differ are told, and no others. A number that one message alone
has is told once, with its value. Of texts those that one message has more often are told, and of lists in another
order that both have the same values.

Lists of VLANs and tunnels say the same of VLANs in several ways: in ranges as long as can be, one by one, and cut at
some places. What is told is held to what was to be said of each VLAN. In the first half some are lists that no kernel
writes: without an end of a range, out of order, damaged. The last line is 'keyed: ok'."""
import argparse
import ipaddress
import itertools
import json
import random
import re
import struct
import sys

import told
from streams import attribute, u32

EACH = 20                                       # pairs that are made of a message
# each list with the path of its values, up to the number
PATHS = {"vlans": "af-spec.vlan-info[vid", "tunnels": "af-spec.vlan-tunnel-info[vid", "trees": "af-spec.mst.entry[msti",
         "egress": "linkinfo.data.egress-qos.mapping[from", "ingress": "linkinfo.data.ingress-qos.mapping[from",
         "functions": "vfinfo-list.info[vf", "ports": "vf-ports.port[vf", "kept": "other[number",
         "kept in names": "prop-list.other[number", "kept in spec": "af-spec.other[number",
         "kept in trees": "af-spec.mst.other[number", "kept in info": "linkinfo.other[number",
         "kept in data": "linkinfo.data.other[number"}
TEXTS = {"names": "prop-list.alt-ifname", "addresses": "linkinfo.data.macaddr-data.macaddr",
         "targets": "linkinfo.data.arp-ip-target", "targets6": "linkinfo.data.ns-ip6-target"}
PORT = "vlans", "tunnels"
EVERY = "kept", "kept in names", "names"
BRIDGE = ("vlans", "tunnels", "trees", "kept in spec", "kept in trees", *EVERY)
VLAN = ("egress", "ingress", "functions", "ports", "kept in info", "kept in data", *EVERY)
MACVLAN = ("addresses", "functions", "kept in info", "kept in data", *EVERY)
BOND = ("targets", "targets6", "kept in data", *EVERY)
LABEL = re.compile(r"([^\[]+\[[a-z]+)=([0-9]+)\](\..+)?")


class Value:
    """A value of a list: its bytes, and the number that it says, which is None if lists of values with numbers of their
    own are to be without it. Two values that are told as the same have their attributes alike in `sorted`."""
    __slots__ = "number", "payload", "sorted"

    def __init__(self, number, *pieces):
        self.number, self.payload = number, b"".join(pieces)
        self.sorted = sorted(pieces, key=lambda it: (it[2], it[3] & 63) if len(it) > 3 else ())


class Port(list):
    """The values of a list of VLANs or tunnels, and what they were made of: `said` has flags and id of each VLAN, in
    order; the id is None if it is no tunnel."""

    def __init__(self, said=(), values=()):
        super().__init__(values)
        self.said = dict(said)


class Text:
    """A value of a list of texts: its bytes, and how it is shown."""
    __slots__ = "payload", "shown"

    def __init__(self, payload, shown):
        self.payload, self.shown = payload, shown


class Kept:
    """An attribute of a number that no table has, or one that is kept since it has another size than its row says."""
    __slots__ = "number", "payload", "sorted", "kind"

    def __init__(self, number, kind, payload):
        self.number, self.kind, self.payload, self.sorted = number, kind, payload, [kind, payload]


# ** values

def u16(it):
    return struct.pack("<H", it)


def with_kept(rng, found):
    """Attributes, and at times some among them that are kept, of which two may have one number."""
    if rng.random() < 0.1:
        for number in rng.choices([70, 99, 99, 0x8000 | 99], k=rng.randrange(4)):
            found.insert(rng.randrange(len(found) + 1), attribute(number, bytes(rng.randrange(2))))
    return found


def members(rng, number, own, others):
    """Attributes, of which one says the number: at times twice, and then the last one counts, damaged, or not there."""
    kind, form = own
    chance, found = rng.random(), with_kept(rng, [it for it in others if rng.random() < 0.8])
    if chance < 0.05:
        return Value(None, *found)
    if chance < 0.08:
        return Value(None, *found, attribute(kind, b"odd" if form is u16 else form(number) + b"odd!"))
    found.insert(rng.randrange(len(found) + 1), attribute(kind, form(number)))
    if chance < 0.12:
        found.insert(0, attribute(kind, form(rng.randrange(9))))
    return Value(number, *found)


def vlan(rng, number):
    return Value(number, struct.pack("<HH", rng.choice([0, 0, 2, 4, 6, 8, 16, 24]), number))


def tunnel(rng, number):
    return members(rng, number, (2, u16), [attribute(1, u32(rng.choice([100, 200, 1000 + number]))),
                                           attribute(3, u16(rng.choice([0, 8, 16])))])


def vlan_of(rng, vid, flags, id_):
    """The value that says this of a VLAN; a tunnel's attributes stand in any order, and may have flags of their own."""
    if id_ is None:
        return Value(vid, struct.pack("<HH", flags, vid))
    found = [attribute(1, u32(id_)), attribute(2, u16(vid)), attribute(3, u16(flags))]
    if rng.random() < 0.1:
        rng.shuffle(found)
        found[0] = found[0][:3] + bytes([rng.choice([0x40, 0x80, 0xc0])]) + found[0][4:]
    return Value(vid, *found)


def tree(rng, number):
    return members(rng, number, (1, u16), [attribute(2, bytes([rng.randrange(5)]))])


def mapping(rng, number):
    return Value(number, u32(number, rng.randrange(8)))


def port(rng, number):
    others = [attribute(2, rng.choice([b"one\0", b"two\0"])), attribute(4, bytes([rng.randrange(2)] * 16)),
              attribute(6, bytes([rng.randrange(3)]))]
    it = members(rng, number, (1, u32), others)
    return it if it.payload else port(rng, number)


def function(rng, number):
    """Records of a function, in the order of a kernel or in another one: at times one twice, or of another function."""
    def record(kind, form, *values, of=number):
        return attribute(kind, struct.pack("<I" + form, of, *values))

    found = [record(1, "32s", bytes([2, 0, 0, 0, 0, rng.randrange(2)])), record(2, "II", rng.choice([0, 100]), 0),
             record(3, "I", rng.randrange(2)), record(4, "I", rng.randrange(2)), record(5, "I", rng.randrange(3)),
             record(6, "II", 0, rng.randrange(2)), record(9, "I", rng.randrange(2)),
             attribute(12, attribute(1, struct.pack("<IIIHxx", rng.choice([number, 5]), rng.choice([0, 7]), 0, 129)))]
    found = with_kept(rng, [it for it in found if rng.random() < 0.6])
    if number % 2:                              # a state passes over it
        found.append(attribute(13, bytes([255] * 6 + [0] * 26)))
    chance = rng.random()
    if chance < 0.1:
        counters = attribute(0, struct.pack("<Q", rng.randrange(3))) + attribute(rng.choice([1, 6]), bytes(8))
        found += [attribute(8, counters)] * rng.choice([1, 1, 2])
    elif chance < 0.2:
        rng.shuffle(found)
        if chance < 0.15:
            found.insert(0, record(4, "I", 1, of=rng.randrange(4)))
    elif chance < 0.3:
        found.insert(0, record(5, "I", 1, of=rng.randrange(4)))
        found.append(record(5, "I", 2))
    is_said = chance >= 0.3 and any(it[2] not in (12, 13, 70, 99) for it in found)
    return Value(number if is_said else None, *found)


def kept(rng, number):
    number = 1000 + number % 1000
    return Kept(number, number | rng.choice([0, 0, 0, 0x4000, 0x8000]), rng.choice([b"", b"a", b"ab", b"abcd"]))


MAKES = {"vlans": vlan, "tunnels": tunnel, "trees": tree, "egress": mapping, "ingress": mapping, "functions": function,
         "ports": port, **{name: kept for name in PATHS if name.startswith("kept")}}
# what has a name, and is kept where its size is another: of these xstats move by themselves
NAMED = {"kept": (68, [b"a", b"ab", b"abcd"]), "kept in info": (3, [b"", b"a", b"abcd"])}


def damaged(rng, name, number):
    """A value that says no number, where that is not refused; of what is kept one that has a name."""
    if name == "functions" or name == "ports":
        return MAKES[name](rng, number)
    if name in NAMED:
        kind, payloads = NAMED[name]
        return Kept(kind, kind, rng.choice(payloads))
    if name.startswith("kept"):
        return kept(rng, number)
    return Value(None, rng.choice([b"", b"a", b"odd", b"odd", b"12345"]))


# ** VLANs

BEGIN, END = 8, 16
NAMES = {1: "master", 2: "pvid", 4: "untagged", 32: "brentry", 64: "only-opts"}
FLAGS = 0, 0, 0, 2, 4, 4, 6, 1, 32, 64, 128, 0x8004
# the first VLAN of those that come, go or turn, and how many they are
VIDS, LONG = (1, 1, 2, 3, 5, 10, 15, 20, 21, 200, 4094, 0, 65533), (1, 1, 1, 2, 3, 4, 10, 11)
AHEAD = 0, 1000, 1000, 1001, -1, 1 << 24, (1 << 32) - 65534


def said_next(rng, name, said):
    """What is said of VLANs after some of them came, went or turned: ids go along with VLANs, or all are the same."""
    out = dict(said)
    for _ in range(rng.choice([0, 0, 1, 1, 2, 3])):
        first, long, way = rng.choice(VIDS), rng.choice(LONG), rng.choice(["add", "add", "drop", "flags", "id", "all"])
        some = range(first, min(first + long, 65536)) if way != "all" else sorted(out)
        flags, ahead, is_one = rng.choice(FLAGS), rng.choice(AHEAD), rng.random() < 0.1
        for vid in some:
            id_ = 5000 if is_one else min(max(vid + ahead, 0), (1 << 32) - 1)
            if way == "drop":
                out.pop(vid, None)
            elif way == "add":
                out[vid] = flags, id_ if name == "tunnels" else None
            elif vid in out:
                was, id_was = out[vid]
                out[vid] = (was, None if id_was is None else id_) if way == "id" else (flags, id_was)
    return {vid: out[vid] for vid in sorted(out)}


def written(rng, said):
    """The VLANs, flags and ids that say this: each VLAN alone, in ranges as long as can be, or cut at some places."""
    out, runs, cuts = [], [], rng.choice([0, 0, 0.3, 1])
    for vid, (flags, id_) in said.items():
        last = runs[-1] if runs else (-2, -2, None, None)
        along = id_ is None or last[3] is not None and id_ - last[3] == vid - last[0]
        if last[1] + 1 == vid and last[2] == flags and along and rng.random() >= cuts:
            runs[-1] = last[0], vid, flags, last[3]
        else:
            runs.append((vid, vid, flags, id_))
    for first, last, flags, id_ in runs:
        if first == last:
            out.append((first, flags, id_))
        else:
            out += [(first, flags | BEGIN, id_), (last, flags | END, None if id_ is None else id_ + last - first)]
    return out


def slipped(rng, found):
    """VLANs, flags and ids of which one is not as a kernel writes it, or still is."""
    way = rng.choice(["ends", "ends", "flags", "vid", "id", "drop", "twice", "swap", "one"])
    out, at = list(found), rng.randrange(len(found))
    vid, flags, id_ = out[at]
    if way == "ends":
        out[at] = vid, flags ^ rng.choice([BEGIN, END, BEGIN | END]), id_
    elif way == "flags":
        out[at] = vid, flags ^ rng.choice([2, 4, 128]), id_
    elif way == "vid":
        out[at] = min(max(vid + rng.choice([-9, -1, 1, 9]), 0), 65535), flags, id_
    elif way == "id" and id_ is not None:
        out[at] = vid, flags, id_ ^ 1
    elif way == "drop":
        del out[at]
    elif way == "twice":
        out.insert(at, out[at])
    elif way == "swap":
        out.insert(rng.randrange(len(out)), out.pop(at))
    elif way == "one":                          # a range of one VLAN
        out[at:at + 1] = [(vid, flags & ~END | BEGIN, id_), (vid, flags & ~BEGIN | END, id_)]
    return out


def spoilt(rng, it):
    """A VLAN or a tunnel with more or less bytes, with an attribute more or less, or one of another size."""
    if len(it.payload) == 4:
        return Value(None, rng.choice([it.payload[:3], it.payload + b"\0", it.payload * 2, b""]))
    found = [it.payload[at:at + 8] for at in range(0, len(it.payload), 8)]
    at, way = rng.randrange(len(found)), rng.choice(["drop", "more", "twice", "size", "end"])
    if way == "drop":
        del found[at]
    elif way == "more":
        found.insert(at, attribute(rng.choice([0, 4, 99]), b""))
    elif way == "twice":
        found.insert(at, found[at])
    elif way == "size":
        found[at] = attribute(found[at][2] | found[at][3] << 8, b"odd")
    return Value(None, *found, b"\0\0" if way == "end" else b"")


def port_beside(rng, name, values, is_calm):
    """A list of VLANs beside the one that was there; some that are not calm are not as a kernel writes them."""
    said = said_next(rng, name, values.said)
    if len(said) > 60:
        said = {}
    found, way = written(rng, said), rng.choice(["slip", "slip", "spoil", "alter", *[None] * 6])
    if way == "slip" and found and not is_calm:
        found = slipped(rng, found)
    out = [vlan_of(rng, *it) for it in found]
    if way == "spoil" and out and not is_calm:
        at = rng.randrange(len(out))
        out[at] = spoilt(rng, out[at])
    if way == "alter" and not is_calm:
        out = altered(rng, name, out, False)
    return Port(said, out)


# ** texts

def name(rng):
    shown = rng.choice(["a", "b", "b", "c", "one", "two", 'q"', "\u00e9", ""])
    return Text(shown.encode() + b"\0" * (not shown or rng.random() < 0.9), shown)


def address(rng):
    payload = bytes([2, 0, 0, 0, 0, rng.randrange(4)])
    return Text(payload, payload.hex(":"))


def target(rng):
    payload = bytes([10, 0, 0, rng.randrange(4)])
    return Text(payload, str(ipaddress.ip_address(payload)))


def target6(rng):
    payload = bytes([32, 1, *bytes(13), rng.randrange(4)])
    return Text(payload, str(ipaddress.ip_address(payload)))


TEXT_MAKES = {"names": name, "addresses": address, "targets": target, "targets6": target6}


def texts_beside(rng, of, values, is_calm):
    """A list of texts beside the one that was there: with texts more or less, of which some come twice, or moved."""
    out = list(values)
    for _ in range(rng.choice([0, 0, 0, 1, 1, 2])):
        at, way = rng.randrange(len(out) + 1), rng.choice(["add", "add", "drop", "twice", "move", "turn", "odd", "all"])
        if way == "add":
            out.insert(at, TEXT_MAKES[of](rng))
        elif way == "odd" and not is_calm:
            payloads = [b"", b"a\0b", b"\xe9"] if of == "names" and rng.random() < 0.1 else [b"", b"a", b"odd"]
            out.insert(at, Text(rng.choice(payloads), None))
        elif way == "all":
            rng.shuffle(out)
        elif at < len(out) and way in ("twice", "turn"):
            out[at:at + (way == "turn")] = [out[at] if way == "twice" else TEXT_MAKES[of](rng)]
        elif at < len(out):
            it = out.pop(at)
            if way == "move":
                out.insert(rng.randrange(len(out) + 1), it)
    return out[:rng.choice([0, 4, 6, 6, 6, 6])]


# ** messages

def beside(rng, of, values, is_calm):
    """A list beside the one that was there."""
    make = port_beside if of in PORT else texts_beside if of in TEXTS else altered
    return make(rng, of, values, is_calm)


def moved(rng, of, values):
    """A list in another order; of VLANs the same ones, perhaps in other ranges."""
    if of in PORT:
        return Port(values.said, [vlan_of(rng, *it) for it in written(rng, values.said)])
    return rng.sample(values, len(values))


def altered(rng, name, values, is_calm):
    """A list beside the one that was there: as it is, with a value more or less, or in another order."""
    out = list(values)
    for _ in range(rng.choice([0, 0, 1, 1, 2])):
        at, way = rng.randrange(len(out) + 1), rng.choice(["add", "add", "drop", "turn", "move", "odd"])
        number = rng.choice([*range(6), *range(6), 200, 4094])
        it = MAKES[name](rng, number)
        if is_calm and (it.number is None or way == "odd" or way == "add" and it.number in [one.number for one in out]):
            continue
        if way == "add":
            out.insert(at, it)
        elif way == "odd":
            out.insert(at, damaged(rng, name, number))
        elif at < len(out) and way == "turn":
            turned = MAKES[name](rng, number if out[at].number is None else out[at].number)
            out[at] = out[at] if is_calm and turned.number is None else turned
        elif at < len(out):
            it = out.pop(at)
            if way == "move":
                out.insert(rng.randrange(len(out) + 1), it)
    return out[:rng.choice([2, 6, 6, 6])]


def spelled(rng, lists, is_calm):
    """The message that has these lists; one that is not calm has some of them twice or not at all, other attributes
    among their values, and at times lacks what stands around them, or the kind that says what they are."""
    def is_there():
        return is_calm or rng.random() < 0.95

    def these(number, name):
        return [attribute(number, it.payload) for it in lists[name]]

    def around(number, inside):
        one = attribute(number, b"".join(inside)) if is_there() else b""
        return one if is_there() else attribute(number, b"".join(inside[:-1])) + one

    def among(name, inside):
        """Attributes, with those among them that are kept, in their order, behind each other or not."""
        found = list(inside)
        places = sorted((rng.randrange(len(found) + 1) for _ in lists[name]), reverse=True)
        for at, it in zip(places, reversed(lists[name])):
            found.insert(at, attribute(it.kind, it.payload))
        return found

    names = around(52, among("kept in names", these(53, "names")))
    if "vlans" in lists:
        inside = [*these(2, "vlans"), *these(3, "tunnels"), around(6, among("kept in trees", these(1, "trees")))]
        inside = among("kept in spec", inside)
        if not is_calm and rng.random() < 0.3:
            for _ in range(3):
                other = attribute(rng.choice([1, 99]), u16(rng.randrange(2)))
                inside.insert(rng.randrange(len(inside) + 1), other)
        return bytes([7, 0, 1, 0, 1, *bytes(11)]) + b"".join(among("kept", [around(26, inside), names]))
    if "targets" in lists:
        slots = [[attribute(at, it.payload) for at, it in enumerate(lists[of])] for of in ("targets", "targets6")]
        kind, data = b"bond\0", [around(8, slots[0]), around(31, slots[1])]
    elif "addresses" in lists:
        kind, data = b"macvlan\0", [around(5, these(4, "addresses"))]
    else:
        kind, data = b"vlan\0", [around(3, these(1, "egress")), around(4, these(1, "ingress"))]
    kind, data = attribute(1, kind) if is_there() else b"", attribute(2, b"".join(among("kept in data", data)))
    inside = [kind, data]
    found = [around(18, among("kept in info", inside) if "kept in info" in lists else inside)]
    if "functions" in lists:
        found.append(around(22, these(1, "functions")))
    if lists.get("ports"):                      # a list without any is refused
        found.append(around(24, these(1, "ports")))
    return bytes([0, 0, 1, 0, 1, *bytes(11)]) + b"".join(among("kept", [*found, names]))


class Made:
    """Messages of one interface, each with lists that were altered, and which pairs of them are compared. Of calm ones
    `numbers` has the bytes of each value, by list and number, of texts how they are shown; `orders` has the
    values of each list in their order."""

    def __init__(self, rng, names, is_calm, count):
        """A calm list has values with numbers of their own alone, as kernels have them."""
        lists, self.digits, self.numbers = {name: Port() if name in PORT else [] for name in names}, [], []
        self.orders = []
        for _ in range(count):
            one = rng.choice(names) if rng.random() < 0.5 else None
            lists = {name: beside(rng, name, values, is_calm) if one is None else values if one != name else
                     moved(rng, name, values) for name, values in lists.items()}
            self.digits.append(spelled(rng, lists, is_calm).hex().encode())
            self.orders.append({name: [it.shown if name in TEXTS else it.sorted if isinstance(it, Kept) else it.payload
                                       for it in values] for name, values in lists.items()})
            self.numbers.append({name: values.said if name in PORT else [it.shown for it in values] if name in TEXTS
                                 else {it.number: it.sorted for it in values} for name, values in lists.items()})
        at, self.order = 0, []
        for _ in range(count * EACH):
            self.order.append(at)
            at = min(max(at + rng.choice([-2, -1, -1, 1, 1, 2]), 0), count - 1)
            at = rng.randrange(count) if rng.random() < 0.1 else at


def are_as_said(rows, wanted, alone):
    """Whether the numbers of these values are told, and one that stands on one side alone by its one value there."""
    found = {}
    for it, row in rows:
        if it is None:
            return False
        found.setdefault((it[1], int(it[2])), []).append((it[3] is None, [*row][1:]))
    return found.keys() == wanted and all(
        told == [(True, [alone[it]])] if it in alone else not any(is_whole for is_whole, _ in told)
        for it, told in found.items())


def vlan_rows(path, was, now):
    """What is to be told of VLANs, by what was to be said of each."""
    def said(vid, by):
        flags, id_ = by.get(vid, (None, None))
        return flags, None if id_ is None else id_ - vid

    def value(vid, last, by):
        flags, id_ = by[vid]
        names = [name for bit, name in NAMES.items() if flags & bit] + [it for it in [flags & ~103] if it]
        end = {} if last == vid else {"vid-end": last} if id_ is None else {"id-end": by[last][1], "vid-end": last}
        return {**({} if id_ is None else {"id": id_}), "flags": names, "vid": vid, **end}

    out = []
    for side, own, others in ("old", was, now), ("new", now, was):
        differ = [it for it in own if said(it, own) != said(it, others) and (side == "old" or it not in others)]
        for _, run in itertools.groupby(enumerate(differ), lambda it: (
                it[1] - it[0], said(it[1], own), said(it[1], others))):
            run = [vid for _, vid in run]
            at = f"{path}={run[0]}]" if len(run) == 1 else f"{path}={run[0]}-{run[-1]}]"
            one = value(run[0], run[-1], own)
            if run[0] not in others:
                out.append({"path": at, side: one})
            else:
                other = value(run[0], run[-1], others)
                out += [{"path": f"{at}.{name}", "old": one[name], "new": other[name]}
                        for name in ("id", "flags") if one.get(name) != other.get(name)]
    return out


def text_rows(path, was, now):
    """What is to be told of texts, by how many of them stand in front in the own list."""
    return [{"path": f"{path}[]", side: it} for side, own, others in (("old", was, now), ("new", now, was))
            for at, it in enumerate(own) if own[:at].count(it) >= others.count(it)]


def without_order(value):
    """A value as a text, with the values of each list in an order that does not depend on theirs."""
    if isinstance(value, dict):
        return json.dumps({name: without_order(it) for name, it in sorted(value.items())})
    return json.dumps(sorted(map(without_order, value)) if isinstance(value, list) else value)


def hold_orders(rows, was, now, pair):
    """Holds what is told of lists in another order to their bytes; returns how many lists were told."""
    lists = {**TEXTS, **{name: path.rpartition("[")[0] for name, path in PATHS.items()}}
    found = {it["path"]: it for it in rows}
    for of, own in was.items():
        it, is_moved = found.get(lists[of]), own != now[of]
        if it and not is_moved or is_moved and not it and of not in PORT and sorted(own) == sorted(now[of]):
            sys.exit(f"keyed: of {of} in another order is told {it}:\n{pair}")
        if it and of not in PORT and without_order(it["old"]) != without_order(it["new"]):
            sys.exit(f"keyed: told is a list with other values: {it}:\n{pair}")
    return sum(lists[of] in found for of in was)


def hold_numbers(made, found):
    """Holds what is told of each calm pair to the bytes; returns how many values were told, how many as a whole, how
    many texts, and how many lists in another order."""
    by_time, count, whole, texts, orders = {}, 0, 0, 0, 0
    for it in found:
        it = json.loads(it)
        by_time[int(it["time"])] = it.get("changes", [])
        if "fault" in it:
            sys.exit(f"keyed: {it}")
    for time, (one, other) in enumerate(zip(made.order, made.order[1:]), 1):
        was, now = made.numbers[one], made.numbers[other]
        names, rows = [it for it in was if it not in PORT and it not in TEXTS], by_time.get(time, ())
        pair = f"{made.digits[one].decode()}\n{made.digits[other].decode()}"
        wanted = {(PATHS[name], number) for name in names for number in {*was[name], *now[name]}
                  if was[name].get(number) != now[name].get(number)}
        alone = {(PATHS[name], number): side for name in names for side, own, others in
                 (("old", was[name], now[name]), ("new", now[name], was[name])) for number in {*own} - {*others}}
        for name in PORT if "vlans" in was else ():
            own = [it for it in rows if it["path"].startswith(PATHS[name])]
            if own != vlan_rows(PATHS[name], was[name], now[name]):
                sys.exit(f"keyed: of {name} is told {own}, and not {vlan_rows(PATHS[name], was[name], now[name])}:\n"
                         + pair)
            rows = [it for it in rows if it not in own]
            count += len(own)
            whole += sum(it["path"][-1] == "]" for it in own)
        for name in {*TEXTS} & {*was}:
            wants = text_rows(TEXTS[name], was[name], now[name])
            own = [it for it in rows if it["path"] == TEXTS[name] + "[]"]
            if own != wants:
                sys.exit(f"keyed: of {name} is told {own}, and not {wants}:\n{pair}")
            rows = [it for it in rows if it not in own]
            texts += len(own)
        if one != other and not wanted and len(rows) == len(by_time.get(time, ())):
            orders += hold_orders(rows, made.orders[one], made.orders[other], pair)
        # a list without values stands in an object that may be told as empty
        paths = *PATHS.values(), *TEXTS.values()
        empty = {"state", *(it["path"] for it in rows if any(path.startswith(it["path"]) for path in paths))}
        labels = [(LABEL.fullmatch(it["path"]), it) for it in rows if it["path"] not in empty]
        if not are_as_said(labels, wanted, alone):
            sys.exit(f"keyed: told is {rows}, and {sorted(wanted)} differ, and {sorted(alone)} are in one message:\n"
                     + pair)
        count += len(wanted)
        whole += len(alone)
    return count, whole, texts, orders


def hold(programs, made, options):
    """Holds what is told of the pairs to the model; returns the lines."""
    linkdiff, linkshow = f"{programs}/linkdiff", f"{programs}/linkshow"
    known, model = told.messages(linkshow, options, made.digits, [None]), told.Model(options)
    lines = [b"time=%d %s" % (time, made.digits[at]) for time, at in enumerate(made.order)]
    wanted = [it.encode() for line in lines for it in model.take(told.Line(line, known))]
    found = told.said(linkdiff, options, b"".join(it + b"\n" for it in lines))
    for one, other in zip([*found, b"nothing"], [*wanted, b"nothing"]):
        if one != other:
            sys.exit(f"keyed: {' '.join(['linkdiff', *options])} tells\n{one.decode()}\nand not\n{other.decode()}")
    return found


def main():
    parser = argparse.ArgumentParser()
    parser.add_argument("--pairs", type=int, default=20000)
    parser.add_argument("--seed", type=int, default=1)
    parser.add_argument("folder", nargs="?", default="out")
    words = parser.parse_args()
    rng, sums, again, nameless, others = random.Random(words.seed), (0, 0, 0, 0), 0, 0, 0
    for options in [], ["--counters"], ["--lenient"], ["--counters", "--lenient"]:
        pairs = words.pairs // 4 if "--lenient" in options else words.pairs
        lines = changed = 0
        for names in BRIDGE, VLAN, MACVLAN, BOND:
            for is_calm in False, True:
                made = Made(rng, names, is_calm, -(-pairs // 8 // EACH))
                found = hold(words.folder, made, options)
                lines += len(made.order)
                changed += sum(b'"change":"changed"' in it for it in found)
                again += sum(len(re.findall(rb"=[0-9]+#", it)) for it in found)
                nameless += sum(len(re.findall(rb"[a-z]#[0-9]", it)) for it in found)
                others += sum(len(re.findall(rb"other\[number=", it)) for it in found)
                if is_calm:
                    sums = [sum(it) for it in zip(sums, hold_numbers(made, found))]
        print(f"keyed: {' '.join(['linkdiff', *options])}: {lines} lines, {changed} changed: as the model")
    print(f"keyed: {sums[0]} values that differ in bytes, {sums[1]} of them in one message alone; {sums[2]} texts, "
          f"{sums[3]} lists in another order; {again} paths of a number that came before, {nameless} of none, {others} "
          "of attributes that are kept")
    print("keyed: ok")


if __name__ == "__main__":
    main()
