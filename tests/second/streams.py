"""Streams of lines that a seed makes, for laws.py: messages of a few interfaces that resemble each other, in dumps that
are whole or cut, and announcements; lines that are refused, requests, and words."""
import struct

import second

KERNELS = None, b"6.18.0", b"6.1"
FAMILIES = 0, 7, 10, 255
INDICES = 1, 2, 0xffffffff
WIRELESS = struct.pack("<HH4xH", 10, 0x8c07, 1)

RARE = b"type=del ", b"a=b=c ", b"x=\xff ", b"host=late ", b"host= ", b"time=1\t", b"type=\t "


def attribute(kind, payload):
    return struct.pack("<HH", 4 + len(payload), kind) + payload + bytes(-len(payload) % 4)


def u32(*numbers):
    return struct.pack(f"<{len(numbers)}I", *numbers)


def text(it):
    return it + b"\0"


# ** attributes, each by a slot of its own: of these a message has some

def link_info(rng):
    kind = rng.choice([b"veth", b"bridge", b"bridge", b"vxlan", b"can"])
    inside = [attribute(1, rng.choice([text(kind), kind]))] * rng.choice([1, 1, 1, 1, 0])
    if kind == b"bridge" and rng.random() < 0.5:
        inside.append(attribute(2, attribute(16, struct.pack("<Q", rng.randrange(2)))
                                + attribute(1, u32(rng.choice([100, 200])))))
    if kind == b"can" and rng.random() < 0.5:
        inside += [attribute(2, attribute(8, struct.pack("<HH", *rng.choices(range(2), k=2)))),
                   attribute(3, bytes(rng.choices(range(2), k=24)))]
    if rng.random() < 0.3:
        slave = rng.choice([b"bridge", b"bond"])
        inside += [attribute(4, text(slave)), attribute(5, attribute(21, struct.pack("<Q", rng.randrange(2)))
                                                       + attribute(1, bytes([rng.randrange(2)])))]
    if rng.random() < 0.05:
        inside.append(attribute(1, text(rng.choice([b"veth", b"bridge"]))))
    return attribute(18, b"".join(inside)) if inside or rng.random() < 0.3 else b""


def inet6(rng):
    counters = [rng.choice([36, 37, 38]), *[rng.randrange(2) for _ in range(rng.choice([1, 37]))]]
    return b"".join([attribute(1, u32(rng.choice([0, 1 << 31]))), attribute(2, u32(*[rng.randrange(2)] * 4)),
                     attribute(3, struct.pack(f"<{len(counters)}Q", *counters)),
                     attribute(5, u32(65535, rng.randrange(2), rng.randrange(2), 1))])


def vlans(rng, is_tunnels):
    """VLANs or tunnels of a bridge's port, alone and in ranges; one list in eight is out of order, as no kernel has
    it."""
    out, ends = [], sorted(rng.sample(range(10, 24), 2 * rng.choice([0, 1, 1, 2, 3])))
    for first, last in zip(ends[::2], ends[1::2]):
        flags, ahead = rng.randrange(2), rng.choice([0, 1000])
        for vid, end in rng.choice([[(first, 8), (last, 16)], [(first, 8), (last, 16)], [(first, 0)],
                                    [(it, 0) for it in range(first, last + 1)]]):
            parts = [attribute(1, u32(vid + ahead)), attribute(2, struct.pack("<H", vid)),
                     attribute(3, struct.pack("<H", flags | end))]
            out.append(attribute(3, b"".join(parts)) if is_tunnels else
                       attribute(2, struct.pack("<HH", flags | end, vid)))
    if rng.random() < 0.125:
        rng.shuffle(out)
    return b"".join(out)


def af_spec(rng, family):
    if family == 7:
        return attribute(26, vlans(rng, False) + (vlans(rng, True) if rng.random() < 0.3 else b""))
    return attribute(26, attribute(10, inet6(rng)) + attribute(2, attribute(1, u32(*[rng.randrange(2)] * 3))))


def protocol(rng, family):
    if family == 10:
        return attribute(12, inet6(rng))
    return attribute(12, attribute(1, bytes([rng.choice([3, 4])]))
                     + attribute(21, struct.pack("<Q", rng.randrange(2))))


def alias(rng):
    return attribute(20, rng.choice([b"one\0", b"two", b'"\\\xc3\xa9', b"\xe9", b"\xe8", b""]))


def stats(rng):
    return attribute(23, struct.pack("<25Q", *[rng.randrange(2)] * 25))


def functions(rng):
    found = [attribute(1, attribute(2, u32(rng.choice([0, 0, 1]), rng.choice([0, 100]), 0))
                       + attribute(8, attribute(0, struct.pack("<Q", rng.randrange(2)))))
             for _ in range(rng.choice([1, 2]))]
    return attribute(22, b"".join(found))


def kept(rng, family):
    """Attributes of numbers that no table has, some twice and in no order, alone and in a list that has rows."""
    found = [attribute(rng.choice([70, 300, 301, 0x8000 | 301]), bytes(rng.choices(range(2), k=rng.randrange(2))))
             for _ in range(rng.randrange(5))]
    if family == 0 and rng.random() < 0.3:
        return attribute(52, b"".join([attribute(53, text(b"alt")), *found]))
    return b"".join(found)


def texts(rng, kind, payloads):
    """A list of attributes of one kind or, where that is None, of one for each place; some of it twice."""
    found = rng.choices(payloads, k=rng.choice([0, 1, 2, 2, 3]))
    return b"".join(attribute(at if kind is None else kind, it) for at, it in enumerate(found))


def text_lists(rng):
    """The targets of a bond, or the addresses of a macvlan."""
    if rng.random() < 0.3:
        kind, inside = b"macvlan", attribute(5, texts(rng, 4, [bytes([2, 0, 0, 0, 0, it]) for it in range(3)] + [b"o"]))
    else:
        targets = rng.choice([texts(rng, None, [bytes([10, 0, 0, it]) for it in range(3)])] * 5 + [b"\1\2"])
        kind, inside = b"bond", attribute(8, targets) + (
            attribute(31, texts(rng, None, [bytes([32, *bytes(14), it]) for it in range(2)]))
            if rng.random() < 0.5 else b"")
    return attribute(18, attribute(1, text(kind)) + attribute(2, inside))


SLOTS = {
    "name": lambda rng, f, i: attribute(3, text(rng.choice([b"e%d", b"e%d", b"long%d"]) % (i & 15))),
    "mtu": lambda rng, f, i: rng.choice([attribute(4, u32(rng.choice([1500, 9000])))] * 12 + [attribute(4, b"\1\2")]),
    "state": lambda rng, f, i: attribute(16, bytes([rng.choice([2, 6])])),
    "info": lambda rng, f, i: link_info(rng) if f in (0, 7) else b"",
    "carrier": lambda rng, f, i: attribute(35, u32(rng.randrange(3))),
    "alias": lambda rng, f, i: alias(rng) if rng.random() < 0.4 else b"",
    "stats": lambda rng, f, i: stats(rng) if rng.random() < 0.3 else b"",
    "functions": lambda rng, f, i: functions(rng) if rng.random() < 0.1 else b"",
    "settings": lambda rng, f, i: af_spec(rng, f) if rng.random() < 0.5 else b"",
    "protocol": lambda rng, f, i: protocol(rng, f) if f in (7, 10) else b"",
    "unknown": lambda rng, f, i: attribute(300, bytes([rng.randrange(2)])) if rng.random() < 0.2 else b"",
    "kept": lambda rng, f, i: kept(rng, f) if rng.random() < 0.4 else b"",
    "names": lambda rng, f, i: attribute(52, texts(rng, 53, [b"a\0", b"b\0", b"c", b"d"])) if f == 0 else b"",
    "lists": lambda rng, f, i: text_lists(rng) if f == 0 and rng.random() < 0.3 else b"",
}


def singles(b):
    """A list of VLANs, of which each in a range has a value of its own."""
    out, begun = [], None
    for _, kind, it in second.each(b):
        flags, vid = struct.unpack("<HH", it) if kind == 2 else (0, 0)
        if flags & 8:
            begun = vid
            continue
        out += [attribute(2, struct.pack("<HH", flags & ~16, at)) for at in range(vid if begun is None else begun, vid)]
        out.append(attribute(kind, it if begun is None else struct.pack("<HH", flags & ~16, vid)))
        begun = None
    return b"".join(out)


def turned(b):
    """Attributes in another order, and so inside some of them; of VLANs those of ranges one by one."""
    out = [attribute(kind, singles(it) if kind == 26 else turned(it) if kind in (22, 52) else it)
           for _, kind, it in second.each(b)]
    return b"".join(reversed(out))


def put_together(rng, family, index, flags, slots):
    """A message of these attributes, in this order or now and then in another one, some of them twice."""
    parts = list(filter(None, slots.values()))
    chance = rng.random()
    if chance < 0.06 and parts:
        parts.insert(rng.randrange(len(parts)), rng.choice(parts))
    elif chance < 0.1:
        rng.shuffle(parts)
    elif chance < 0.16:
        parts.append(attribute(44, u32(rng.choice([0, 4]))))
    elif chance < 0.18:
        parts.append(attribute(11, WIRELESS))
    elif chance < 0.2:
        parts.append(rng.choice([b"\5\0\3", b"\3\0\4\0", b"\xff\0\4\0"]))
    return struct.pack("<BBHIII", family, 0, 1, index, flags, rng.randrange(2)) + b"".join(parts)


def variants(rng, family, index, count, names):
    """Messages of one interface, of which each differs from the one before it in little."""
    slots = {name: SLOTS[name](rng, family, index) for name in names if rng.random() < 0.8}
    flags, out = 1, []
    for _ in range(count):
        if "names" in names and rng.random() < 0.5:
            name = rng.choice(["names", "names", "kept", "settings" if family == 7 else "functions"])
            slots[name] = turned(slots[name]) if slots.get(name) else SLOTS[name](rng, family, index)
        else:
            for name in rng.sample(names, rng.choice([0, 1, 1, 2])):
                slots[name] = SLOTS[name](rng, family, index)
            flags = rng.choice([flags, flags, 1, 65])
        out.append(put_together(rng, family, index, flags, slots))
    out.append(struct.pack("<BBHIII", family, 0, 1, index, 1, 0) + rng.choice([b"", attribute(3, b"w\0")])
               + attribute(11, rng.choice([WIRELESS, WIRELESS, b""])))
    return out


class Pool:
    """What lines spell: by family and index the digits of some messages with attributes of these names, and digits that
    are of no interface."""

    def __init__(self, rng, names=tuple(SLOTS)):
        self.by_key = self.calm = {
            (family, index): [it.hex().encode() for it in variants(rng, family, index, 14, names)]
            for family in FAMILIES for index in INDICES}
        self.blind = [b"zz", b"00", b"0", b"00" * 15, b"refused", b"ok"]
        self.all = [*self.blind, *[it for row in self.by_key.values() for it in row], b""]
        self.keys = [key for key in self.by_key
                     for _ in range((6, 3, 2, 1)[FAMILIES.index(key[0])] * (6, 3, 1)[INDICES.index(key[1])])]


# ** streams

class Writer:
    """The lines of one host: `name` is None where they have no word host=."""

    def __init__(self, rng, pool, name):
        self.rng, self.pool, self.by_key, self.lines = rng, pool, pool.by_key, []
        self.number, self.port, self.last = rng.randrange(3), rng.randrange(2), {}
        self.keys = [rng.choice(pool.keys) for _ in range(rng.choice([2, 3, 5, 8]))]
        self.host, self.kernel = b"" if name is None else b"host=" + name + b" ", rng.choice(KERNELS)

    def put(self, words, digits=b""):
        rng, front = self.rng, self.host + words
        kernel = self.kernel if rng.random() < 0.97 else rng.choice(KERNELS)
        if digits and kernel is not None:
            front += b"kernel=" + kernel + b" "
        if rng.random() < 0.02:
            front += rng.choice(RARE)
        if digits and rng.random() < 0.1:
            digits = rng.choice([b"ok " + digits, digits.upper() if second.is_hex(digits) else digits])
        self.lines.append(front + digits if digits or front else b"x=y")

    def message(self, key=None, words=None):
        rng = self.rng
        key = key or rng.choice(self.keys)
        if words is None:
            words = rng.choice([b"type=new ", b"type=new ", b"type=new ", b"", b"type=other "])
        if key not in self.last or rng.random() < 0.85:
            self.last[key] = rng.choice(self.by_key[key])
        self.put(words, self.last[key])

    def dump_word(self, what, *words, seq=None):
        rng, at = self.rng, self.number if seq is None else seq
        found = [b"seq=%d" % at, b"port=%d" % self.port, *words]
        if rng.random() < 0.03:
            found.pop(rng.randrange(len(found)))
        self.put(b"type=" + what + b" " + b" ".join(found) + b" ")

    def dump(self):
        """A dump, most often whole, with an announcement between its lines now and then."""
        rng = self.rng
        self.number += 1
        self.dump_word(b"begin")
        wanted = sorted({rng.choice(self.keys) for _ in range(rng.randrange(5))})
        for key in wanted if rng.random() < 0.8 else reversed(wanted):
            self.message(key, b"type=new ")
            if rng.random() < 0.08:
                self.one()
        for family in rng.choice([(0,), (0,), (0, 7), (0, 7, 10), (7,), (10, 0), (255,), ()]):
            seq = self.number if rng.random() < 0.9 else self.number - 1
            self.dump_word(b"done", b"family=%d" % family, b"links=3", seq=seq)

    def one(self):
        rng, chance = self.rng, self.rng.random()
        if chance < 0.6:
            self.message()
        elif chance < 0.8:
            self.message(words=b"type=del ")
        elif chance < 0.86:
            self.message(words=rng.choice([b"type=get ", b"type=set "]))
        elif chance < 0.9:
            self.put(rng.choice([b"type=new ", b"", b"type=get ", b"type=del "]), rng.choice(self.pool.blind))
        elif chance < 0.95:
            self.put(rng.choice([b"type=lost ", b"a=b ", b"type=new ", b"type=done seq=1 port=1 family=256 "]))
        else:
            self.dump_word(rng.choice([b"begin", b"done"]), b"family=+0")


def stream(rng, pool, name):
    """The lines of a host, some twelve."""
    it, count = Writer(rng, pool, name), rng.choice([6, 10, 14])
    while len(it.lines) < count:
        if rng.random() < 0.2:
            it.dump()
        else:
            it.one()
    return it.lines


def merged(rng, streams):
    """The lines of all streams, mixed, each with a word time= of its own in front."""
    turns = [at for at, lines in enumerate(streams) for _ in lines]
    rng.shuffle(turns)
    left = [iter(lines) for lines in streams]
    return [b"time=%d " % time + next(left[at]) for time, at in enumerate(turns)]


# ** two dumps

def dump_of(it, families, wanted):
    """Lines of one dump: begin, a line of each of these interfaces, and an end of each family."""
    it.number += 1
    it.dump_word(b"begin")
    for key in wanted:
        it.message(key, b"type=new ")
        if it.rng.random() < 0.01:
            it.put(b"type=new ", it.rng.choice(it.pool.blind))
    for family in families:
        it.dump_word(b"done", b"family=%d" % family)


def two_dumps(rng, pool, name):
    """Two dumps of a host: most have all families of what is there, and stand in the order of a kernel."""
    out, keys = [], sorted({rng.choice(pool.keys) for _ in range(6)})
    wanted = [it for it in keys if rng.random() < 0.7]
    for _ in range(2):
        it = Writer(rng, pool, name)
        it.by_key = pool.calm if rng.random() < 0.7 else pool.by_key
        dump_of(it, rng.choice([(0, 7, 10, 255)] * 6 + [(0,), (7, 0), ()]),
                wanted if rng.random() < 0.9 else wanted[::-1])
        out.append(it.lines)
        wanted = [key for key in keys if (key in wanted) != (rng.random() < 0.2)]
    return out


def timed(lines, start):
    return [b"time=%d " % at + it for at, it in enumerate(lines, start)]
