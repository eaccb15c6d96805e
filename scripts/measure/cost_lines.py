"""The lines that costs.py counts over: `python3 scripts/measure/cost_lines.py WORKLOAD` writes those of a workload.

They are made of the stored messages in bench/messages.txt, and of messages that another may send to make a program
slow. Nothing is left to chance, so that they are the same each time."""
import collections
import os
import struct
import sys

sys.path.append(f"{os.path.dirname(os.path.dirname(os.path.abspath(__file__)))}/test")
from shared import HEADER_SIZE, TOP, attribute, read

sys.path.append(f"{TOP}/tests/linkdump")
from captures import cooked, pcap
from captures import message as netlink

NEW = 16
IFLA_MTU, IFLA_TXQLEN, IFLA_IFALIAS, IFLA_VFINFO_LIST, IFLA_STATS64 = 4, 13, 20, 22, 23
IFLA_PROP_LIST, IFLA_ALT_IFNAME = 52, 53
# a number that no kernel sends, and those above it
UNKNOWN = 200
HEAD = struct.pack("<BBHiII", 0, 0, 1, 7, 0, 0)


def u32(number):
    return struct.pack("<I", number)


def turns(attributes, times=4):
    """Messages of one interface with the attributes that a function says for 0 and for 1, in turn."""
    return [HEAD + attributes(is_on) for is_on in (0, 1) * times]


def turning(attributes):
    """Two messages with these attributes, and with two MTUs, so that linkdiff tells something."""
    return turns(lambda is_on: attribute(IFLA_MTU, u32((1500, 9000)[is_on])) + attributes, 1)


# ** messages as kernels send them

def counters(number):
    """The statistics of a virtual function: all differ."""
    return attribute(8, b"".join(attribute(kind, struct.pack("<Q", number + kind)) for kind in (*range(6), 7, 8)))


def function(number):
    """One virtual function: its address, VLAN, a switch and statistics."""
    of = u32(number)
    vlan = of + struct.pack("<II", number % 4095, 0)
    parts = [attribute(1, of + b"\2" + struct.pack(">I", number) + bytes(27)), attribute(2, vlan),
             attribute(12, attribute(1, vlan + b"\x81\0\0\0")), attribute(4, of + u32(1)), counters(number * 1009)]
    return b"".join(parts)


def functions(count, of=function):
    """So many virtual functions of a card."""
    return attribute(IFLA_VFINFO_LIST, b"".join(attribute(1, of(number)) for number in range(count)))


def damaged(number, message):
    """One byte changed, or the end cut off, or a length too large, in turn."""
    at = HEADER_SIZE + number * 53 % (len(message) - HEADER_SIZE)
    start = at // 4 * 4
    return (message[:at] + b"\xff" + message[at + 1:], message[:at // 2],
            message[:start] + b"\xff\xff" + message[start + 2:])[number % 3]


# ** what another may send to make a program slow

def names(text, count):
    """So many alternative names, all with this text."""
    return attribute(IFLA_PROP_LIST, attribute(IFLA_ALT_IFNAME, text) * count)


def settings(count):
    """A card with so many virtual functions, whose settings are all 0 in a line, and all 1 in the next, as no counter
    turns: what is looked for among counters, and is none."""
    return turns(lambda is_on: functions(count, lambda number: b"".join(
        attribute(kind, u32(number) + u32(is_on)) for kind in (3, 4, 7, 9)) + counters(7)))


def swapped(count):
    """A card with so many virtual functions, each second of which has a setting, and in the next line the others."""
    return turns(lambda is_on: functions(count, lambda number: attribute(4, u32(number) + b"\1\0\0\0")
                                         + attribute(3, u32(number) + u32(100)) * (number % 2 == is_on)))


def repeated(kind, payload, count):
    """An attribute so many times, beside a queue length that turns."""
    return turns(lambda is_on: attribute(kind, payload) * count + attribute(IFLA_TXQLEN, u32(1000 + is_on)))


def refused(count, step):
    """So many attributes that are refused, of three bytes: with a step of 1 MTUs and queue lengths, each the other in
    the next line; with one of 0 MTUs in a line, and queue lengths in the next."""
    return turns(lambda is_on: b"".join(attribute((IFLA_MTU, IFLA_TXQLEN)[(at * step + is_on) % 2], u32(at)[:3])
                                        for at in range(count)), 2)


def long(size):
    """Half texts and half names, all in so many bytes, and an MTU that turns."""
    text = attribute(IFLA_IFALIAS, b"a text " * 8000)
    listed = names(b"a name of thirty bytes, or so\0", 1800)
    return turning((text + listed) * (size // len(text + listed)))


def aliases(size, count, end=b""):
    """What an interface has as alias in so many messages: a text of this size, which differs each time."""
    return [attribute(IFLA_IFALIAS, (b"x", b"y")[at % 2] * size + end) for at in range(count)]


def workloads():
    """The bytes of each workload, a line for each message, by name."""
    of = collections.defaultdict(list)      # the stored messages by the word in front of them
    for kind, digits in map(str.split, read("bench/messages.txt").splitlines()):
        of[kind].append(bytes.fromhex(digits))
    dumps, first, again = of["dump"], of["first"], of["again"]
    kept = names(b"a name of twenty\0", 320)
    listed = [attribute(IFLA_ALT_IFNAME, b"name%d\0" % number) for number in range(256)]
    # numbers that no kernel sends
    unknown = [attribute(1000 + number, b"kept") for number in range(2048)]
    # of messages alone; those that the calls of the library take are among them
    messages = {
        "dumps": dumps,
        "repeats": first + again,
        "events": of["event"],
        "collide": [message[:4] + struct.pack("<i", 1 + at % 5) + message[8:] for at, message in enumerate(dumps)],
        "requests": of["request"],
        "functions-128": turning(functions(128)),
        "functions-300": turning(functions(300)),
        "damaged": [damaged(at, message) for at, message in enumerate(dumps)],
        "names-of-three": turning(names(b"\1\1\1", 7500)),
        "names-of-a-quote": turning(names(b'"', 7500)),
        # an MTU of three bytes, so often that a walk which begins anew at each would be seen
        "all-refused": turning(attribute(IFLA_MTU, b"\1\2\3") * 7500),
        "late-quote": [HEAD + alias for alias in aliases(7999, 2, b'"')],
        "settings-64": settings(64),
        "settings-256": settings(256),
        "swapped-64": swapped(64),
        "swapped-256": swapped(256),
        "names-reversed": turns(lambda is_on: attribute(IFLA_PROP_LIST, b"".join(listed[::-1 if is_on else 1]))),
        "stats-repeated": repeated(IFLA_STATS64, bytes(range(200)), 64),
        "mtus-repeated": repeated(IFLA_MTU, u32(1500), 256),
        "refused-turning": refused(256, 1),
        "refused-64": refused(64, 0),
        "refused-256": refused(256, 0),
        "long": long(140_000) + long(1_000_000),
        # half of the message stays
        "turning-alias": [HEAD + kept + alias for alias in aliases(len(kept), 20)],
        # each is kept as it is, and a walk that looked for each of them would be seen
        "unknown-reversed": turns(lambda is_on: b"".join(unknown[::-1 if is_on else 1])),
        # an unknown attribute more in each message
        "growing": [HEAD + b"".join(attribute(UNKNOWN + number, b"kept") for number in range(at)) for at in range(100)],
        # little more than 256 bytes, most of which is one text
        "one-text": [HEAD + alias for alias in aliases(240, 50)],
    }
    # with words in front of their messages, or with digits that are none
    two = [message.hex() for message in turning(b"")]
    lines = {
        "hosts": [f"host=rack{at} {message.hex()}" for it in (first, again) for at in range(3) for message in it],
        "one-host": [f"host=rack {message.hex()}" for message in first + again + dumps + of["event"]],
        "no-digit": ["g" + message.hex()[1:] for message in dumps],
        "words-of-three": ["\1\1\1=\1\1\1 " * 7000 + it for it in two],
        "words-of-a-quote": ['"=" ' * 7000 + it for it in two],
        # the value is a byte that is no UTF-8, as surrogateescape has it
        "word-of-letters": ["\u00e9" * 15000 + '"=\udcff ' + it for it in two],
        "long-key": ["\1" * 1_000_000 + "=1 " + it for it in two],
    }
    lines = {name: [message.hex() for message in it] for name, it in messages.items()} | lines
    return {name: "".join(f"{line}\n" for line in it).encode("utf-8", "surrogateescape") for name, it in lines.items()}


def capture(lines):
    """A capture of an nlmon device with a packet for each line of digits."""
    return pcap((at * 10**9, cooked([netlink(NEW, bytes.fromhex(line.decode()), at)])) for at, line in enumerate(lines))


if __name__ == "__main__":
    sys.stdout.buffer.write(workloads()[sys.argv[1]])
