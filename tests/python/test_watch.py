"""The rules of `Watch` beside the program linkdiff: of each line the same events, on made streams of fifty hosts."""

import json
import os
import random
import subprocess
import sys
import unittest

import linkwire
from linkwire import numbers
from test_calls import TOP, stored

sys.path.insert(0, f"{TOP}/tests/linkdump")
sys.dont_write_bytecode = True
import hosts  # noqa: E402

EVENT = linkwire.build([(numbers.IFLA_EVENT, linkwire.u32(1))])[16:]
LO_EVENT = bytes(16) + EVENT
TYPES = ["type=new "] * 6 + ["type=del ", "type=get ", "type=set ", "type=x ", ""]
LINKDIFF = os.environ.get("LINKDIFF", f"{TOP}/out/linkdiff")
# attributes that are refused, and a second name
REFUSED = [linkwire.build([it])[16:] for it in ((numbers.IFLA_IFALIAS, b"\xe9"), (numbers.IFLA_IFALIAS, b"\xe8"), (
    numbers.IFLA_IFNAME, b"\xe9"), (numbers.IFLA_PROTINFO, b""), (numbers.IFLA_CARRIER_CHANGES, b"\1"), (
    numbers.IFLA_VF_PORTS, [(9, b"")]), (numbers.IFLA_MTU, b"\1"), (numbers.IFLA_LINKINFO, [(1, b"\xe9")]))]
NAME = linkwire.build([(numbers.IFLA_IFNAME, "second")])[16:]


def members(event):
    """What linkdiff writes of an event, but for the words."""
    found = {"change": event.change}
    if event.change == "fault":
        return {"fault": event.fault.cause}
    if event.ifindex is not None:
        found.update({"ifi-family": event.family, "ifi-index": event.ifindex})
        if event.ifname is not None:
            found["ifname"] = event.ifname
    if event.change == "changed":
        found["changes"] = [{"path": it.path, **({"old": it.old} if it.old is not None else {}),
                             **({"new": it.new} if it.new is not None else {})} for it in event.changes]
    return found


def told(options, lines):
    """What linkdiff writes, each with its host and the number of its line, which stands in the place of its time."""
    numbered = "".join(f"time={at} {line}\n" for at, line in enumerate(lines))
    ran = subprocess.run([LINKDIFF, *options], input=numbered, capture_output=True, text=True, check=True, timeout=300)
    found = []
    for it in map(json.loads, ran.stdout.splitlines()):
        at, host = int(it.pop("time")), it.pop("host", "")
        if "fault" in it:
            it = {"fault": it["fault"]}
        found.append((at, host, {key: value for key, value in it.items() if key != "type"}))
    return found


def watched(watch, lines):
    found = []
    for at, line in enumerate(lines):
        try:
            found += [(at, it.host, members(it)) for it in watch.line(line)]
        except ValueError:
            words = dict(word.split("=", 1) for word in line.split() if "=" in word)
            found.append((at, words.get("host", ""), {"fault": "not-hex"}))
    return found


def odd_lines(chance, count):
    """Lines of any sort: damaged, cut, of requests, of words alone, of wireless alone, in capital letters."""
    messages, turn = [it for it, _, _ in stored("linkwire")][:40], 0
    for _ in range(count):
        message = bytearray(chance.choice(messages))
        message[0], message[4:8] = chance.choice((0, 0, 0, 7, 10)), linkwire.u32(chance.randrange(1, 5))
        if chance.random() < .15:
            message[chance.randrange(16, len(message))] = chance.randrange(256)
        if chance.random() < .05:
            message = message[:chance.randrange(len(message) + 1)]
        if chance.random() < .1:
            message += chance.choice((EVENT, EVENT, EVENT, linkwire.build([(numbers.IFLA_EVENT, bytes(3))])[16:]))
        if chance.random() < .3:
            message += linkwire.build([(numbers.IFLA_CARRIER_CHANGES, linkwire.u32(turn))])[16:]
        if chance.random() < .2:
            message += chance.choice([NAME, *REFUSED])
        if chance.random() < .1:
            message[16:] = linkwire.build([(numbers.IFLA_IFNAME, "e0")])[16:] + linkwire.build(
                [(numbers.IFLA_WIRELESS, bytes(chance.choice((4, 8))))])[16:]
        host, type_ = chance.choice(("", "host=a ", "host=b ")), chance.choice(TYPES)
        sort = chance.random()
        turn += sort < .05
        digits = message.hex() if chance.random() < .8 else message.hex().upper()
        yield host + (f"type=begin seq={turn} port=1" if sort < .05 else
                      f"type=done seq={chance.choice((turn, turn, turn, 1))} port=1 family={chance.choice((0, 7, 10))}"
                      if sort < .12 else "type=lost" if sort < .14 else f"{type_}zz" if sort < .16 else
                      "links=4" if sort < .18 else f"{type_}kernel=6.1.0 {chance.choice(('', 'ok '))}{digits}")


def undecoded(found):
    """Of bytes that are no message only that they are none: linkdiff has the first fault, which may be one that lenient
    reading passes over."""
    alike = "not-hex", "unfit", "empty-ports"
    return [(at, host, {"fault": "refused"} if it.get("fault", alike[0]) not in alike else it)
            for at, host, it in found]


@unittest.skipUnless(os.path.exists(LINKDIFF), "linkdiff is not built")
class Rules(unittest.TestCase):
    def compares(self, lines, options=(), **words):
        own = watched(linkwire.Watch(**words), lines)
        wanted = told(options, lines)
        if "--lenient" in options:
            own, wanted = undecoded(own), undecoded(wanted)
        for one, other in zip(own, wanted):
            self.assertEqual(one, other, lines[one[0]])
        self.assertEqual(len(own), len(wanted))
        return len(own)

    def test_streams(self):
        for seed in range(2):
            lines = [line.split(" ", 2) for _, line, _ in hosts.made(seed)]
            lines = [" ".join((host, rest)) for host, _, rest in lines]
            self.assertGreater(self.compares(lines), 2500)
        self.compares(lines, ["--changes-only"], changes_only=True)

    def test_messages(self):
        """Stored messages of kernels, counters, announcements and ends, in any turn."""
        chance, messages = random.Random(1), [(it, kernel) for it, _, kernel in stored("linkwire")]
        lines = []
        for _ in range(1500):
            message, kernel = chance.choice(messages)
            message = bytearray(message)
            message[4:8] = linkwire.u32(chance.randrange(1, 4))
            for it in linkwire.attributes(bytes(message)):
                if it.payload and chance.random() < .1:
                    at = bytes(message).index(bytes(it.payload))
                    message[at] ^= chance.choice((0, 0, 1, 3))
            if chance.random() < .2:  # IFLA_EVENT
                message += EVENT
            lines.append(f"type={chance.choice(('new', 'new', 'new', 'del'))} kernel=6.1.0 {message.hex()}")
        self.assertGreater(self.compares(lines), 500)
        self.compares(lines, ["--counters"], counters=True)

    def test_counters(self):
        lines = ["type=new " + linkwire.build([(numbers.IFLA_CARRIER_CHANGES, linkwire.u32(it))], index=7).hex()
                 for it in (1, 2, 2, 3)]
        self.assertEqual(self.compares(lines), 1)
        self.assertEqual(self.compares(lines, ["--counters"], counters=True), 3)

    def test_odd_lines(self):
        for seed in range(3):
            lines = list(odd_lines(random.Random(seed), 600))
            self.compares(lines)
            self.compares(lines, ["--changes-only"], changes_only=True)
            self.compares(lines, ["--counters"], counters=True)

    def test_lenient(self):
        for seed in range(3):
            lines = list(odd_lines(random.Random(seed), 600))
            self.compares(lines, ["--lenient"], lenient=True)
            self.compares(lines, ["--lenient", "--counters"], lenient=True, counters=True)

    def test_links(self):
        watch = linkwire.Watch()
        one, other = (linkwire.build([(3, name)], index=it) for it, name in ((1, "a"), (2, "b")))
        self.assertEqual([it.change for it in watch.message(one) + watch.message(other)], ["new", "new"])
        self.assertEqual(watch.links(), {(0, 1): one, (0, 2): other})
        watch.begin("1")
        watch.message(other)
        (gone,) = watch.done("1", 0)
        self.assertEqual((gone.change, gone.ifname, gone.message), ("gone", "a", one))
        self.assertEqual(watch.done("1", 7) + watch.message(other) + watch.begin("2") + watch.done("1", 0), [])
        self.assertNotIn("message", repr(gone))

    def test_fault(self):
        """What is refused is as it came, and with its own offset."""
        message = LO_EVENT + linkwire.build([(numbers.IFLA_IFALIAS, b"\xe9")])[16:]
        for is_gone in False, True:
            fault, = linkwire.Watch().message(message, is_gone)
            self.assertEqual((fault.message, fault.fault.message, fault.fault.offset), (message, message, 24))

    def test_dumps(self):
        """Where a dump was whole, and where all is whole again after a loss."""
        watch, one = linkwire.Watch(dumps=True), linkwire.build([(3, "a")], index=1).hex()
        found = [[(it.change, it.host, it.family, it.time) for it in watch.line(f"host=h time=t{at} {line}")]
                 for at, line in enumerate((
                     "type=begin seq=1 port=9", f"type=new {one}", "type=done seq=1 port=9 family=0",
                     "type=begin seq=2 port=9", "type=done seq=2 port=9 family=7", "type=begin seq=3 port=9",
                     "type=lost", "type=done seq=3 port=9 family=0", "type=begin seq=4 port=9",
                     "type=done seq=4 port=9 family=7", "type=begin seq=5 port=9", "type=done seq=5 port=9 family=0",
                     "type=begin seq=6 port=9", "type=done seq=6 port=9 family=0", "type=done seq=6 port=9 family=0"))]
        self.assertEqual(found, [
            [], [("new", "h", 0, "t1")], [("done", "h", 0, "t2")], [], [("done", "h", 7, "t4")], [],
            [("lost", "h", None, "t6")], [("gone", "h", 0, "t7"), ("done", "h", 0, "t7")], [], [("done", "h", 7, "t9")],
            [], [("done", "h", 0, "t11"), ("again", "h", None, "t11")], [], [("done", "h", 0, "t13")],
            [("done", "h", 0, "t14")]])
        self.assertEqual((watch.hosts(), watch.whole("h"), watch.whole("x")), (["h"], {0, 7}, frozenset()))
        watch = linkwire.Watch(dumps=True)
        watch.lost()
        watch.begin("1")
        self.assertEqual([it.change for it in watch.done("1", 0)], ["done", "again"])
        self.assertEqual([it.change for it in linkwire.Watch().lost() + linkwire.Watch().done("1", 0)], ["lost"])

    def test_first(self):
        """`changes_only` leaves out those that are `is_first`: before a dump of the family is whole."""
        watch = linkwire.Watch()
        one, other = (linkwire.build([(18, [(1, kind)])], index=7) for kind in ("veth", "dummy"))
        events = watch.message(one) + watch.message(other)
        self.assertEqual([(it.change, it.is_first) for it in events], [("new", True), ("gone", False), ("new", False)])
        watch.begin("1")
        watch.done("1", 0)
        events = watch.message(linkwire.build(index=9)) + watch.message(linkwire.build(index=9, family=7))
        self.assertEqual([it.is_first for it in events], [False, True])

    def test_json(self):
        """The line of linkdiff, in ASCII, with words of the line, or its own time and host."""
        watch, message = linkwire.Watch(), linkwire.build([(3, "é")], index=7)
        (new,) = watch.message(message, host="h", time="t")
        self.assertEqual(new.json(), '{"time":"t","host":"h","change":"new","ifi-family":0,"ifi-index":7,'
                                     '"ifname":"\\u00e9"}')
        self.assertEqual(json.loads(new.json("type=new x=y host=\udce9")), {
            "type": "new", "host": "e9", "change": "new", "ifi-family": 0, "ifi-index": 7, "ifname": "é"})
        (changed,) = watch.message(message + linkwire.build([(4, linkwire.u32(9))])[16:], host="h")
        self.assertEqual(json.loads(changed.json())["changes"], [{"path": "mtu", "new": 9}])
        (fault,) = watch.message(message + b"\5\0", host="h")
        self.assertEqual(json.loads(fault.json())["fault"], "frame-short")
        (lost,) = watch.lost()
        self.assertEqual(lost.json(), '{"change":"lost"}')

    def test_when(self):
        for time, wanted in (("2026-11-28T10:00:00.123456789Z", "2026-11-28 10:00:00.123456+00:00"), ("", "None"),
                             ("2026-11-28T10:00:00Z", "None"), ("2026-13-28T10:00:00.123456789Z", "None")):
            self.assertEqual(str(linkwire.Event("lost", "", time=time).when), wanted)

    def test_compared(self):
        """What one watch knows of a host beside what another does; without whole dumps not what came, or went."""
        def link(index, mtu):
            return linkwire.build([(4, linkwire.u32(mtu))], index=index)

        old, new = linkwire.Watch(), linkwire.Watch()
        for watch, links in ((old, [(1, 10), (2, 20), (3, 30)]), (new, [(2, 20), (3, 31), (4, 40)])):
            for it in links:
                watch.message(link(*it), host="h")
        for came in True, False:
            for went in True, False:
                told = [(it.change, it.ifindex, it.is_first) for it in old.compared(new, "h", came, went)]
                self.assertEqual(told, [("changed", 3, False), ("new", 4, not came), ("gone", 1, False)][:2 + went])
        self.assertEqual((old.compared(old, "h"), old.compared(new, "x")), ([], []))

    def test_names(self):
        """A link has its last name that is a text."""
        watch = linkwire.Watch(lenient=True)
        for index, (names, wanted) in enumerate(((["a", "b"], "b"), (["a", b"\xe9"], "a"), ([b"\xe9"], None),
                                                 ([b"\xe9", "b", b"\xe8"], "b"), ([], None)), 1):
            (new,) = watch.message(linkwire.build([(3, it) for it in names], index=index))
            self.assertEqual(new.ifname, wanted)


class Lines(unittest.TestCase):
    def test_lines(self):
        for line, wanted in (("00", ({}, b"\0")), ("host=a type=new 00FF\n", ({"host": "a", "type": "new"}, b"\0\xff")),
                             ("type=done seq=1", ({"type": "done", "seq": "1"}, None)),
                             ("a=1 a=2 ok 00", ({"a": "1"}, b"\0")),
                             ("a= 00", ({"a": ""}, b"\0")), ("type=lost \t", ({"type": "lost"}, None)),
                             ("", ({}, b"")), ("a=1 ok ", ({"a": "1"}, b""))):
            self.assertEqual(linkwire.read_line(line), wanted)
        for line in ("0", "0g", "ok", "a=1 ok", " 00", "a=1 ok  00", "00 00", "a=1 refused 00", "=1 00", "٠٠"):
            self.assertRaisesRegex(ValueError, "^neither words alone nor hex", linkwire.read_line, line)
        with self.assertRaises(ValueError):
            linkwire.Watch().line("host=a xyz")


if __name__ == "__main__":
    unittest.main()
