"""The calls of the package on stored messages of kernels, on damaged ones, and on what is built."""

import array
import copy
import ctypes
import json
import os
import pickle
import random
import re
import threading
import unittest
from unittest import mock

import linkwire
from linkwire import messages, numbers
from linkwire._library import CAUSES, _Library, library

TOP = os.path.dirname(os.path.dirname(os.path.dirname(os.path.abspath(__file__))))
# IFLA_VFINFO_LIST, IFLA_VF_INFO and IFLA_VF_VLAN, which is too short, after an MTU
FUNCTION = bytes.fromhex("0000010007000000000000000000000008000400440000001400160010000100"
                         "0c0002000000000064000000")
LO = linkwire.build([(numbers.IFLA_IFNAME, "lo"), (numbers.IFLA_MTU, linkwire.u32(65536))], index=1, link_type=772)
NAMES = {name for name, _ in CAUSES.values()}


def stored(program):
    with open(f"{TOP}/tests/kernels/messages.txt", encoding="utf-8") as it:
        lines = [line.strip() for line in it if not line.startswith("#")]
    with open(f"{TOP}/tests/kernels/{program}.txt", encoding="utf-8") as it:
        answers = it.read().splitlines()
    with open(f"{TOP}/tests/kernels/messages.txt", encoding="utf-8") as it:
        kernels = [line[2:].split(":")[0] for line in it if line.startswith("#")]
    return [(bytes.fromhex(line), answer.replace("=", line) if program != "linkshow" else answer, kernel)
            for line, answer, kernel in zip(lines, answers, kernels)]


def answered(call, message, *words):
    """What linkwire and linkstate answer."""
    try:
        return "ok " + call(message, *words).hex()
    except linkwire.Fault as fault:
        return f"refused {fault.cause}"


def stored_lenient():
    """Messages, the words in front of them, and what linkshow --lenient and linkstate --lenient answer."""
    with open(f"{TOP}/tests/program/lenient.txt", encoding="utf-8") as it:
        lines = [line.rstrip("\n") for line in it if not line.startswith("#")]
    for line, shown, state in zip(lines[::3], lines[1::3], lines[2::3]):
        try:
            yield (*linkwire.read_line(line), json.loads(shown), re.sub(r"^(\w+=\S* )*", "", state))
        except ValueError:
            continue


def damaged(chance, messages):
    """One of these messages, of which some bytes are others, and which may be cut off."""
    message = bytearray(chance.choice(messages))
    for _ in range(chance.randrange(1, 4)):
        message[chance.randrange(len(message))] = chance.randrange(256)
    return bytes(message[:chance.randrange(len(message) + 1)] if chance.random() < .3 else message)


class Calls(unittest.TestCase):
    def test_encodings(self):
        """Of each stored message, what linkwire and linkstate answer."""
        for program, call in ("linkwire", linkwire.canonical), ("linkstate", linkwire.state):
            for message, answer, _ in stored(program):
                found = answered(call, message)
                self.assertEqual(found.split()[0], answer.split()[0])
                if found.startswith("ok"):
                    self.assertEqual(found, answer)
                    self.assertEqual(call(bytearray(message)), call(memoryview(message)))

    def test_check(self):
        linkwire.check(LO)
        with self.assertRaises(linkwire.Fault) as raised:
            linkwire.check(FUNCTION)
        fault = raised.exception
        self.assertEqual((fault.cause, fault.offset, fault.path), ("too-short", 32, (22, 1, 2)))
        self.assertEqual(str(fault), "a header or record with too few bytes, at byte 32 in IFLA_VFINFO_LIST 1 2")
        again = pickle.loads(pickle.dumps(fault))
        self.assertEqual((str(again), again.path, again.message), (str(fault), fault.path, FUNCTION))
        for wrong in (5, "lo", None):
            self.assertRaises(TypeError, linkwire.check, wrong)

    def test_before(self):
        with self.assertRaises(linkwire.Fault) as raised:
            linkwire.canonical(FUNCTION)
        self.assertEqual(raised.exception.before, {"mtu": 68})

    def test_no_canonical_encoding(self):
        """IFLA_VF_PORTS with another entry than IFLA_VF_PORT, and a text that has no room for its NUL."""
        long = bytes(65531)
        for cause, list_ in ("empty-ports", [(numbers.IFLA_VF_PORTS, [(9, b"")])]), \
                ("unfit", [(numbers.IFLA_IFALIAS, b"a" * len(long))]):
            message = linkwire.build(list_)
            linkwire.check(message)
            for call in linkwire.canonical, linkwire.state, linkwire.key, lambda it: linkwire.same_state(LO, it):
                with self.assertRaises(linkwire.Fault) as raised:
                    call(message)
                self.assertEqual((raised.exception.cause, raised.exception.offset), (cause, None))

    def test_key(self):
        counted = [linkwire.build([(numbers.IFLA_CARRIER_CHANGES, linkwire.u32(it))], index=7) for it in (2, 12)]
        self.assertEqual(*map(linkwire.key, counted))
        self.assertTrue(linkwire.same_state(*counted))
        self.assertFalse(linkwire.same_message(*counted))
        self.assertRegex(linkwire.key(LO), f"^{linkwire.CANONICAL_FORM}.{linkwire.STATE_FORM}:[0-9a-f]{{64}}$")
        self.assertNotEqual(linkwire.key(LO), linkwire.key(counted[0]))

    def test_long(self):
        """Encodings that are longer than the room that a thread keeps."""
        message = linkwire.build([(9999, bytes(65000))] * 5 + [(numbers.IFLA_STATS64, bytes(8))] * 2000)
        self.assertEqual(linkwire.canonical(linkwire.canonical(message)), linkwire.canonical(message))
        self.assertGreater(len(linkwire.canonical(message)), 5 * 65000 + 2000 * 196)

    def test_threads(self):
        """Calls of several threads have the answers of one: long messages, so that they run side by side."""
        messages = [linkwire.build([(9999, bytes([it]) * 15000)] * 4) for it in range(4)]
        wanted, found = [linkwire.canonical(it) for it in messages], {}

        def work(number):
            found[number] = {linkwire.canonical(messages[number]) for _ in range(2000)}

        threads = [threading.Thread(target=work, args=(it,)) for it in range(4)]
        for it in threads:
            it.start()
        for it in threads:
            it.join()
        self.assertEqual([found[it] for it in range(4)], [{it} for it in wanted])

    def test_show(self):
        """Of each stored message the line of linkshow, which its kernel decides."""
        for message, answer, kernel in stored("linkshow"):
            self.assertIn(answer.encode(), [linkwire.show_json(message), linkwire.show_json(message, kernel)])
        self.assertEqual(linkwire.show(LO), {"ifi-family": 0, "ifi-type": 772, "ifi-index": 1, "ifi-flags": [],
                                             "ifi-change": 0, "ifname": "lo", "mtu": 65536})
        self.assertEqual({key: linkwire.show(FUNCTION)[key] for key in ("fault", "at", "before")},
                         {"fault": "too-short", "at": "IFLA_VF_VLAN", "before": {"mtu": 68}})
        long = linkwire.build([(numbers.IFLA_IFALIAS, "é" * 30000)])
        self.assertEqual(linkwire.show(long)["ifalias"], "é" * 30000)
        longer = linkwire.build([(numbers.IFLA_IFALIAS, '"' * 60000)])
        self.assertEqual(linkwire.show(longer)["ifalias"], '"' * 60000)
        messages = [message for message, _, _ in stored("linkshow")] * 5 + [FUNCTION, b""]
        for lenient in False, True:
            self.assertEqual(list(linkwire.show_all(messages, "6.1.0", lenient)),
                             [linkwire.show(it, "6.1.0", lenient) for it in messages])
        self.assertEqual(list(linkwire.show_all([])), [])
        self.assertEqual(linkwire.show(LO, kernel="running"), linkwire.show(LO, kernel="6.1.0"))

    def test_lists(self):
        """An attribute that is a list is one also of one element; changes of VLANs have their numbers."""
        spec, one, other = numbers.IFLA_AF_SPEC, (2, b"\6\0\1\0"), (2, b"\0\0\x05\0")
        alone, both = (linkwire.build([(spec, it)], index=7, family=7) for it in ([one], [one, other]))
        first = {"flags": ["pvid", "untagged"], "vid": 1}
        self.assertEqual([linkwire.show(it)["af-spec"]["vlan-info"] for it in (alone, both)],
                         [[first], [first, {"flags": [], "vid": 5}]])
        self.assertEqual(linkwire.diff(alone, both),
                         [("af-spec.vlan-info[vid=5]", None, {"flags": [], "vid": 5})])
        ranges = [linkwire.build([(spec, [(2, bytes([flags, 0, vid, 0])) for flags, vid in some])], index=7, family=7)
                  for some in (((8, 10), (16, 20)), ((12, 10), (20, 14), (0, 16), (8, 17), (16, 21)))]
        self.assertEqual(linkwire.diff(*ranges), [
            ("af-spec.vlan-info[vid=10-14].flags", [], ["untagged"]),
            ("af-spec.vlan-info[vid=15]", {"flags": [], "vid": 15}, None),
            ("af-spec.vlan-info[vid=21]", None, {"flags": [], "vid": 21})])
        self.assertEqual(linkwire.diff(alone, ranges[0]), [
            ("af-spec.vlan-info[vid=1]", first, None),
            ("af-spec.vlan-info[vid=10-20]", None, {"flags": [], "vid": 10, "vid-end": 20})])
        damaged = [linkwire.build([(spec, [one, *it])], index=7, family=7) for it in ([(2, b"ab")], [(2, b"abc")], [])]
        placed = [(f"af-spec.vlan-info.0.{name}", it, None) for name, it in first.items()]
        self.assertEqual([linkwire.diff(*it) for it in zip(damaged, damaged[1:])],
                         [[("af-spec.vlan-info.1", "6162", "616263")],
                          [*placed, ("af-spec.vlan-info.1", "616263", None),
                           ("af-spec.vlan-info[vid=1]", None, first)]])
        macs = [(18, [(1, "macvlan"), (2, [(4, bytes(6)), (5, [(4, bytes([it] * 6)) for it in some])])])
                for some in ((1,), (1, 2))]
        data = [linkwire.show(linkwire.build([it]))["linkinfo"]["data"] for it in macs]
        texts = ["01:01:01:01:01:01", "02:02:02:02:02:02"]
        self.assertEqual(data, [{"macaddr": "00:00:00:00:00:00", "macaddr-data": {"macaddr": it}}
                                for it in (texts[:1], texts)])
        self.assertEqual(linkwire.diff(*(linkwire.build([it]) for it in macs)),
                         [("linkinfo.data.macaddr-data.macaddr[]", None, texts[1])])
        names = [linkwire.build([(numbers.IFLA_PROP_LIST, [(numbers.IFLA_ALT_IFNAME, it) for it in some])])
                 for some in ("ab", "bca", "acb", "")]
        path = "prop-list.alt-ifname"
        self.assertEqual([linkwire.diff(*it) for it in zip(names, names[1:])],
                         [[(f"{path}[]", None, "c")], [(path, [*"bca"], [*"acb"])],
                          [(f"{path}[]", it, None) for it in "acb"]])

    def test_long_diff(self):
        longer = linkwire.build([(numbers.IFLA_IFALIAS, '"' * 60000)])
        self.assertEqual(linkwire.diff(longer[:16], longer), [("ifalias", None, '"' * 60000)])

    def test_diff(self):
        new = LO.replace(b"lo\0", b"l1\0").replace(linkwire.u32(65536), linkwire.u32(1500))
        self.assertEqual(linkwire.diff(LO, new), [("ifname", "lo", "l1"), ("mtu", 65536, 1500)])
        self.assertEqual(linkwire.diff(LO, LO), [])
        self.assertEqual(linkwire.diff(LO[:24], LO), [("mtu", None, 65536)])
        self.assertEqual(linkwire.diff(LO, LO[:24])[0].new, None)
        counted = [linkwire.build([(numbers.IFLA_CARRIER_CHANGES, linkwire.u32(it))], index=7) for it in (2, 12)]
        self.assertEqual(linkwire.diff(*counted), [])
        self.assertEqual(linkwire.diff(*counted, counters=True), [("carrier-changes", 2, 12)])
        for pair in (LO, FUNCTION), (FUNCTION, LO):
            with self.assertRaises(linkwire.Fault) as raised:
                linkwire.diff(*pair)
            self.assertEqual(raised.exception.cause, "too-short")

    def test_settings(self):
        """What show puts together is what the line of linkshow says, wherever settings of families stand."""
        conf = (2, bytes(range(240)))  # IFLA_INET6_CONF
        families = [(10, [conf, (1, linkwire.u32(5))]), (2, [(1, bytes(132))]), (10, [conf])]
        odd = [linkwire.build([(numbers.IFLA_AF_SPEC, it)]) for it in (families, families[:2], families[::-1])]
        alias = numbers.IFLA_IFALIAS, '"conf":{"conf":{}'
        odd += [linkwire.build([(numbers.IFLA_PROTINFO, [conf]), alias], family=it) for it in (0, 7, 10)]
        odd += [odd[0] + odd[1][16:], odd[5] + odd[1][16:], odd[1] + odd[5][16:], FUNCTION]
        for message in odd + [it for it, _, _ in stored("linkshow")]:
            self.assertEqual(linkwire.show(message), json.loads(linkwire.show_json(message)))
        self.assertEqual(list(linkwire.show_all(odd)), [linkwire.show(it) for it in odd])
        linkwire.show(odd[1])["af-spec"]["inet6"]["conf"].clear()
        self.assertEqual(linkwire.show(odd[1]), json.loads(linkwire.show_json(odd[1])))

    def test_lenient(self):
        """What linkshow --lenient and linkstate --lenient answer, and where nothing is refused what all do."""
        for words, message, shown, state in stored_lenient():
            others = shown.pop("words", [])
            members = {key: it for key, it in words.items() if f"{key}={it}" not in others}
            self.assertEqual({**members, **linkwire.show(message, words.get("kernel"), lenient=True)}, shown)
            found = answered(linkwire.state, message, True)
            self.assertIn(state, (found, found.split()[0], found.split()[1]))
            if state.startswith("ok"):
                text = linkwire.canonical(message, lenient=True)
                self.assertEqual(linkwire.canonical(text, lenient=True), text)
                self.assertTrue(linkwire.same_message(message, text, lenient=True))
                self.assertTrue(linkwire.same_state(message, text, lenient=True))
                self.assertRegex(linkwire.key(message, lenient=True),
                                 f"^L{linkwire.LENIENT_FORM}.{linkwire.STATE_FORM}:[0-9a-f]{{64}}$")
        for message, answer, kernel in stored("linkshow"):
            self.assertEqual(linkwire.show_json(message, kernel, lenient=True), linkwire.show_json(message, kernel))
            self.assertEqual(answered(linkwire.canonical, message, True), answered(linkwire.canonical, message))
        longer = linkwire.build([(numbers.IFLA_IFALIAS, b"\xe9")] + [(numbers.IFLA_STATS64, bytes(8))] * 2000)
        self.assertGreater(len(linkwire.canonical(longer, lenient=True)), 2000 * 196)

    def test_lenient_changes(self):
        """An alias in Latin-1 and an empty list of a port hide nothing."""
        mtu, other = ((numbers.IFLA_MTU, linkwire.u32(it)) for it in (1500, 1400))
        port, one, two = (numbers.IFLA_PROTINFO, b""), (numbers.IFLA_IFALIAS, b"\xe9"), (numbers.IFLA_IFALIAS, b"\xe8")
        old, new = linkwire.build([port, one, mtu], family=7), linkwire.build([two, other], family=7)
        self.assertIn("fault", linkwire.show(old))
        self.assertEqual({key: linkwire.show(old, lenient=True).get(key) for key in ("mtu", "fault", "refused")}, {
            "mtu": 1500, "fault": None, "refused": [
                {"at": "IFLA_PROTINFO", "fault": "empty-list", "offset": 16, "payload": ""},
                {"at": "IFLA_IFALIAS", "fault": "not-utf8", "offset": 20, "payload": "e9"}]})
        found = linkwire.diff(old, new, lenient=True)
        self.assertEqual({(it.path.split(".")[0], it.old, it.new) for it in found},
                         {("mtu", 1500, 1400), ("refused", "", None), ("refused", "e9", "e8")})
        self.assertEqual(linkwire.diff(old, old, lenient=True), [])
        self.assertFalse(linkwire.same_state(old, new, lenient=True))
        self.assertFalse(linkwire.same_message(old, new, lenient=True))
        self.assertEqual(linkwire.diff(LO, LO[:24], lenient=True), linkwire.diff(LO, LO[:24]))
        for call in linkwire.diff, linkwire.same_state, linkwire.same_message:
            for pair in (LO, old + b"\0"), (old + b"\0", LO), (LO, LO[:15]):
                with self.assertRaises(linkwire.Fault) as raised:
                    call(*pair, lenient=True)
                self.assertIn(raised.exception.cause, ("frame-short", "too-short"))
            self.assertRaises(linkwire.Fault, call, old, new)

    def test_refusals(self):
        """The attributes that are refused are those that linkshow --lenient has."""
        found, = linkwire.refusals(FUNCTION)
        self.assertEqual(found, (22, 0, FUNCTION[28:], "too-short", 32, (22, 1, 2)))
        self.assertEqual(list(linkwire.refusals(LO)), [])
        self.assertEqual(list(linkwire.refusals(linkwire.build([(20 | numbers.NLA_F_NESTED, b"\xe9")]) + b"abc")), [
            (20, numbers.NLA_F_NESTED, b"\xe9", "not-utf8", 16, (20,)), (None, 0, b"abc", "frame-short", 24, ())])
        for wrong in b"", LO[:15]:
            with self.assertRaises(linkwire.Fault) as raised:
                next(linkwire.refusals(wrong))
            self.assertEqual((raised.exception.cause, raised.exception.offset), ("too-short", 0))
        chance, some = random.Random(60), [message for message, _, _ in stored("linkwire")]
        for _ in range(2000):
            message = damaged(chance, some)
            shown = linkwire.show(message, lenient=True)
            if len(message) < 16:
                self.assertEqual(shown["fault"], "too-short")
                continue
            found = list(linkwire.refusals(message))
            if found and found[-1].number is None:
                self.assertIn("fault", shown)
                with self.assertRaises(linkwire.Fault) as raised:
                    linkwire.state(message, lenient=True)
                fault = raised.exception
                self.assertEqual((fault.cause, fault.offset, fault.path), found[-1][3:])
                continue
            self.assertEqual([(it.fault, it.offset, it.payload.hex()) for it in found],
                             [(it["fault"], it["offset"], it["payload"]) for it in shown.get("refused", [])])
            self.assertEqual(bool(found), "fault" in linkwire.show(message))
            for it in found:
                self.assertEqual(it.path[0], it.number)
                self.assertTrue(16 <= it.offset <= len(message))

    def test_lacking(self):
        """A call that the library lacks says so, and none is made without what was asked for."""
        none = _Library(None)  # this process, which has no call
        calls = [lambda: linkwire.diff(LO, LO), lambda: linkwire.show(LO), lambda: next(linkwire.refusals(LO))]
        lenient = [lambda: linkwire.canonical(LO, True), lambda: linkwire.state(LO, True),
                   lambda: linkwire.key(LO, True), lambda: linkwire.Watch(lenient=True).message(LO),
                   lambda: linkwire.show(LO, lenient=True), lambda: linkwire.diff(LO, LO, lenient=True)]
        pairs = {name: tuple(getattr(none, f"linkwire_{name[1:].lower()}{it}") for it in ("", "_lenient"))
                 for name in ("_CANONICAL", "_STATE")}
        with mock.patch.multiple(messages, library=none, _HAS_LENIENT=False, **pairs):
            for call in calls + lenient:
                self.assertRaisesRegex(NotImplementedError, "has no linkwire_", call)

    def test_damaged(self):
        """Of damaged messages check, canonical and fault are of one mind, and attributes end as the frames do."""
        chance, some = random.Random(59), [message for message, _, _ in stored("linkwire")]
        for _ in range(3000):
            message = damaged(chance, some)
            try:
                linkwire.check(message)
            except linkwire.Fault as fault:
                self.assertIn(fault.cause, NAMES)
                self.assertLessEqual(fault.offset, len(message))
                with self.assertRaises(linkwire.Fault) as raised:
                    linkwire.state(message)
                self.assertEqual(str(raised.exception), str(fault))
                continue
            self.assertTrue(all(len(it.payload) <= 65531 for it in linkwire.attributes(message)))


class Attributes(unittest.TestCase):
    def test_attributes(self):
        """The attributes of a message, built again, are the message."""
        for message, answer, _ in stored("linkwire"):
            if answer.startswith("ok"):
                parts = [(it.number | it.flags, it.payload) for it in linkwire.attributes(message)]
                self.assertEqual(message[:16] + linkwire.build(parts)[16:], message)
        found = list(linkwire.attributes(LO))
        self.assertEqual([(it.number, it.flags) for it in found], [(3, 0), (4, 0)])
        self.assertIsInstance(found[0].payload, memoryview)
        self.assertEqual((linkwire.text(found[0].payload), linkwire.number(found[1].payload)), ("lo", 65536))

    def test_views(self):
        """Views and arrays of other items are their bytes."""
        wide = array.array("I", LO + bytes(-len(LO) % 4))
        for it in memoryview(LO), memoryview(LO).cast("I"), memoryview(LO).cast("B", (2, 16)), bytearray(LO), wide:
            self.assertEqual(list(linkwire.attributes(it)), list(linkwire.attributes(LO)))
            self.assertEqual(linkwire.pick(it, 3, 4), linkwire.pick(LO, 3, 4))
            self.assertEqual(linkwire.key(it), linkwire.key(LO))
        self.assertEqual(linkwire.pick(memoryview(LO + LO)[:2 * len(LO)][::1], 3), linkwire.pick(LO, 3))
        spread = memoryview(bytes(it for byte in LO for it in (byte, 0)))[::2]
        self.assertEqual(linkwire.pick(spread, 3, 4), linkwire.pick(LO, 3, 4))
        for call in linkwire.pick, lambda it: list(linkwire.attributes(it)), linkwire.text:
            for wrong in 5, "lo", None:
                self.assertRaises(TypeError, call, wrong)

    def test_last(self):
        """Of an attribute that comes twice pick has the first one, or the last."""
        twice = LO + LO[16:].replace(b"lo", b"l1")
        self.assertEqual(linkwire.pick(twice, 3)[3], b"lo\0")
        self.assertEqual(linkwire.pick(twice, 3, last=True), {3: b"l1\0"})
        self.assertEqual(linkwire.pick(twice, 3, 4, 9, last=True), {3: b"l1\0", 4: linkwire.u32(65536)})
        self.assertRaises(linkwire.Fault, linkwire.pick, twice + b"\0", 3, last=True)

    def test_faults(self):
        self.assertEqual(linkwire.pick(LO, 4, 3, 9), {3: b"lo\0", 4: linkwire.u32(65536)})
        self.assertEqual(linkwire.pick(LO + LO[16:].replace(b"lo", b"l1"), 3, 4, 9)[3], b"lo\0")
        self.assertEqual(linkwire.pick(LO[16:], 4, start=0), {4: linkwire.u32(65536)})
        for cause, rest in ("frame-short", b"\0\0\0"), ("frame-over", b"\x09\0\1\0abcd"), ("frame-under", b"\3\0\1\0"):
            found = linkwire.attributes(LO + rest)
            self.assertEqual([next(found).number, next(found).number], [3, 4])
            with self.assertRaises(linkwire.Fault) as raised:
                next(found)
            self.assertEqual((raised.exception.cause, raised.exception.offset), (cause, len(LO)))
            self.assertEqual(linkwire.pick(LO + rest, 3, 4)[3], b"lo\0")
            for call in linkwire.check, lambda it: linkwire.pick(it, 3, 9):
                with self.assertRaises(linkwire.Fault) as checked:
                    call(LO + rest)
                self.assertEqual(checked.exception.cause, cause)

    def test_build(self):
        nested = linkwire.build([(18, [(1, "vlan"), (2, [(1, linkwire.u16(7)), (5, linkwire.be16(0x88A8))])])])
        self.assertEqual(nested[16:].hex(), "2400120009000100766c616e0000000014000200060001000700000006000500"
                         "88a80000")
        self.assertEqual(linkwire.build(index=-1, flags=1, change=1, family=7, link_type=1).hex(),
                         "07000100ffffffff0100000001000000")
        widths = {"u8": 1, "u16": 2, "be16": 2, "u32": 4, "be32": 4, "u64": 8}
        for name, width in widths.items():
            call = getattr(linkwire, name)
            self.assertEqual(call(2 ** (8 * width) - 1), b"\xff" * width)
            self.assertEqual(call(1), (1).to_bytes(width, "big" if name.startswith("be") else "little"))
            for wrong in (-1, 2 ** (8 * width), "1"):
                self.assertRaises(ValueError, call, wrong)
        self.assertRaises(TypeError, linkwire.build, [(4, 1500)])
        self.assertRaises(TypeError, linkwire.build, [(4, None)])
        self.assertRaises(ValueError, linkwire.build, [(4, bytes(65532))])
        self.assertRaises(ValueError, linkwire.build, [(18, [(1, bytes(40000)), (2, bytes(40000))])])
        self.assertRaises(ValueError, linkwire.build, [(1 << 16, b"")])
        self.assertRaises(ValueError, linkwire.build, index=1 << 31)

    def test_texts(self):
        """A str is refused where an attribute is no text; what a kind of device has is not known."""
        for number, where in ((numbers.IFLA_ADDRESS, "IFLA_ADDRESS"), (numbers.IFLA_MTU, "IFLA_MTU"),
                              (numbers.IFLA_PROTINFO, "IFLA_PROTINFO"), (numbers.IFLA_STATS64, "IFLA_STATS64")):
            self.assertRaisesRegex(TypeError, f"^{where} is no text, as '02:00", linkwire.build,
                                   [(number, "02:00:00:00:00:01")])
        for list_ in [(numbers.IFLA_LINKINFO, [(2, "a")])], [(numbers.IFLA_PROP_LIST | 0x8000, [(1, "a")])]:
            self.assertRaisesRegex(TypeError, r"^IFLA_\w+ [12] is no text", linkwire.build, list_)
        for list_ in ([(numbers.IFLA_IFNAME, "a"), (numbers.IFLA_IFALIAS, "b"), (numbers.IFLA_QDISC, "c"), (999, "d"),
                       (numbers.IFLA_PROP_LIST | 0x8000, [(numbers.IFLA_ALT_IFNAME, "e")]),
                       (numbers.IFLA_LINKINFO, [(1, "veth"), (4, "bridge"), (2, [(77, "text"), (78, [(1, "f")])])])],):
            linkwire.check(linkwire.build(list_))

    def test_mac(self):
        self.assertEqual(linkwire.mac("02:00:5e:00:fF:01"), b"\2\0\x5e\0\xff\1")
        self.assertEqual(linkwire.mac("02-00-5E-00-ff-01"), b"\2\0\x5e\0\xff\1")
        for length in 6, 8, 20:
            self.assertEqual(linkwire.mac(bytes(range(length)).hex(":")), bytes(range(length)))
        for wrong in ("", "02", "02:00:00:00:00", "02:00:00:00:00:01:02", "02:00:00:00:00-01", "020000000001",
                      "2:0:0:0:0:1", "02:00:00:00:00:0g", "02:00:00:00:00:01 ", "02:00:00:00:00:01\n",
                      "٠٢:00:00:00:00:01"):
            self.assertRaisesRegex(ValueError, "is no address", linkwire.mac, wrong)

    def test_pickles(self):
        message = linkwire.build([(20, b"\xe9"), (22, [(1, [(2, b"\1")])])]) + b"abc"
        attributes, refusals = list(linkwire.attributes(message[:-3])), list(linkwire.refusals(message))
        for found in attributes, refusals:
            for again in pickle.loads(pickle.dumps(found)), copy.deepcopy(found):
                self.assertEqual(again, found)
                self.assertEqual([type(it.payload) for it in again], [memoryview] * len(found))
                self.assertEqual([type(it) for it in again], [type(it) for it in found])
        event, = linkwire.Watch().message(message)
        self.assertEqual(pickle.loads(pickle.dumps(event)).fault.cause, "not-utf8")

    def test_chosen(self):
        """What is True or False is nothing else."""
        for call in (linkwire.canonical, linkwire.state, linkwire.key, linkwire.show, linkwire.show_json,
                     lambda *it, **words: linkwire.same_message(*it, *it, **words),
                     lambda *it, **words: linkwire.same_state(*it, *it, **words),
                     lambda *it, **words: linkwire.diff(*it, *it, **words),
                     lambda *_, **words: linkwire.Watch(**words),
                     lambda *it, **words: list(linkwire.show_all(it, **words))):
            for wrong in "yes", "", 1, 0, None:
                self.assertRaisesRegex(TypeError, "^lenient is True or False, and not", call, LO, lenient=wrong)
        for name in "counters", "changes_only", "dumps":
            self.assertRaisesRegex(TypeError, f"^{name} is True or False", linkwire.Watch, **{name: "no"})
        self.assertRaisesRegex(TypeError, "^counters is True", linkwire.diff, LO, LO, counters="no")

    def test_put(self):
        """An attribute that is built is one that linkwire_put writes."""
        put = ctypes.CDLL(library.path).linkwire_put
        for length in range(9):
            out, at = ctypes.create_string_buffer(32), ctypes.c_size_t(0)
            self.assertEqual(put(out, ctypes.c_size_t(32), ctypes.byref(at), 9, bytes(range(length)),
                                 ctypes.c_size_t(length)), 1)
            self.assertEqual(linkwire.build([(9, bytes(range(length)))])[16:], out.raw[:at.value])

    def test_numbers(self):
        """The numbers are those of linkwire.h."""
        with open(f"{TOP}/include/linkwire.h", encoding="utf-8") as it:
            names = re.findall(r'"(IFLA_\w+)"', it.read())
        self.assertEqual([getattr(numbers, name) for name in names], list(range(len(names))))


if __name__ == "__main__":
    unittest.main()
