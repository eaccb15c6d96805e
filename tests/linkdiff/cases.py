#!/usr/bin/env python3
"""Holds what linkdiff tells of made lines to a table.

    python3 tests/linkdiff/cases.py LINKDIFF

A row has a title, the arguments, lines, and of each line that is wanted what it tells: 'new 5', 'gone 5', 'changed 5'
with the paths, or 'fault' and its name. Of two files each line also has the word time= of the line that it comes from.
The last line is 'linkdiff cases: N of N'.
"""

import json
import os
import struct
import subprocess
import sys
import tempfile

TOP = os.path.dirname(os.path.dirname(os.path.dirname(os.path.abspath(__file__))))
sys.path.append(TOP + "/scripts/test")
from shared import attribute

LATIN_1 = attribute(20, b"\xe9")
LATIN_2 = attribute(20, b"\xe8")
EVENT = attribute(44, struct.pack("<I", 4))
BEGIN, DONE = "type=begin seq=1 port=1", "type=done seq=1 port=1 family=0"


def link(*attributes, family=0, index=5):
    return (struct.pack("<BBHiII", family, 0, 1, index, 0, 0) + b"".join(attributes)).hex()


def mtu(number):
    return attribute(4, struct.pack("<I", number))


def counters_of(last):
    """The counters of IPv6, whose names the release of a kernel says."""
    return attribute(26, attribute(10, attribute(3, struct.pack("<38Q", 38, *range(1, 37), last))))


def protinfo(*attributes):
    return attribute(12, b"".join(attributes))


def counted(*numbers):
    """The counters of IPv6 as a kernel sends them that has so many."""
    return attribute(3, struct.pack(f"<{len(numbers)}Q", *numbers))


def kind(*names):
    return attribute(18, b"".join(attribute(1, name.encode() + b"\0") for name in names))


def refused(number):
    """Eighty attributes that are refused: each has three bytes."""
    return [attribute(number, bytes((at, 0, 1))) for at in range(80)]


def paths(name):
    """The paths of eighty refused attributes of one name: the last one stands under it, those before it in a list."""
    return f" refused.{name}", "".join(f" refused.repeated.{at}.{name}" for at in range(79))


def vlans(*values, more=b""):
    """The VLANs of a bridge, in a list of an attribute for each; other attributes stand in front of them.

    A value is a VLAN's id, its flags and its id, or bytes, which are all of a damaged element.
    """
    infos = [it if isinstance(it, bytes) else struct.pack("<HH", *(it if isinstance(it, tuple) else (0, it)))
             for it in values]
    return attribute(26, more + b"".join(attribute(2, it) for it in infos))


def data(name, inside):
    return attribute(18, attribute(1, name) + attribute(2, inside))


def functions(count):
    """So many virtual functions, each with one setting."""
    return attribute(22, b"".join(attribute(1, attribute(4, struct.pack("<II", at, 1))) for at in range(count)))


def ranged(first, last, flags=0):
    """The two values of a range of VLANs."""
    return (flags | 8, first), (flags | 16, last)


def vlan(number):
    """The path of a VLAN that came or went, or of a range of VLANs."""
    return f" af-spec.vlan-info[vid={number}]"


def flags_of(number):
    """The path of flags that turned."""
    return vlan(number) + ".flags"


def placed(*places):
    """The paths of VLANs in a list that no kernel writes."""
    return "".join(f" af-spec.vlan-info.{it}.{name}" for it in places for name in ("flags", "vid"))


def kept(*numbers, payload=b"\0"):
    """Attributes of these numbers, which are kept as they are."""
    return b"".join(attribute(it, payload) for it in numbers)


def tunnels(*values, more=b""):
    """Tunnels: of each the flags, the VLAN and the id, or bytes, which are all of a damaged one."""
    found = [it if isinstance(it, bytes) else attribute(1, struct.pack("<I", it[2])) +
             attribute(2, struct.pack("<H", it[1])) + attribute(3, struct.pack("<H", it[0])) + more for it in values]
    return attribute(26, b"".join(attribute(3, it) for it in found))


def tunnel(number):
    """The path of a tunnel, or of a range of tunnels."""
    return f" af-spec.vlan-tunnel-info[vid={number}]"


def trees(*values):
    """Spanning trees; bytes are all of a damaged one."""
    return b"".join(attribute(1, it if isinstance(it, bytes) else attribute(1, struct.pack("<H", it)))
                    for it in values)


def tree(label):
    return f" af-spec.mst.entry[msti{label}]"


def with_trees(*values):
    return link(attribute(26, attribute(6, trees(*values))), family=7)


def mappings(*pairs):
    return b"".join(attribute(1, struct.pack("<II", *it)) for it in pairs)


def function(*records):
    """A function of settings: of each the attribute, the number of the function, and the setting."""
    return attribute(1, b"".join(attribute(kind, struct.pack("<II", vf, it)) for kind, vf, it in records))


def ports(*numbers):
    """The ports of these functions, each with a request; of None the one that says no function."""
    return b"".join(attribute(1, (b"" if it is None else attribute(1, struct.pack("<I", it))) + attribute(6, b"\1"))
                    for it in numbers)


def names(*texts, more=b""):
    """Alternative names."""
    return attribute(52, b"".join(attribute(53, it.encode() + b"\0") for it in texts) + more)


def targets(*values, n=8):
    """Targets of a bond, by the last number of their addresses; bytes are all of a damaged one."""
    found = [it if isinstance(it, bytes) else bytes([10, 0, 0, it]) for it in values]
    return attribute(n, b"".join(attribute(at, it) for at, it in enumerate(found)))


NAME = attribute(3, b"e5\0")
NAMES, ADDRESS = " prop-list.alt-ifname[]", " linkinfo.data.macaddr-data.macaddr[]"
EARLIER, TARGETS = " repeated.0.prop-list.alt-ifname[]", " linkinfo.data.arp-ip-target[]"
# a function with counters, which moved in the other one
COUNTED_7, COUNTED_9 = (attribute(1, attribute(4, struct.pack("<II", 7, 1)) +
                                  attribute(8, attribute(0, struct.pack("<Q", it)))) for it in (7, 9))
# the attributes of tunnel 7 of VLAN 10
FIELDS = [attribute(1, b"\7\0\0\0"), attribute(2, b"\x0a\0"), attribute(3, b"\0\0")]
# counters of IPv6 and of ICMPv6: of an older kernel, and none
SHORT = protinfo(counted(36, *range(1, 36)), attribute(6, struct.pack("<6Q", 6, *range(1, 6))))
EMPTY = protinfo(counted(), attribute(6, b""))
# lists of VLANs that no kernel writes
ODD = [(2, 1), (1, 1), (1, (8, 2)), ((8, 1), 2), ((16, 1),), (1, (16, 2)), ((24, 1),), ((8, 1), (24, 2)), ranged(1, 1),
       ranged(2, 1), ((12, 1), (16, 2)), ((8, 1), (20, 2)), ((8, 1), (8, 2), (16, 3)), (*ranged(1, 3), 3)]
# attributes of IFLA_LINKINFO that are kept; a state passes over those of number 3
XSTATS = b"", kept(3), kept(3, payload=b"\1"), kept(99, 3, 3)

STREAMS = [
    ("refused attributes whose numbers turn", ["--lenient"], [link(*refused(4)), link(*refused(13))],
     ["new 5", "changed 5" + "".join(paths("ifla_mtu") + paths("ifla_txqlen"))]),
    ("one that is refused behind many whose numbers turn", ["--lenient"],
     [link(*refused(4), attribute(13, b"a")), link(*refused(5), attribute(13, b"b"))],
     ["new 5", "changed 5" + " refused.ifla_txqlen".join(paths("ifla_mtu")) + "".join(paths("ifla_link"))]),
    ("refused attributes of one number change places", ["--lenient"],
     [link(LATIN_1, LATIN_2), link(LATIN_2, LATIN_1), link(LATIN_2, LATIN_2, LATIN_1)],
     ["new 5", "changed 5 refused.ifla_ifalias refused.repeated.0.ifla_ifalias",
      "changed 5 refused.repeated.1.ifla_ifalias"]),
    ("a second refused attribute comes, equal to the first, and goes", ["--lenient"],
     [link(mtu(8), LATIN_1), link(mtu(9), LATIN_1, LATIN_1), link(mtu(8), LATIN_1)],
     ["new 5", *["changed 5 mtu refused.repeated.0.ifla_ifalias"] * 2]),
    ("of refused attributes of two numbers one is repeated", ["--lenient"],
     [link(attribute(4, b"a"), LATIN_1, attribute(4, b"b")), link(attribute(4, b"b"), LATIN_1)],
     ["new 5", "changed 5 refused.repeated.0.ifla_mtu"]),
    ("many virtual functions that come", [], [link(functions(70)), link(functions(90))],
     ["new 5", "changed 5" + "".join(f" vfinfo-list.info[vf={at}]" for at in range(70, 90))]),
    ("of kinds that come again in one list the last counts", [],
     [link(kind("veth", "bridge")), link(kind("veth", "vxlan")), link(kind("bridge", "vxlan"))],
     ["new 5", "gone 5", "new 5", "changed 5 linkinfo.repeated.0.kind"]),
    ("of lists that come again the last counts", [],
     [link(kind("veth"), kind("bridge")), link(kind("veth"), kind("vxlan"))], ["new 5", "gone 5", "new 5"]),
    ("a kind stays known over messages that name none", [],
     [link(kind("veth")), link(NAME), link(NAME), link(NAME, kind("veth")), link(NAME), link(NAME, kind("vxlan"))],
     ["new 5", "changed 5 linkinfo.kind ifname", "changed 5 linkinfo.kind", "changed 5 linkinfo.kind", "gone 5",
      "new 5"]),
    ("another kind is gone and new before the first whole dump", ["--changes-only"],
     [link(kind("veth")), link(kind("vxlan")), link(NAME, index=6)], ["gone 5", "new 5"]),
    ("one that came and went before the first whole dump", ["--changes-only"],
     [link(NAME), "type=del " + link(NAME), link(NAME)], ["gone 5"]),
    ("an accepted del of an interface that was refused", [],
     [link(NAME, LATIN_1), "type=del " + link(NAME)], ["fault not-utf8", "gone 5"]),
    ("a refused del of an interface that was refused", [],
     [link(NAME, LATIN_1), "type=del " + link(NAME, LATIN_1)], ["fault not-utf8", "fault not-utf8"]),
    ("an accepted del of a port that was refused", [],
     [link(NAME, LATIN_1, family=7), "type=del " + link(NAME, family=7)], ["fault not-utf8", "gone 5"]),
    ("an accepted del of a port of which nothing is known", [], ["type=del " + link(NAME, family=7)], []),
    ("a request spoils no dump", [],
     [link(NAME), BEGIN, "type=get 0000", "type=set zz", "type=set 00", "type=get " + link(LATIN_1), DONE],
     ["new 5", "fault too-short", "fault not-hex", "fault too-short", "fault not-utf8", "gone 5"]),
    ("any other line without an index spoils it", [],
     [link(NAME), BEGIN, "type=new zz", DONE], ["new 5", "fault not-hex"]),
    ("a whole dump ends what its families have, in their order", [],
     [*[link(NAME, family=family, index=index) for family in (28, 10, 7, 0) for index in (6, 5)], BEGIN, DONE,
      *[link(NAME, mtu(9), family=family) for family in (28, 10)]],
     [*["new 6", "new 5"] * 4, *["gone 5", "gone 6"] * 3, "changed 5 mtu", "new 5"]),
    ("one of a family of parts ends no other", [],
     [*[link(NAME, family=family) for family in (0, 7, 10, 28, 255)], BEGIN, DONE.replace("family=0", "family=10"),
      BEGIN, DONE.replace("family=0", "family=255"), *[link(NAME, mtu(9), family=family) for family in (10, 28, 255)]],
     [*["new 5"] * 5, "gone 5", "gone 5", "new 5", "changed 5 mtu", "new 5"]),
    ("a host of which nothing is known is as one that was never seen", ["--changes-only"],
     ["host=a " + link(NAME), "host=a type=del " + link(NAME), "host=a " + link(NAME), "host=a " + link(NAME, mtu(9))],
     ["gone 5", "changed 5 mtu"]),
    ("a host of which a dump was whole is known", ["--changes-only"],
     ["host=a " + BEGIN, "host=a " + DONE, "host=a " + link(NAME), "host=a type=del " + link(NAME),
      "host=a " + link(NAME), "host=b " + link(NAME)], ["new 5", "gone 5", "new 5"]),
    ("counters of IPv6 are not told, of however many numbers and in whatever order", [],
     ["kernel=5.10.0 " + link(NAME, SHORT, family=10), "kernel=6.18.0 " + link(mtu(9), SHORT, family=10),
      link(NAME, SHORT, family=10), "kernel=6.18.0 " + link(mtu(9), EMPTY, family=10),
      "kernel=5.10.0 " + link(NAME, protinfo(counted()), SHORT, family=10), link(mtu(9), family=10),
      link(protinfo(counted(), counted(1, 1)), family=10), link(family=10)],
     ["new 5", *["changed 5 ifname mtu", "changed 5 mtu ifname"] * 2, "changed 5 ifname mtu", "changed 5 mtu",
      "changed 5 state"]),
    ("a value of a list is told by its number, also where there is one", [],
     [link(vlans(1), family=7), link(vlans(2), family=7), link(vlans(2, 3), family=7), link(vlans(3), family=7)],
     ["new 5", "changed 5" + vlan(1) + vlan(2), "changed 5" + vlan(3), "changed 5" + vlan(2)]),
    ("a value in front of others is told alone", [],
     [link(vlans(10, 20), family=7), link(vlans(5, 10, 20), family=7), link(vlans(5, 10, 15, 20), family=7)],
     ["new 5", "changed 5" + vlan(5), "changed 5" + vlan(15)]),
    ("a VLAN goes out of a range", [],
     [link(vlans(*ranged(10, 20)), family=7), link(vlans(*ranged(10, 14), *ranged(16, 20)), family=7),
      link(vlans(*ranged(10, 20)), family=7)],
     ["new 5", *["changed 5" + vlan(15)] * 2]),
    ("a VLAN joins a range", [],
     [link(vlans(*ranged(10, 20)), family=7), link(vlans(*ranged(10, 21)), family=7),
      link(vlans(*ranged(9, 21)), family=7)],
     ["new 5", "changed 5" + vlan(21), "changed 5" + vlan(9)]),
    ("a range beside the same VLANs one by one", [],
     [link(vlans(*ranged(10, 13)), family=7), link(vlans(10, 11, 12, 13), family=7),
      link(vlans(10, *ranged(11, 13)), family=7), link(vlans(10, *ranged(12, 13)), family=7)],
     ["new 5", *["changed 5 af-spec.vlan-info"] * 2, "changed 5" + vlan(11)]),
    ("and beside the same VLANs with a name: the name alone is told", [],
     [link(vlans(*ranged(10, 13)), family=7), link(NAME, vlans(10, 11, 12, 13), family=7),
      link(vlans(10, *ranged(11, 13)), vlans(10), family=7)],
     ["new 5", "changed 5 ifname",
      "changed 5 ifname" + vlan("11-13") + " repeated.0.af-spec.vlan-info[vid=10-13]"]),
    ("an event that is compressed, beside a dump that is not", [],
     [link(vlans(1, 10, 11, 12, 13, (4, 14)), family=7), link(vlans(1, *ranged(10, 13), (4, 15)), family=7),
      link(vlans(1, 10, 11, 12, (2, 13), (4, 15)), family=7)],
     ["new 5", "changed 5" + vlan(14) + vlan(15), "changed 5" + flags_of(13)]),
    ("single VLANs that come, go and turn are one change", [],
     [link(vlans(*values), family=7) for values in (
         (1,), (1, 2, 3, 4), ((4, 1), (4, 2), (4, 3), (4, 4)), ((4, 1),))],
     ["new 5", "changed 5" + vlan("2-4"), "changed 5" + flags_of("1-4"), "changed 5" + vlan("2-4")]),
    ("all VLANs get untagged: pieces by what was said of them", [],
     [link(vlans((2, 1), *ranged(10, 20), *ranged(21, 30, 2)), family=7),
      link(vlans((6, 1), *ranged(10, 20, 4), *ranged(21, 30, 6)), family=7)],
     ["new 5", "changed 5" + flags_of(1) + flags_of("10-20") + flags_of("21-30")]),
    ("one change of a range that goes, of its VLANs beside those that turn", [],
     [link(vlans(*ranged(10, 20)), family=7), link(vlans(*ranged(5, 12), *ranged(15, 18, 4)), family=7)],
     ["new 5", "changed 5" + vlan("13-14") + flags_of("15-18") + vlan("19-20") + vlan("5-9")]),
    ("the least and the greatest numbers", [],
     [link(vlans(0, 65535), family=7), link(vlans(*ranged(0, 65535)), family=7), link(family=7)],
     ["new 5", "changed 5" + vlan("1-65534"), "changed 5" + vlan("0-65535")]),
    ("lists that no kernel writes, each between two that one writes", [],
     [link(vlans(*it), family=7) for values in ODD for it in ((7,), values)] + [link(vlans(7), family=7)],
     ["new 5", *[f"changed 5{it}" for values in ODD for it in (
         vlan(7) + placed(*range(len(values))), placed(*range(len(values))) + vlan(7))]]),
    ("lists that no kernel writes, beside each other", [],
     [link(vlans(*values), family=7) for values in ((2, 1), (3, 1), (3, (4, 1)), ((4, 1),) * 2)],
     ["new 5", "changed 5 af-spec.vlan-info.0.vid", "changed 5 af-spec.vlan-info.1.flags",
      "changed 5 af-spec.vlan-info.0.flags af-spec.vlan-info.0.vid"]),
    ("ranges and single VLANs that come are one change, and those with others between them are not", [],
     [link(*it, family=7) for it in (
         (), (vlans(1, *ranged(2, 5), 6, *ranged(7, 9)),), (), (vlans(1, *ranged(3, 4), 6),))],
     ["new 5", *["changed 5" + vlan("1-9")] * 2, "changed 5" + vlan(1) + vlan("3-4") + vlan(6)]),
    ("lists in two attributes of one name", [],
     [link(vlans(1), vlans(1, 2), family=7), link(vlans(*ranged(1, 5)), vlans(1, 2), family=7)],
     ["new 5", "changed 5 repeated.0.af-spec.vlan-info[vid=2-5]"]),
    ("of VLANs a message of another family has none", [],
     [link(vlans(1), family=8), link(vlans(1, 2), family=8)], ["new 5", "changed 5 other[number=26].payload"]),
    ("a damaged element beside whole ones changes, goes, comes, and is a whole one", [],
     [link(vlans(*values), family=7) for values in ((1, b"ab"), (1, b"abc"), (1,), (1, b"ab"), (1, 2), (b"ab", 2))],
     ["new 5", "changed 5 af-spec.vlan-info.1", "changed 5" + placed(0) + " af-spec.vlan-info.1" + vlan(1),
      "changed 5" + vlan(1) + placed(0) + " af-spec.vlan-info.1",
      "changed 5" + placed(0) + " af-spec.vlan-info.1" + vlan("1-2"),
      "changed 5" + vlan("1-2") + " af-spec.vlan-info.0" + placed(1)]),
    ("damaged elements alone are one value", [],
     [link(vlans(*values), family=7) for values in ((b"ab",), (b"ab", b"abc"), (b"ab", 1), (b"abc",), (1,))],
     ["new 5", "changed 5 af-spec.vlan-info", "changed 5 af-spec.vlan-info af-spec.vlan-info.0" + placed(1),
      "changed 5 af-spec.vlan-info.0" + placed(1) + " af-spec.vlan-info", "changed 5 af-spec.vlan-info" + vlan(1)]),
    ("a list stands beside attributes that come twice", [],
     [link(vlans(1, 2, more=attribute(1, b"\0\0") + attribute(1, b"\1\0")), family=7),
      link(vlans(1, 3, more=attribute(1, b"\1\0") * 2), family=7)],
     ["new 5", "changed 5" + vlan(2) + " af-spec.repeated.0.mode" + vlan(3)]),
    ("other attributes among VLANs: a mode inside a range, and one that is kept", [],
     [link(attribute(26, b"".join(attribute(2, struct.pack("<HH", *it)) + more for it in ranged(1, last))), family=7)
      for last, more in ((3, b""), (4, attribute(1, b"\0\0")), (3, kept(99)))],
     ["new 5", "changed 5 af-spec.mode" + vlan(4) + " af-spec.repeated.0.mode",
      "changed 5 af-spec.mode" + vlan(4) + " af-spec.repeated.0.mode af-spec.other[number=99] "
      "af-spec.other[number=99#1]"]),
    ("tunnels whose ids go along", [],
     [link(it, family=7) for it in (
         tunnels((8, 10, 1010), (16, 20, 1020)), tunnels((8, 10, 1010), (16, 14, 1014), (8, 16, 1016), (16, 20, 1020)),
         tunnels((8, 10, 2010), (16, 14, 2014), (8, 16, 1016), (16, 21, 1021)),
         tunnels((8, 10, 2010), (16, 21, 2021)))],
     ["new 5", "changed 5" + tunnel(15), "changed 5" + tunnel("10-14") + ".id" + tunnel(21),
      "changed 5" + tunnel("16-21") + ".id" + tunnel(15)]),
    ("tunnels whose ids do not go along", [],
     [link(it, family=7) for it in (
         tunnels((0, 10, 7), (0, 11, 7)), tunnels((0, 10, 8), (0, 11, 8)), tunnels((0, 10, 8), (0, 11, 9)),
         tunnels((4, 10, 7), (4, 11, 8)), tunnels((8, 10, 7), (16, 11, 8)))],
     ["new 5", "changed 5" + tunnel(10) + ".id" + tunnel(11) + ".id", "changed 5" + tunnel(11) + ".id",
      "changed 5" + tunnel("10-11") + ".id" + tunnel("10-11") + ".flags", "changed 5" + tunnel("10-11") + ".flags"]),
    ("tunnels that no kernel writes: by places", [],
     [link(it, family=7) for it in (
         tunnels((8, 10, 7), (16, 12, 9)), tunnels((8, 10, 7), (16, 12, 8)), tunnels((0, 10, 7), b"odd"),
         tunnels((0, 10, 7)), tunnels((0, 10, 7), more=attribute(2, b"\1\0")))],
     ["new 5", "changed 5" + tunnel("10-12") + "".join(
         f" af-spec.vlan-tunnel-info.{at}.{name}" for at in (0, 1) for name in ("id", "vid", "flags")),
      "changed 5 af-spec.vlan-tunnel-info.0.flags" + "".join(
          f" af-spec.vlan-tunnel-info.1.{name}" for name in ("id", "vid", "flags")) + " af-spec.vlan-tunnel-info.1",
      "changed 5" + "".join(f" af-spec.vlan-tunnel-info.0.{name}" for name in ("id", "vid", "flags")) +
      " af-spec.vlan-tunnel-info.1" + tunnel(10),
      "changed 5" + tunnel(10) + "".join(
          f" af-spec.vlan-tunnel-info.0.{name}" for name in ("id", "flags", "vid", "repeated.0.vid"))]),
    ("a tunnel has each attribute once, in any order, and whatever the flags of its number are", [],
     [link(tunnels(b"".join(it)), family=7) for it in (
         FIELDS, FIELDS[::-1], [attribute(0x8001, b"\7\0\0\0"), *FIELDS[1:]], [FIELDS[0], *FIELDS], FIELDS[:2],
         FIELDS)],
     ["new 5", *["changed 5 af-spec.vlan-tunnel-info"] * 2, "changed 5" + tunnel(10) + "".join(
         f" af-spec.vlan-tunnel-info.0.{name}" for name in ("id", "vid", "flags", "repeated.0.id")),
      "changed 5 af-spec.vlan-tunnel-info.0.flags af-spec.vlan-tunnel-info.0.repeated.0.id",
      "changed 5 af-spec.vlan-tunnel-info.0.id af-spec.vlan-tunnel-info.0.vid" + tunnel(10)]),
    ("a record with more or less bytes is no VLAN", [],
     [link(vlans(1, it), family=7) for it in (2, b"\0\0\2", 2, b"\0\0\2\0\0", 2)],
     ["new 5", *["changed 5" + vlan("1-2") + placed(0) + " af-spec.vlan-info.1",
                 "changed 5" + placed(0) + " af-spec.vlan-info.1" + vlan("1-2")] * 2]),
    ("values of one number are counted", [], [with_trees(1, 2), with_trees(1, 1, 2), with_trees(1, 2, 1, 1),
                                              with_trees(2, 1)],
     ["new 5", "changed 5" + tree("=1#1"), "changed 5" + tree("=1#2"), "changed 5" + tree("=1#1") + tree("=1#2")]),
    ("damaged elements are counted", [],
     [with_trees(*values) for values in ((b"ab", 1, b"abc"), (1, b"ab", b"abc", b"a"), (b"abc", 1))],
     ["new 5", "changed 5" + tree("#2"), "changed 5" + tree("#0") + tree("#1") + tree("#2")]),
    ("spanning trees", [],
     [with_trees(*values) for values in ((0, 5), (0, 3, 5), (3, 0, 5))],
     ["new 5", "changed 5 af-spec.mst.entry[msti=3]", "changed 5 af-spec.mst.entry"]),
    ("mappings of priorities", [],
     [link(data(b"vlan", attribute(3, mappings((1, 4))) + attribute(4, mappings((0, 2), (1, 4))))),
      link(data(b"vlan", attribute(3, mappings((1, 5))) + attribute(4, mappings((1, 4)))))],
     ["new 5", "changed 5 linkinfo.data.egress-qos.mapping[from=1].to linkinfo.data.ingress-qos.mapping[from=0]"]),
    ("a function's number is that of its first record that does not come again", [],
     [link(attribute(22, function(*records))) for records in
      (((4, 1, 0), (4, 2, 1), (5, 3, 0)), ((4, 2, 0), (9, 3, 0)), ((4, 2, 1), (9, 3, 0)))],
     ["new 5", "changed 5" + "".join(f" vfinfo-list.info[vf=2].{it}" for it in (
         "spoofchk.setting", "link-state.vf", "link-state.link-state", "repeated.0.spoofchk.vf",
         "repeated.0.spoofchk.setting", "trust.vf", "trust.setting")),
      "changed 5 vfinfo-list.info[vf=2].spoofchk.setting"]),
    ("a function's VLANs have places", [],
     [link(attribute(22, attribute(1, attribute(12, attribute(1, struct.pack("<IIIHxx", 1, it, 0, 129)))))) for it in
      (6, 7)], ["new 5", "changed 5 vfinfo-list.info[vf#0].vlan-list.info.0.vlan"]),
    ("ports of functions", [],
     [link(attribute(24, ports(*values))) for values in ((2, 4), (4,), (4, None))],
     ["new 5", "changed 5 vf-ports.port[vf=2]", "changed 5 vf-ports.port[vf#0]"]),
    ("addresses are told one by one, those that are damaged as digits", [],
     [link(data(b"macvlan", attribute(5, b"".join(attribute(4, one) for one in it))))
      for it in ((bytes(6),), (bytes(6), b"odd", bytes(6)), (b"odd", bytes(6), bytes(6)), (b"odd",))],
     ["new 5", "changed 5" + 2 * ADDRESS, "changed 5" + ADDRESS[:-2], "changed 5" + 2 * ADDRESS]),
    ("alternative names come, go and turn", [],
     [link(names(*it)) for it in ("", "a", "ab", "bc", "cb", "c", "")],
     ["new 5", "changed 5" + NAMES, *["changed 5" + it * NAMES for it in (1, 2)], "changed 5" + NAMES[:-2],
      *["changed 5" + NAMES] * 2]),
    ("of equal names as many as come or go", [],
     [link(names(*it)) for it in ("a", "aaab", "abaa", "ba", "bb")],
     ["new 5", "changed 5" + 3 * NAMES, "changed 5" + NAMES[:-2], "changed 5" + 2 * NAMES, "changed 5" + 2 * NAMES]),
    ("names with the object around them, or without", [],
     [link(*it) for it in ((), (names("a", "b"),), (names(),), (names(more=kept(99)),), (), (names(),), (names("a"),))],
     ["new 5", *["changed 5" + 2 * NAMES] * 2, "changed 5 prop-list.other[number=99]",
      "changed 5" + NAMES[:-2] + " prop-list.other[number=99]", "changed 5" + NAMES[:-2], "changed 5" + NAMES]),
    ("names in two attributes", [],
     [link(*(names(*one) for one in it)) for it in (("a",), ("b", "a"), ("a", "b"), ("abc", "b"), ("cba", "b"))],
     ["new 5", "changed 5" + EARLIER,
      "changed 5" + NAMES + EARLIER + NAMES + EARLIER, "changed 5" + 2 * EARLIER, "changed 5" + EARLIER[:-2]]),
    ("names in another order, and a change beside them", [],
     [link(names("a", "b")), link(names("b", "a"), mtu(9)), link(names("a", "b"), mtu(8), kept(70, 71)),
      link(names("b", "a"), mtu(8), kept(71, 70)), link(mtu(8), kept(71, 70), names("a", "b"))],
     ["new 5", "changed 5 mtu", "changed 5 mtu other[number=70] other[number=71]",
      "changed 5 prop-list.alt-ifname other", "changed 5 prop-list.alt-ifname"]),
    ("targets of a bond come, go, and are damaged", [],
     [link(data(b"bond", targets(*it))) for it in ((1,), (1, 2), (2, 1), (2, b"odd"), (1, 1), (b"",), (1,), (), (1,))],
     ["new 5", "changed 5" + TARGETS, *["changed 5" + TARGETS[:-2]] * 5, "changed 5" + TARGETS, "changed 5" + TARGETS]),
    ("a list of targets without any comes and goes", [],
     [link(data(b"bond", it)) for it in (b"", targets(), b"", targets(n=31), targets(n=31) + targets())],
     ["new 5", "changed 5 linkinfo.data" + TARGETS[:-2], "changed 5" + TARGETS[:-2] + " linkinfo.data",
      "changed 5 linkinfo.data linkinfo.data.ns-ip6-target", "changed 5" + TARGETS[:-2]]),
    ("targets in other slots are in one order", [],
     [link(data(b"bond", attribute(8, attribute(at, bytes(4))))) for at in (0, 9)], ["new 5", "changed 5 state"]),
    ("functions in another order, with counters and other settings", [],
     [link(attribute(22, it)) for it in (function((4, 1, 0)) + COUNTED_7, COUNTED_7 + function((4, 1, 0)),
                                         function((4, 1, 0)) + COUNTED_9, function((4, 1, 1)) + COUNTED_7)],
     ["new 5", *["changed 5 vfinfo-list.info"] * 2, "changed 5 vfinfo-list.info[vf=1].spoofchk.setting"]),
    ("and with --counters", ["--counters"],
     [link(attribute(22, it)) for it in (function((4, 1, 0)) + COUNTED_7, COUNTED_7 + function((4, 1, 0)),
                                         function((4, 1, 0)) + COUNTED_9)],
     ["new 5", "changed 5 vfinfo-list.info", "changed 5 vfinfo-list.info[vf=7].stats.rx-packets"]),
    ("an attribute that is kept stands in front of another", [],
     [link(kept(70)), link(kept(70), kept(71)), link(kept(69, 70), kept(71, payload=b"\1")), link(kept(71, 69))],
     ["new 5", "changed 5 other[number=71]", "changed 5 other[number=71].payload other[number=69]",
      "changed 5 other[number=70] other[number=71].payload"]),
    ("kept attributes in another order", [], [link(kept(70, 71)), link(kept(71, 70))], ["new 5", "changed 5 other"]),
    ("kept attributes of one number are counted", [],
     [link(kept(*it)) for it in ((70,), (70, 71, 70), (71, 70, 70, 70), (71,))],
     ["new 5", "changed 5 other[number=71] other[number=70#1]", "changed 5 other[number=70#2]",
      "changed 5 other[number=70] other[number=70#1] other[number=70#2]"]),
    ("a kept attribute gets a flag", [], [link(kept(70)), link(kept(0x8000 | 70)), link(kept(0x8000 | 70, 70))],
     ["new 5", "changed 5 other[number=70].flags", "changed 5 other[number=70#1]"]),
    ("one that has a name is not counted among those that are kept", [],
     [link(kept(68, payload=b"ab"), *it) for it in ((), (kept(68),), (kept(68), kept(68, payload=b"cd"), kept(68)))],
     ["new 5", "changed 5 other[number=68]", "changed 5 headroom repeated.0.headroom other[number=68#1]"]),
    ("kept attributes of data, of alternative names and of a tree", [],
     [link(data(b"vlan", kept(*it)), attribute(52, attribute(53, b"a\0") + kept(*it))) for it in ((99,), (99, 98, 99))]
     + [link(attribute(26, attribute(6, attribute(1, attribute(1, b"\3\0") + kept(*it)))), family=7)
        for it in ((99,), (98, 99, 99))],
     ["new 5", "changed 5 " + " ".join(f"{it}.other[number={label}]" for it in ("linkinfo.data", "prop-list")
                                       for label in ("98", "99#1")),
      "new 5", "changed 5 af-spec.mst.entry[msti=3].other[number=98] af-spec.mst.entry[msti=3].other[number=99#1]"]),
    ("what a state passes over is not told of kept attributes", [],
     [link(attribute(18, attribute(1, b"vlan\0") + it)) for it in XSTATS],
     ["new 5", "changed 5 state", "changed 5 linkinfo.other[number=99]"]),
    ("and is told with --counters", ["--counters"],
     [link(attribute(18, attribute(1, b"vlan\0") + it)) for it in XSTATS],
     ["new 5", "changed 5 linkinfo.other[number=3]", "changed 5 linkinfo.other[number=3].payload",
      "changed 5 linkinfo.other[number=3].payload linkinfo.other[number=99] linkinfo.other[number=3#1]"]),
    ("IFLA_EVENT is not compared", [], [link(NAME), link(NAME, EVENT), link(NAME, EVENT, mtu(9))],
     ["new 5", "changed 5 mtu"]),
]


# a function as a state tells it, and with what moves by itself
COUNTED = (attribute(4, struct.pack("<II", 7, 1)) + attribute(8, attribute(0, struct.pack("<Q", 9))) +
           attribute(13, bytes(32)))
FUNCTION = {"spoofchk": {"vf": 7, "setting": 1}}
MOVING = {"stats": {"rx-packets": 9}, "broadcast": "00" * 32}
# what comes with two lists, which goes when they turn: the path, and the whole value of each row
WHOLES = [
    ("texts", [], 0, names("b"), names("a", "b", "a", "b"), [("prop-list.alt-ifname[]", it) for it in "aab"]),
    ("targets", [], 0, data(b"bond", targets(1) + targets(2, n=31)), data(b"bond", targets(3, 1) + targets(2, n=31)),
     [("linkinfo.data.arp-ip-target[]", "10.0.0.3")]),
    ("a VLAN", [], 7, vlans(1), vlans(1, 2), [("af-spec.vlan-info[vid=2]", {"flags": [], "vid": 2})]),
    ("a range of VLANs", [], 7, vlans(1), vlans(1, *ranged(10, 20, 0x84)),
     [("af-spec.vlan-info[vid=10-20]", {"flags": ["untagged", 128], "vid": 10, "vid-end": 20})]),
    ("single VLANs side by side", [], 7, vlans(1), vlans(1, (2, 2), (2, 3), (0x67, 4)),
     [("af-spec.vlan-info[vid=2-3]", {"flags": ["pvid"], "vid": 2, "vid-end": 3}),
      ("af-spec.vlan-info[vid=4]", {"flags": ["master", "pvid", "untagged", "brentry", "only-opts"], "vid": 4})]),
    ("a tunnel", [], 7, b"", tunnels((2, 10, 1010)),
     [("af-spec.vlan-tunnel-info[vid=10]", {"id": 1010, "flags": ["pvid"], "vid": 10})]),
    ("a range of tunnels, and one whose id does not go along", [], 7, b"",
     tunnels((8, 10, 1010), (16, 20, 1020), (0, 21, 1020)),
     [("af-spec.vlan-tunnel-info[vid=10-20]", {"id": 1010, "flags": [], "vid": 10, "id-end": 1020, "vid-end": 20}),
      ("af-spec.vlan-tunnel-info[vid=21]", {"id": 1020, "flags": [], "vid": 21})]),
    ("tunnels with the least and the greatest ids", [], 7, b"",
     tunnels((8, 65534, 0), (16, 65535, 1)), [("af-spec.vlan-tunnel-info[vid=65534-65535]", {
         "id": 0, "flags": [], "vid": 65534, "id-end": 1, "vid-end": 65535})]),
    ("a tunnel with the greatest id", [], 7, b"", tunnels((0, 0, (1 << 32) - 1)),
     [("af-spec.vlan-tunnel-info[vid=0]", {"id": (1 << 32) - 1, "flags": [], "vid": 0})]),
    ("a list that was not there", [], 7, b"", attribute(26, attribute(6, trees(3, 9))),
     [(f"af-spec.mst.entry[msti={it}]", {"msti": it}) for it in (3, 9)]),
    ("a list in which all are damaged is one value", [], 7, b"", vlans(b"a", b"b"),
     [("af-spec.vlan-info", ["61", "62"])]),
    ("a damaged value beside another one", [], 7, attribute(26, attribute(6, trees(1))),
     attribute(26, attribute(6, trees(1, b"a"))), [("af-spec.mst.entry[msti#0]", "61")]),
    ("a mapping", [], 0, data(b"vlan", attribute(3, mappings((1, 4)))),
     data(b"vlan", attribute(3, mappings((0, 5), (1, 4)))),
     [("linkinfo.data.egress-qos.mapping[from=0]", {"from": 0, "to": 5})]),
    ("a function of a state", [], 0, b"", attribute(22, attribute(1, COUNTED)), [("vfinfo-list.info[vf=7]", FUNCTION)]),
    ("a function with its counters", ["--counters"], 0, b"", attribute(22, attribute(1, COUNTED)),
     [("vfinfo-list.info[vf=7]", {**FUNCTION, **MOVING})]),
    ("a function that only moves", [], 0, b"", attribute(22, attribute(1, attribute(13, bytes(32)))),
     [("vfinfo-list.info[vf#0]", {})]),
    ("a port", [], 0, attribute(24, ports(2)), attribute(24, ports(4, 2)),
     [("vf-ports.port[vf=4]", {"vf": 4, "request": "01"})]),
    ("a kept attribute", [], 0, b"", kept(70), [("other[number=70]", {"number": 70, "flags": [], "payload": "00"})]),
    ("a kept attribute that has a name", [], 0, kept(70), kept(0x8000 | 68, 70),
     [("other[number=68]", {"number": 68, "name": "headroom", "flags": ["nested"], "payload": "00"})]),
    ("a kept attribute inside a tree that comes", [], 7, b"",
     attribute(26, attribute(6, attribute(1, attribute(1, b"\3\0") + kept(99)))),
     [("af-spec.mst.entry[msti=3]", {"msti": 3, "other": [{"number": 99, "flags": [], "payload": "00"}]})]),
]

KEPT_1, KEPT_2 = ({"number": it, "flags": [], "payload": "00"} for it in (98, 99))
TREE = attribute(1, attribute(1, b"\3\0") + kept(98, 99)), attribute(1, attribute(1, b"\3\0") + kept(99, 98))
# lists that are told whole, with the old and the new value
ORDERS = [
    ("names", [], 0, names("a", "b", "b"), names("b", "a", "b"),
     [("prop-list.alt-ifname", ["a", "b", "b"], ["b", "a", "b"])]),
    ("targets beside digits", [], 0, data(b"bond", targets(1, 2)), data(b"bond", attribute(8, b"\1\2")),
     [("linkinfo.data.arp-ip-target", ["10.0.0.1", "10.0.0.2"], "0102")]),
    ("no targets beside digits", [], 0, data(b"bond", targets()), data(b"bond", attribute(8, b"\1\2")),
     [("linkinfo.data.arp-ip-target", [], "0102")]),
    ("VLANs in ranges", [], 7, vlans(*ranged(1, 2)), vlans(1, 2),
     [("af-spec.vlan-info", [{"flags": ["range-begin"], "vid": 1}, {"flags": ["range-end"], "vid": 2}],
       [{"flags": [], "vid": 1}, {"flags": [], "vid": 2}])]),
    ("tunnels in ranges", [], 7, tunnels((8, 1, 5), (16, 2, 6)), tunnels((0, 1, 5), (0, 2, 6)),
     [("af-spec.vlan-tunnel-info",
       [{"id": 5, "vid": 1, "flags": ["range-begin"]}, {"id": 6, "vid": 2, "flags": ["range-end"]}],
       [{"id": 5, "vid": 1, "flags": []}, {"id": 6, "vid": 2, "flags": []}])]),
    ("a list in a list: the outer one is first", [], 7, attribute(26, attribute(6, TREE[0])),
     attribute(26, attribute(6, TREE[1])),
     [("af-spec.mst.entry", [{"msti": 3, "other": [KEPT_1, KEPT_2]}], [{"msti": 3, "other": [KEPT_2, KEPT_1]}]),
      ("af-spec.mst.entry[msti=3].other", [KEPT_1, KEPT_2], [KEPT_2, KEPT_1])]),
    ("without what a state clears", [], 0, attribute(18, attribute(1, b"vlan\0") + kept(98, 3, 99)),
     attribute(18, attribute(1, b"vlan\0") + kept(99, 98)), [("linkinfo.other", [KEPT_1, KEPT_2], [KEPT_2, KEPT_1])]),
    ("functions of a state", [], 0, attribute(22, attribute(1, COUNTED) + function((4, 1, 0))),
     attribute(22, function((4, 1, 0)) + attribute(1, COUNTED)),
     [("vfinfo-list.info", [FUNCTION, {"spoofchk": {"vf": 1, "setting": 0}}],
       [{"spoofchk": {"vf": 1, "setting": 0}}, FUNCTION])]),
    ("functions with their counters", ["--counters"], 0, attribute(22, attribute(1, COUNTED) + function((4, 1, 0))),
     attribute(22, function((4, 1, 0)) + attribute(1, COUNTED)),
     [("vfinfo-list.info", [{**FUNCTION, **MOVING}, {"spoofchk": {"vf": 1, "setting": 0}}],
       [{"spoofchk": {"vf": 1, "setting": 0}}, {**FUNCTION, **MOVING}])]),
    ("mappings", [], 0, data(b"vlan", attribute(3, mappings((1, 4), (0, 5)))),
     data(b"vlan", attribute(3, mappings((0, 5), (1, 4)))),
     [("linkinfo.data.egress-qos.mapping", [{"from": 1, "to": 4}, {"from": 0, "to": 5}],
       [{"from": 0, "to": 5}, {"from": 1, "to": 4}])]),
    ("ports", [], 0, attribute(24, ports(2, 4)), attribute(24, ports(4, 2)),
     [("vf-ports.port", [{"vf": 2, "request": "01"}, {"vf": 4, "request": "01"}],
       [{"vf": 4, "request": "01"}, {"vf": 2, "request": "01"}])]),
]


def told(line):
    it = json.loads(line)
    if "fault" in it:
        return f"fault {it['fault']}"
    return " ".join([it["change"], str(it["ifi-index"]), *[one["path"] for one in it.get("changes", [])]])


def run(program, words, lines=()):
    text = "".join(line + "\n" for line in lines)
    return subprocess.run([program, *words], input=text, capture_output=True, text=True, check=True).stdout.splitlines()


def holds(title, found, wanted):
    if found != wanted:
        sys.exit(f"linkdiff cases: {title}: told is\n  " + "\n  ".join(found) + "\nand not\n  " + "\n  ".join(wanted))


def wholes_hold(program):
    """A value whose label the other message has not is told once, with all of it."""
    for title, words, family, one, other, rows in WHOLES:
        lines = [link(it, family=family) for it in (one, other, one)]
        found = [json.loads(it).get("changes") for it in run(program, words, lines)]
        wanted = [None, *([{"path": path, side: value} for path, value in rows] for side in ("new", "old"))]
        holds(f"{title}, as a whole", [json.dumps(it) for it in found], [json.dumps(it) for it in wanted])
    for title, words, family, one, other, rows in ORDERS:
        lines = [link(it, family=family) for it in (one, other, one)]
        found = [json.loads(it).get("changes") for it in run(program, words, lines)]
        there = [{"path": path, "old": old, "new": new} for path, old, new in rows]
        back = [{"path": path, "old": new, "new": old} for path, old, new in rows]
        holds(f"{title}, there and back", [json.dumps(it) for it in found], list(map(json.dumps, (None, there, back))))


def files_hold(program):
    """Of two files each line has the words of the line that brought the message."""
    old = ["time=1 host=a " + link(NAME, index=1), "time=2 host=a " + link(NAME, index=2),
           "time=3 host=a " + link(NAME, index=2), "time=4 host=a " + link(kind("veth"), index=3),
           "time=5 host=a " + link(index=3), "time=6 " + link(NAME, mtu(1))]
    new = ["time=7 host=a " + link(NAME, mtu(9), index=2), "time=8 host=a " + link(kind("vxlan"), index=3),
           "time=9 host=b " + link(NAME, index=4), "time=0 " + link(NAME, mtu(1))]
    with tempfile.TemporaryDirectory() as folder:
        names = [f"{folder}/old", f"{folder}/new"]
        for name, lines in zip(names, (old, new)):
            with open(name, "w", encoding="ascii") as it:
                it.write("".join(line + "\n" for line in lines))
        found = [f"{json.loads(line).get('time')} {told(line)}" for line in run(program, names)]
    holds("words in two files", found, ["7 changed 2 mtu", "5 gone 3", "8 new 3", "9 new 4", "1 gone 1"])


def status(program, *sides, options=("--exit-code",)):
    """The exit status and how many lines are told of files with these lines; None stands for a file that is missing."""
    with tempfile.TemporaryDirectory() as folder:
        names = [f"{folder}/{i}" for i in range(len(sides))]
        for name, lines in zip(names, sides):
            if lines is not None:
                with open(name, "w", encoding="ascii") as it:
                    it.write("".join(line + "\n" for line in lines))
        ran = subprocess.run([program, *options, *names], capture_output=True, text=True, check=False)
    return f"{ran.returncode} {len(ran.stdout.splitlines())}"


def statuses_hold(program):
    """By --exit-code the status is that of diff(1): 0 if nothing differs, 1 if something does, 2 in trouble."""
    one, other, refused = [link(NAME, mtu(1))], [link(NAME, mtu(2))], [link(NAME, mtu(1)), link(NAME, LATIN_1)]
    whole, cut = [BEGIN, *one, DONE], [BEGIN, *one]
    two = [BEGIN, *one, link(NAME, index=6), DONE]
    rows = [
        ("the same", (one, one), "0 0"), ("nothing in either", ([], []), "0 0"), ("changed", (one, other), "1 1"),
        ("new", ([], one), "1 1"), ("gone", (one, []), "1 1"), ("gone by a whole dump", (two, whole), "1 1"),
        ("only words differ", (["time=1 " + one[0]], ["time=2 " + one[0]]), "0 0"),
        ("a fault in the old file", (refused, one), "2 1"), ("a fault in the new file", (one, refused), "2 1"),
        ("a fault where something differs", (refused, other), "2 2"), ("not hex", (one, [*one, "zz"]), "2 1"),
        ("the new file is cut", (two, cut), "2 0"), ("the old file is cut", (cut, two), "2 0"),
        ("cut where something differs", (two, [BEGIN, *other]), "2 1"),
        ("the old file is missing", (None, one), "2 0"), ("the new file is missing", (one, None), "2 0"),
        ("no files", (), "2 0"), ("one file", (one,), "2 0"),
    ]
    for title, sides, wanted in rows:
        holds(f"--exit-code: {title}", [status(program, *sides)], [wanted])
    holds("--exit-code --lenient", [status(program, refused, refused, options=("--exit-code", "--lenient"))], ["0 0"])
    without = [status(program, *sides, options=()) for sides in ((one, other), (refused, one), (two, cut), (one, None))]
    holds("without --exit-code", without, ["0 1", "0 1", "0 0", "1 0"])
    with open("/dev/full", "w", encoding="ascii") as full:
        ran = subprocess.run([program, "--exit-code", os.devnull, "-"], input="".join(one), text=True, stdout=full,
                             stderr=subprocess.DEVNULL, check=False)
    holds("--exit-code: a write that fails", [ran.returncode], [2])


def has_no_names(program, *lines):
    """Whether counters are told as one list, as those without names are."""
    changes = json.loads(run(program, ["--counters"], lines)[1])["changes"]
    return any(it["path"] == "af-spec.inet6.stats" for it in changes)


def orders_hold(program):
    """Each message is shown in the order of counters that its own line says, and so is what stands before a fault."""
    old, new = link(NAME, counters_of(37), mtu(1)), link(NAME, counters_of(38), mtu(2))
    found = [has_no_names(program, f"{was}{old}", f"{now}{new}") for was in ("", "kernel=6.18.0 ")
             for now in ("", "kernel=6.18.0 ")]
    found.append(has_no_names(program, old, f"kernel=6.18.0 {old}", f"kernel=6.18.0 {new}"))
    holds("counters without names", [str(it) for it in found], ["True", "True", "True", "False", "False"])
    fault = link(counters_of(37), LATIN_1)
    found = [json.loads(run(program, [], [f"kernel={release} {fault}"])[0])["before"] for release in ("6.18", "6.14")]
    holds("what stands before a fault by kernel=", [str(found[0] == found[1])], ["False"])


def port_holds(program):
    """The VLANs of a bridge's port, as a kernel announced them, are told as one says what was done."""
    with open(TOP + "/tests/linkdiff/bridge_port.txt", encoding="ascii") as it:
        rows = [row for row in it.read().splitlines() if not row.startswith("#")]
    told_of = [json.loads(line) for line in run(program, [], rows[0::2])]
    holds("VLANs of a kernel's port", [str(it.get("changes", it["change"])) for it in told_of],
          [str(json.loads(it)) for it in rows[1::2]])


def hosts_go(program):
    """A hundred thousand hosts that came and went leave so little that ten megabytes are enough."""
    line = link(NAME)
    with tempfile.TemporaryFile() as it:
        for host in range(100000):
            it.write(f"host=h{host} {line}\nhost=h{host} type=del {line}\n".encode())
        it.seek(0)
        ended = subprocess.run(["sh", "-c", 'ulimit -d 10000 && exec "$0"', program], stdin=it,
                               stdout=subprocess.DEVNULL, stderr=subprocess.PIPE, text=True, check=False)
    holds("hosts that went in ten megabytes", [f"{ended.returncode} {ended.stderr}"], ["0 "])


def main(program):
    for title, words, lines, wanted in STREAMS:
        holds(title, [told(line) for line in run(program, words, lines)], wanted)
    wholes_hold(program)
    files_hold(program)
    orders_hold(program)
    port_holds(program)
    hosts_go(program)
    statuses_hold(program)
    count = len(STREAMS) + len(WHOLES) + len(ORDERS) + 5
    print(f"linkdiff cases: {count} of {count}")


if __name__ == "__main__":
    main(sys.argv[1])
