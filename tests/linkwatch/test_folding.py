"""Folding: rows of lines, and what is told of them, one line each, without times."""

import unittest

from linkwire import numbers as n
from linkwire import u8, u32
from made import (BEGIN, DONE, DONE_BRIDGE, altname, inside, kind, line, master, mtu, name, port, port_too, state,
                  stream, tunnels, vlans)

ETH, BR = line(2, name("veth0"), mtu(1500)), line(3, name("br0"), mtu(1500))
IN = [line(2, name("veth0"), master(3), port((1, u8(0)))), BR]


def in_bridge(*attributes):
    return line(2, name("veth0"), master(3), *attributes, family=7)


# what it is about, the names that are asked for or options, the lines, and what is told
ROWS = [
    ("nothing of what is there at first", [], stream([ETH, BR]), []),
    ("new, by its members in one order", [],
     stream([BR], line(2, name("veth0"), mtu(1400), state(6), master(3), kind("veth"),
                                                               (n.IFLA_ADDRESS, bytes(6)))),
     ["veth0            new kind veth, mtu 1400, state up, address 00:00:00:00:00:00, master br0"]),
    ("new without a member", [], stream([], line(2)), ["if2              new"]),
    ("gone", [], stream([ETH], line(2, name("veth0"), what="del")), ["veth0            gone"]),
    ("gone between two dumps", [], [*stream([ETH, BR]), BEGIN, BR, DONE], ["veth0            gone"]),
    ("a name that changed", [], stream([ETH], line(2, name("core"), mtu(1500))),
     ["core             name veth0 → core"]),
    ("several at once", [], stream([ETH], line(2, name("veth0"), mtu(9000), (n.IFLA_TXQLEN, u32(5)))),
     ["veth0            mtu 1500 → 9000, qlen none → 5"]),
    ("flags that are hidden", [], stream([ETH], line(2, name("veth0"), mtu(1500), flags=0x10040)), []),
    ("flags that are not", [], stream([ETH], line(2, name("veth0"), mtu(1500), flags=0x10041)),
     ["veth0            flags +up"]),
    ("flags with --details", ["--details"], stream([ETH], line(2, name("veth0"), mtu(1500), flags=0x10041)),
     ["veth0            flags +up +running +lower-up"]),
    ("a member that is hidden", [], stream([ETH], line(2, name("veth0"), mtu(1500), (n.IFLA_CARRIER, u8(1)))), []),
    ("a member that is hidden with --details", ["--details"],
     stream([ETH], line(2, name("veth0"), mtu(1500), (n.IFLA_CARRIER, u8(1)))), ["veth0            carrier none → 1"]),
    ("alternative names", [], stream([ETH], line(2, name("veth0"), mtu(1500), altname("a", "b")), line(
        2, name("veth0"), mtu(1500), altname("b", "c"))),
     ["veth0            altname +a +b", "veth0            altname -a +c"]),
    ("in another order, and one of two that are equal", [], stream(
        [ETH], *(line(2, name("veth0"), mtu(1500), altname(*it)) for it in ("aab", "baa", "ba"))),
     ["veth0            altname +a +a +b", "veth0            altname -a"]),
    ("in another order with --details", ["--details"], stream(
        [ETH], *(line(2, name("veth0"), mtu(1500), altname(*it)) for it in ("ab", "ba"))),
     ["veth0            altname +a +b", "veth0            altname [a b] → [b a]"]),
    ("a port that joins has no settings", [],
     stream([ETH, BR], line(2, name("veth0"), mtu(1500), master(3), port((2, u32(5))))),
     ["veth0            master none → br0"]),
    ("settings of one that joins, with --details", ["--details"],
     stream([line(2, name("veth0")), BR], line(2, name("veth0"), master(3), port((1, u8(3))))),
     ["veth0            master none → br0, linkinfo.slave-kind none → bridge",
      "veth0            port of br0: state none → forwarding"]),
    ("and one that leaves", [], stream(IN, line(2, name("veth0"))), ["veth0            master br0 → none"]),
    ("of two families once", [], stream(IN, in_bridge(port_too((1, u8(0)))), in_bridge(port_too((1, u8(3)))),
                                        line(2, name("veth0"), master(3), port((1, u8(3)))),
                                        line(2, name("veth0"), master(3), port((1, u8(0))))),
     ["veth0            port of br0: state disabled → forwarding",
      "veth0            port of br0: state forwarding → disabled"]),
    ("the other way round", [],
     stream(IN, in_bridge(port_too((1, u8(0)))), line(2, name("veth0"), master(3), port((1, u8(3)))),
                                       in_bridge(port_too((1, u8(3))))),
     ["veth0            port of br0: state disabled → forwarding"]),
    ("what family 7 has at first is compared", [], stream(IN, in_bridge(port_too((1, u8(3))))),
     ["veth0            port of br0: state disabled → forwarding"]),
    ("the end of family 7 is not told", [], stream(IN, in_bridge(port_too((1, u8(0)))), line(2, what="del", family=7)),
     []),
    ("VLANs that come", [], stream(IN, in_bridge(vlans((6, 1))), in_bridge(vlans((6, 1), (8, 10), (16, 20)))),
     ["veth0            port of br0: vlan +10-20"]),
    ("VLANs that change", [], stream(IN, in_bridge(vlans((6, 1))), in_bridge(vlans((4, 1), (2, 30)))),
     ["veth0            port of br0: vlan -1(pvid,untagged) +1(untagged) +30(pvid)"]),
    ("a VLAN goes out of a range, and one joins it", [],
     stream(IN, in_bridge(vlans((8, 10), (16, 20))), in_bridge(vlans((8, 10), (16, 14), (8, 16), (16, 21)))),
     ["veth0            port of br0: vlan -15 +21"]),
    ("a range beside the same VLANs one by one", [],
     stream(IN, in_bridge(vlans((8, 10), (16, 12))), in_bridge(vlans((0, 10), (0, 11), (0, 12)))), []),
    ("all VLANs get untagged", [],
     stream(IN, in_bridge(vlans((8, 10), (16, 20))), in_bridge(vlans((12, 10), (20, 20)))),
     ["veth0            port of br0: vlan -10-20 +10-20(untagged)"]),
    ("tunnels, with --details", ["--details"],
     stream(IN, in_bridge(vlans((0, 1))), *(in_bridge(tunnels(*it)) for it in (
         [(8, 10, 1010), (16, 20, 1020)], [(8, 10, 1010), (16, 14, 1014), (8, 16, 2016), (16, 20, 2020)]))),
     ["veth0            af-spec.vlan-tunnel-info +vid=10-20(id 1010,flags [],id-end 1020)",
      "veth0            port of br0: vlan -1",
      "veth0            af-spec.vlan-tunnel-info -vid=15(id 1015,flags []), "
      "af-spec.vlan-tunnel-info[vid=16-20].id 1016 → 2016"]),
    ("a damaged VLAN is none", [], stream(IN, in_bridge(vlans((6, 1))), in_bridge((n.IFLA_AF_SPEC, [(2, b"ab")]))),
     ["veth0            port of br0: vlan -1(pvid,untagged)"]),
    ("values of other lists that come and go", [],
     stream([line(2, name("x"), kind("vlan", (3, [(1, u32(3) + u32(4))])))],
            line(2, name("x"), kind("vlan", (3, [(1, u32(it) + u32(5)) for it in (1, 2)])))),
     ["x                data.egress-qos.mapping -from=3(to 4) +from=1(to 5) +from=2(to 5)"]),
    ("a function that comes", [],
     stream([line(2, name("x"))],
            line(2, name("x"), (n.IFLA_VFINFO_LIST, [(1, [(4, u32(1) + u32(1)), (5, u32(1) + u32(2))])]))),
     ["x                vfinfo-list.info +vf=1(spoofchk.setting 1,link-state.link-state disable)"]),
    ("attributes that no table has", [],
     stream([line(2, name("x"), (300, b"a"))],
            line(2, name("x"), (299, b"b"), (300, b"c"), (300, b""))),
     ["x                other[number=300].payload 61 → 63, other +number=299(flags [],payload 62) "
      '+number=300#1(flags [],payload "")']),
    ("damaged elements of a list are texts, and counted", [],
     stream([line(2, name("x"), kind("vlan", (3, [(1, b"ab"), (1, u32(3) + u32(4))])))],
            line(2, name("x"), kind("vlan", (3, [(1, b"abc"), (1, u32(3) + u32(5)), (1, b"")])))),
     ["x                data.egress-qos.mapping[from#0] 6162 → 616263, data.egress-qos.mapping[from=3].to 4 → 5, "
      'data.egress-qos.mapping[from#1] none → ""']),
    ("family 10 is hidden", [], stream([ETH], line(2, mtu(1500), family=10), line(2, mtu(1400), family=10)), []),
    ("family 10 with --details", ["--details"],
     stream([ETH], line(2, mtu(1500), family=10), line(2, mtu(1400), family=10)),
     ["veth0            mtu 1500 → 1400"]),
    ("a master that is not known", [], stream([ETH], line(2, name("veth0"), mtu(1500), master(9))),
     ["veth0            master none → if9"]),
    ("what it is stacked on", [], stream([ETH, BR], line(2, name("veth0"), mtu(1500), (n.IFLA_LINK, u32(3)))),
     ["veth0            link none → br0"]),
    ("in another namespace", [], stream([ETH, BR], line(2, name("veth0"), mtu(1500), (n.IFLA_LINK, u32(3)),
                                                        (n.IFLA_LINK_NETNSID, u32(0)))),
     ["veth0            link none → if3, link-netnsid none → 0"]),
    ("0 is no index", [],
     stream([line(2, name("veth0"), (n.IFLA_LINK, u32(0))), BR], line(2, name("veth0"), (n.IFLA_LINK, u32(3)))),
     ["veth0            link none → br0"]),
    ("another kind is gone and new", [], stream([line(2, name("x"), kind("veth"))], line(2, name("x"), kind("dummy"))),
     ["x                gone", "x                new kind dummy"]),
    ("another kind before a dump is whole", [], [BEGIN, line(2, name("x"), kind("veth")),
                                                 line(2, name("x"), kind("dummy")), DONE],
     ["x                gone", "x                new kind dummy"]),
    ("one that went and came before a dump is whole", [], [ETH, line(2, name("veth0"), what="del"), ETH],
     ["veth0            gone"]),
    ("lost", [], stream([ETH], "type=lost"),
     ["                 lost messages of the kernel: all links are asked for again"]),
    ("whole again after a loss", [], [*stream([ETH]), "type=lost", BEGIN, line(2, name("veth0"), mtu(9000)), DONE],
     ["                 lost messages of the kernel: all links are asked for again", "veth0            mtu 1500 → 9000",
      "                 again all is known: what changed meanwhile is told above"]),
    ("fault", [], stream([ETH], ETH + "0500"),
     ["veth0            fault too few bytes for the header of an attribute, at byte 36"]),
    ("a host", [], [f"host=db1 {it}" for it in stream([ETH], line(2, name("veth0"), mtu(9000)))],
     ["db1/veth0        mtu 1500 → 9000"]),
    ("hosts are apart", [], [f"host=a {it}" for it in stream([ETH, BR])] + [f"host=b {it}" for it in stream(
        [ETH], line(2, name("veth0"), mtu(1500), master(3)))], ["b/veth0          master none → if3"]),
    ("by a name", ["br0"], stream([ETH, BR], line(2, name("veth0"), mtu(9000)), line(3, name("br0"), mtu(1400))),
     ["br0              mtu 1500 → 1400"]),
    ("by a pattern", ["v*"], stream([ETH, BR], line(2, name("veth0"), mtu(9000)), line(3, name("br0"), mtu(1400))),
     ["veth0            mtu 1500 → 9000"]),
    ("by an alternative name", ["alt"], stream([line(2, name("veth0"), altname("alt")), BR],
                                               line(2, name("veth0"), altname("alt"), mtu(9000)),
                                               line(3, name("br0"), mtu(1400))),
     ["veth0            mtu none → 9000"]),
    ("one that was renamed", ["veth0"],
     stream([ETH], line(2, name("core"), mtu(1500)), line(2, name("core"), mtu(9000))),
     ["core             name veth0 → core", "core             mtu 1500 → 9000"]),
    ("one that gets the name", ["core"],
     stream([ETH], line(2, name("core"), mtu(1500)), line(2, name("core"), what="del")),
     ["core             name veth0 → core", "core             gone"]),
    ("one of that name that comes later", ["x"],
     stream([ETH], line(5, name("x"), mtu(1500)), line(5, name("x"), what="del")),
     ["x                new mtu 1500", "x                gone"]),
    ("who joins a bridge that is asked for", ["br0"], stream([ETH, BR], line(2, name("veth0"), mtu(1500), master(3))),
     ["veth0            master none → br0"]),
    ("its ports, as ports", ["br0"],
     stream(IN, in_bridge(port_too((1, u8(3)))), line(2, name("veth0"), master(3), port((1, u8(3))), mtu(9))),
     ["veth0            port of br0: state disabled → forwarding"]),
    ("its ports, of family 0", ["br0"], stream(IN, line(2, name("veth0"), master(3), port((1, u8(3))))),
     ["veth0            port of br0: state disabled → forwarding"]),
    ("who leaves it", ["br0"], stream(IN, line(2, name("veth0"))), ["veth0            master br0 → none"]),
    ("one that leaves a bridge that is not", ["x*"],
     stream([*IN, line(9, name("x1"))], line(2, name("veth0"))), []),
    ("a dump of family 7", [], [*stream(IN), BEGIN, in_bridge(port_too((1, u8(0)))), DONE_BRIDGE,
                                in_bridge(port_too((1, u8(3))))],
     ["veth0            port of br0: state disabled → forwarding"]),
    ("a name that forges a line", [], stream([ETH], line(2, name("x  gone\ny"), mtu(1500))),
     ['x\\u0020\\u0020gone\\u000ay  name veth0 → "x  gone\\u000ay"']),
]


class Folding(unittest.TestCase):
    maxDiff = None

    def test_rows(self):
        for what, words, lines, wanted in ROWS:
            found, status = inside(["--time", "none", *words], lines)
            self.assertEqual((found.splitlines(), status), (wanted, 0), what)


if __name__ == "__main__":
    unittest.main()
