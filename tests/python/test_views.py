"""`View`, `Settling`, `vlans` and `flat`: rows of messages, and what is told of them. tests/linkwatch has more rows."""

import unittest

import linkwire
from linkwire import Change, Event, Settling, Told, View, Watch, flat, u8, u32, vlans
from linkwire import numbers as n


def link(index, name, *attributes, family=0, flags=0):
    return linkwire.build([(n.IFLA_IFNAME, name), *attributes], index=index, family=family, flags=flags)


def mtu(it):
    return n.IFLA_MTU, u32(it)


def master(it):
    return n.IFLA_MASTER, u32(it)


def port(of, *settings):
    """A port in a message of family 0."""
    return master(of), (n.IFLA_LINKINFO, [(4, "bridge"), (5, list(settings))])


def port_too(*settings):
    """The same in one of family 7."""
    return n.IFLA_PROTINFO | 0x8000, list(settings)


def vlan(*entries):
    """Flags and numbers of VLANs; a damaged one is bytes."""
    return n.IFLA_AF_SPEC, [(2, it if isinstance(it, bytes) else b"".join(one.to_bytes(2, "little") for one in it))
                            for it in entries]


def mapping(*pairs):
    """The priorities of a vlan; a damaged pair is bytes."""
    found = [(1, it if isinstance(it, bytes) else b"".join(map(u32, it))) for it in pairs]
    return n.IFLA_LINKINFO, [(1, "vlan"), (2, [(3, found)])]


def alt(*names, more=()):
    return n.IFLA_PROP_LIST | 0x8000, [*((n.IFLA_ALT_IFNAME, it) for it in names), *more]


def bond(payload):
    """The targets of a bond."""
    return n.IFLA_LINKINFO, [(1, "bond"), (2, [(8, payload)])]


def targets(*numbers):
    return bond([(at, bytes([10, 0, 0, it])) for at, it in enumerate(numbers)])


BR = link(9, "br0")
ALT = alt("other")
FORWARDING, COST = (1, u8(3)), (3, u32(7))
# what it is about, the view, the messages that are there, others, and what is told: all but the event
ROWS = [
    ("what is there is not told", View(), [BR], [BR], []),
    ("new", View(), [BR], [link(2, "e", mtu(1500), *port(9))],
     [("new", "e", "", [("mtu", None, 1500), ("master", None, "br0")])]),
    ("names for indices", View(), [BR, link(2, "e")], [link(2, "e", master(9)), link(2, "e", master(8))],
     [("changed", "e", "", [("master", None, "br0")]), ("changed", "e", "", [("master", "br0", "if8")])]),
    ("a port's setting in either family", View(), [BR, link(2, "e", *port(9, FORWARDING))],
     [link(2, "e", port_too(FORWARDING), family=7), link(2, "e", port_too((1, u8(0))), family=7),
      link(2, "e", *port(9, (1, u8(0)))), link(2, "e", *port(9, FORWARDING)),
      link(2, "e", port_too(FORWARDING), family=7)],
     [("changed", "e", "br0", [("port.state", "forwarding", "disabled")]),
      ("changed", "e", "br0", [("port.state", "disabled", "forwarding")])]),
    ("VLANs are sets", View(), [BR, link(2, "e", *port(9)), link(2, "e", vlan((6, 1)), family=7)],
     [link(2, "e", vlan((6, 1), (8, 3), (16, 4)), family=7)],
     [("changed", "e", "br0", [("port.vlan", {(1, "pvid,untagged")}, {(1, "pvid,untagged"), (3, ""), (4, "")})])]),
    ("other lists by the numbers that their values say", View(), [link(2, "e", mapping((1, 2), (3, 4)))],
     [link(2, "e", mapping((1, 5), (3, 4))), link(2, "e", mapping((1, 5)))],
     [("changed", "e", "", [("data.egress-qos.mapping[from=1].to", 2, 5)]),
      ("changed", "e", "", [("data.egress-qos.mapping[from=3]", {"from": 3, "to": 4}, None)])]),
    ("a damaged element of a list is a text", View(), [link(2, "e", mapping((1, 2), b"ab"))],
     [link(2, "e", mapping((1, 2), b"abc")), link(2, "e", mapping((1, 2))), link(2, "e", mapping((1, 2), b"ab"))],
     [("changed", "e", "", [("data.egress-qos.mapping[from#0]", *it)])
      for it in (("6162", "616263"), ("616263", None), (None, "6162"))]),
    ("a damaged VLAN is none", View(details=True),
     [BR, link(2, "e", *port(9)), link(2, "e", vlan((6, 1), b"ab"), family=7)],
     [link(2, "e", vlan((6, 1), *it), family=7) for it in ([b"abc"], [], [b"ab"], [(0, 2)], [b"ab"])],
     [("changed", "e", "br0", [("port.vlan", *it)]) for it in (
         ({(1, "pvid,untagged")}, {(1, "pvid,untagged"), (2, "")}),
         ({(1, "pvid,untagged"), (2, "")}, {(1, "pvid,untagged")}))]),
    ("attributes that no table has by their numbers", View(), [link(2, "e", (300, b"a"))],
     [link(2, "e", (299, b""), (300, b"b")), link(2, "e", (299, b""))],
     [("changed", "e", "", [("other[number=300].payload", "61", "62"),
                            ("other[number=299]", None, {"number": 299, "flags": [], "payload": ""})]),
      ("changed", "e", "", [("other[number=300]", {"number": 300, "flags": [], "payload": "62"}, None)])]),
    ("those of a port once", View(),
     [BR, link(2, "e", *port(9, COST, (99, b"a"))), link(2, "e", port_too(COST, (99, b"a")), family=7)],
     [it for some in ([COST, (99, b"b")], [(3, u32(8))], [COST, (99, b"c")], [COST, (99, b"b")]) for it in (
         link(2, "e", port_too(*some), family=7), link(2, "e", *port(9, *some)))],
     [("changed", "e", "br0", [*cost, (f"port.other[number=99]{it}", *row)]) for cost, it, *row in (
         ([], ".payload", "61", "62"),
         ([("port.cost", 7, 8)], "", {"number": 99, "flags": [], "payload": "62"}, None),
         ([("port.cost", 8, 7)], "", None, {"number": 99, "flags": [], "payload": "63"}),
         ([], ".payload", "63", "62"))]),
    ("what seldom matters", View(), [link(2, "e")], [link(2, "e", (n.IFLA_CARRIER, u8(1)), flags=0x40)], []),
    ("it too", View(details=True), [link(2, "e")], [link(2, "e", (n.IFLA_CARRIER, u8(1)), flags=0x40)],
     [("changed", "e", "", [("ifi-flags", [], ["running"]), ("carrier", None, 1)])]),
    ("by a name, and then another", View(["e"]), [BR, link(2, "e")],
     [link(2, "f"), link(9, "br0", mtu(9)), link(2, "f", mtu(9))],
     [("changed", "f", "", [("ifname", "e", "f")]), ("changed", "f", "", [("mtu", None, 9)])]),
    ("by an alternative name", View(["oth*"]), [link(2, "e", ALT)], [link(2, "e", ALT, mtu(9))],
     [("changed", "e", "", [("mtu", None, 9)])]),
    ("texts of lists, of which the order is nothing", View(), [link(2, "e", alt("a", "b"))],
     [link(2, "e", it) for it in (alt("b", "a"), alt("b", "c", "c"), targets(1), bond(b"a"))],
     [("changed", "e", "", [("prop-list.alt-ifname[]", *it) for it in (("a", None), (None, "c"), (None, "c"))]),
      ("changed", "e", "", [*(("prop-list.alt-ifname[]", it, None) for it in "bcc"), ("linkinfo.kind", None, "bond"),
                            ("data.arp-ip-target[]", None, "10.0.0.1")]),
      ("changed", "e", "", [("data.arp-ip-target", ["10.0.0.1"], "61")])]),
    ("and it is", View(details=True), [link(2, "e", alt("a", "b"), (70, b""), (71, b""))],
     [link(2, "e", alt("b", "a"), (70, b""), (71, b"")), link(2, "e", alt("b", "a"), (71, b""), (70, b""))],
     [("changed", "e", "", [("prop-list.alt-ifname", ["a", "b"], ["b", "a"])]),
      ("changed", "e", "", [("other", *([{"number": it, "flags": [], "payload": ""} for it in some]
                                        for some in ((70, 71), (71, 70))))])]),
    ("lists of a port in another order once", View(details=True),
     [BR, link(2, "e", *port(9, (98, b""), (99, b""))), link(2, "e", port_too((98, b""), (99, b"")), family=7)],
     [link(2, "e", *port(9, (99, b""), (98, b""))), link(2, "e", port_too((99, b""), (98, b"")), family=7)],
     [("changed", "e", "br0", [("port.other", *([{"number": it, "flags": [], "payload": ""} for it in some]
                                                for some in ((98, 99), (99, 98))))])]),
    ("by an alternative name that comes", View(["oth*"]), [link(2, "e"), link(3, "f", alt("a"))],
     [link(2, "e", mtu(9)), link(3, "f", alt("a", "other")), link(3, "f", alt("a"), mtu(9)),
      link(2, "e", alt("c"), mtu(9))],
     [("changed", "f", "", [("prop-list.alt-ifname[]", None, "other")]),
      ("changed", "f", "", [("prop-list.alt-ifname[]", "other", None), ("mtu", None, 9)])]),
    ("by a bridge", View(["br0"]), [BR, link(2, "e"), link(3, "f")],
     [link(2, "e", *port(9, COST)), link(2, "e", *port(9, (3, u32(8))), mtu(9)), link(3, "f", mtu(9))],
     [("changed", "e", "", [("master", None, "br0")]), ("changed", "e", "br0", [("port.cost", 7, 8)])]),
]


def told(view, *events):
    return [(it.what, it.name, it.port_of, list(map(tuple, it.changes))) for event in events
            for it in view.told(event) or ()]


class Views(unittest.TestCase):
    maxDiff = None

    def test_rows(self):
        for what, view, there, messages, wanted in ROWS:
            watch = Watch(lenient=True)
            events = [event for it in there for event in watch.message(it)]
            self.assertEqual(told(view, *events), [], what)
            for family in 0, 7:
                watch.begin("1")
                for it in watch.links().values():
                    watch.message(it)
                watch.done("1", family)
            found = [row for it in messages for row in told(view, *watch.message(it))]
            self.assertEqual(found, wanted, what)

    def test_gone(self):
        view, watch = View(["e"]), Watch()
        watch.begin("1")
        self.assertEqual([told(view, it) for it in watch.message(link(2, "e")) + watch.message(BR)], [[], []])
        self.assertEqual((view.name(2), view.selects(2), view.selects(9), view.selects(9, 2), view.missing()),
                         ("e", True, False, True, []))
        events = watch.message(BR, True) + watch.message(link(2, "e"), True)
        self.assertEqual([view.told(events[0]), told(view, events[1])], [None, [("gone", "e", "", [])]])
        self.assertEqual((view.name(2), view.selects(2), view.missing()), ("if2", False, ["e"]))
        self.assertEqual((view.missing(ever=True), View(["e", "n*"]).missing(ever=True)), ([], ["e", "n*"]))

    def test_words_alone(self):
        """`lost` and `again` are of no link, `done` is nothing, and a fault is of those that are asked for."""
        view, watch = View(["e"]), Watch(dumps=True)
        watch.begin("1")
        events = watch.done("1", 0) + watch.lost() + watch.begin("2") + watch.done("2", 0)
        self.assertEqual(told(view, *events), [("lost", "", "", []), ("again", "", "", [])])
        view.learn({(0, 0): link(0, "x")})  # of which none of these is
        self.assertEqual(told(view, *watch.lost()), [("lost", "", "", [])])
        (fault,) = watch.message(link(2, "f") + b"\5\0")
        self.assertIsNone(view.told(fault))
        self.assertEqual(told(View(), fault), [("fault", "if2", "", [])])

    def test_missing(self):
        """Alternative names come and go, one of several that are equal too."""
        view, watch = View(["a*", "b"]), Watch()
        for names, missing in (((), ["a*", "b"]), (("a", "b"), []), (("b", "a"), []), (("a", "a"), ["b"]),
                               (("a",), ["b"]), (("b",), ["a*"]), ((), ["a*", "b"])):
            for event in watch.message(link(2, "e", alt(*names))):
                view.told(event)
            self.assertEqual(view.missing(), missing, names)
        self.assertEqual(view.missing(ever=True), [])

    def test_learn(self):
        """A view that is made later, and hosts, which are apart."""
        watch = Watch()
        for it in BR, link(2, "e"):
            watch.message(it, host="a")
        view = View()
        view.learn(watch.links("a"), "a")
        self.assertEqual((view.name(9, "a"), view.name(9)), ("br0", "if9"))
        self.assertEqual(told(view, *watch.message(link(2, "e", master(9)), host="a")),
                         [("changed", "e", "", [("master", None, "br0")])])

    def test_settling(self):
        """Changes of a link become one, of the time of the first; what is as it was is not told."""
        view, settling, watch = View(), Settling(1e6), Watch()
        watch.begin("1")
        found = []
        for at, it in enumerate((BR, link(2, "e", mtu(1)), None, link(2, "e", mtu(2)), link(9, "br0", mtu(5)),
                                 link(2, "e", mtu(3)), BR)):
            events = watch.done("1", 0) if it is None else watch.message(it, time=f"t{at}")
            found += [one for event in events for held in view.told(event) for one in settling.add(held)]
        self.assertEqual((found, settling.due() > 9e5), ([], True))
        (gone,) = view.told(watch.message(BR, True)[0])
        first, last = settling.add(gone)
        self.assertEqual((first.event.time, first.changes, last), ("t3", [Change("mtu", 1, 3)], gone))
        self.assertEqual((settling.due(), settling.release()), (None, []))
        self.assertEqual(Settling(0).add(first), [first])

    def test_settling_of_lists(self):
        """A value of a list that comes, changes and goes meanwhile is one change, and none if it is as it was."""
        path, three, six = "data.egress-qos.mapping[from=1]", {"from": 1, "to": 3}, {"from": 1, "to": 6}
        for numbers, wanted in (((None, 3), [(path, None, three)]), ((None, 3, 6), [(path, None, six)]),
                                ((None, 3, None), []), ((3, 6, None), [(path, three, None)]), ((3, None), [
                                    (path, three, None)]), ((3, None, 3), []), ((3, None, 6), [(f"{path}.to", 3, 6)]),
                                ((None, 3, None, 6), [(path, None, six)]), ((3, None, 6, None), [(path, three, None)]),
                                ((3, 6), [(f"{path}.to", 3, 6)])):
            view, watch, settling = View(), Watch(), Settling(1e6)
            view.learn({(0, 2): link(2, "e")})
            for number in numbers:
                pairs = [(0, 7)] if number is None else [(0, 7), (1, number)]
                for event in watch.message(link(2, "e", mapping(*pairs))):
                    if event.change == "changed":
                        self.assertEqual([it for told in view.told(event) for it in settling.add(told)], [])
            self.assertEqual([tuple(it) for told in settling.release() for it in told.changes], wanted, numbers)

    def test_settling_of_texts(self):
        """Texts of lists that come and go again are nothing; a list is told with all its texts beside other values."""
        names, path = "prop-list.alt-ifname", "data.arp-ip-target"
        for steps, wanted in (
                ([alt("a"), alt("a", "b")], [(f"{names}[]", None, "b")]), ([alt("a"), alt("b"), alt("a")], []),
                ([alt("a"), alt("a", "a", "b"), alt("b", "a", "c")], [(f"{names}[]", None, it) for it in "bc"]),
                ([alt("a", "a"), alt(), alt("a")], [(f"{names}[]", "a", None)]),
                ([alt("a", "b"), alt("b", "a")], [(names, ["a", "b"], ["b", "a"])]),
                ([alt("a", "b"), alt("b", "a"), alt("a", "b")], []),
                ([alt("a", "b"), alt("b", "a"), alt("c", "a", "b")], [(f"{names}[]", None, "c")]),
                ([alt("a", "b", "c"), alt("b", "c", "a"), alt("c", "b", "a")], [(names, [*"abc"], [*"cba"])]),
                ([targets(1, 2), targets(2), bond(b"a")], [(path, ["10.0.0.1", "10.0.0.2"], "61")]),
                ([targets(1), bond(b"a"), bond(b"b"), targets(1)], []),
                ([targets(1), bond(b"a"), targets(2)], [(f"{path}[]", "10.0.0.1", None),
                                                        (f"{path}[]", None, "10.0.0.2")]),
                ([bond(b"a"), targets(1), targets(1, 2)], [(path, "61", ["10.0.0.1", "10.0.0.2"])]),
                ([bond(b"a"), targets(1), bond(b"b")], [(path, "61", "62")]),
                ([bond(b"a"), targets(1), bond(b"a")], []), ([bond(b"a"), targets(), targets(1), targets()], [
                    (path, "61", [])]), ([targets(), bond(b"a")], [(path, [], "61")])):
            view, watch, settling = View(details=True), Watch(), Settling(1e6)
            view.learn({(0, 2): link(2, "e", steps[0])})
            for event in [event for it in steps for event in watch.message(link(2, "e", it))][1:]:
                self.assertEqual([it for told in view.told(event) for it in settling.add(told)], [])
            self.assertEqual([tuple(it) for told in settling.release() for it in told.changes], wanted, steps)

    def test_settling_of_texts_alone(self):
        """The same of changes as they come, also of lists without any text."""
        of = "data.ns-ip6-target"
        came, gone, none, left = (Change(f"{of}[]", None, "a"), Change(f"{of}[]", "a", None), Change(of, None, []),
                                  Change(of, [], None))
        odd, even = Change(of, "61", None), Change(of, None, "61")
        order = Change("other", [{"number": 70}, {"number": 71}], [{"number": 71}, {"number": 70}])
        turned, back = Change("other[number=70].payload", "", "61"), Change("other[number=70].payload", "61", "")
        mtu_turned, mtu_back = Change("mtu", 1, 2), Change("mtu", 2, 1)
        for changes, wanted in (([came, came, gone], [came]), ([none, came], [came]), ([gone, left], [gone]),
                                ([gone, none], [gone]), ([none, left], []), ([none], [none]),
                                ([odd, came], [Change(of, "61", ["a"])]), ([gone, even], [Change(of, ["a"], "61")]),
                                ([order, mtu_turned], [mtu_turned]), ([mtu_turned, order, mtu_back], [order]),
                                ([turned, order, back], []), ([order, Change("other", order.new, order.old)], []),
                                ([came, mtu_turned, came], [came, came, mtu_turned])):
            settling = Settling(1e6)
            for it in changes:
                settling.add(Told(Event("changed", "", 0, 2), "changed", "e", "", [it]))
            self.assertEqual([it for told in settling.release() for it in told.changes], wanted, changes)

    def test_settling_of_functions(self):
        """What stands inside a function has paths, and becomes the function again."""
        function = {"mac": {"vf": 1, "mac": "02"}, "vlan-list": {"info": [{"vf": 1, "vlan": 6}, {"vf": 1, "vlan": 7}]},
                    "addresses": ["a", "b"]}
        settling = Settling(1e6)
        for it in (Change("vfinfo-list.info[vf=1]", None, function), Change("vfinfo-list.info[vf#0]", {}, None),
                   Change("vfinfo-list.info[vf=1].vlan-list.info.1.vlan", 7, 8), Change("mtu", 1, 2)):
            settling.add(Told(Event("changed", "", 0, 2), "changed", "e", "", [it]))
        (it,) = settling.release()
        function["vlan-list"]["info"][1]["vlan"] = 8
        self.assertEqual(it.changes, [("vfinfo-list.info[vf=1]", None, function), ("vfinfo-list.info[vf#0]", {}, None),
                                      ("mtu", 1, 2)])

    def test_settling_of_kept(self):
        """What is kept as it is inside a value has labels by its numbers; it comes and goes there too."""
        path = "af-spec.mst.entry[msti=3]"
        one, other, again = ({"number": number, "flags": [], "payload": it} for number, it in (
            (70, "61"), (71, "62"), (70, "63")))
        entry = {"msti": 3, "other": [one, other, again]}
        came, went, turned = Change(path, None, entry), Change(path, entry, None), Change(
            f"{path}.other[number=70#1].payload", "63", "64")
        left, back = (Change(f"{path}.other[number=71]", *it) for it in ((other, None), (None, other)))
        new = {**again, "payload": "64"}
        for changes, wanted in (([came], [came]), ([came, went], []), ([went, came], []), ([came, left, back], [came]),
                                ([came, turned], [Change(path, None, {"msti": 3, "other": [one, other, new]})]),
                                ([came, left], [Change(path, None, {"msti": 3, "other": [one, again]})]),
                                ([turned, left], [turned, left]), ([left, back], []), ([left], [left]),
                                ([left, Change(path, {"msti": 3, "other": [one, again]}, None)], [
                                    Change(path, {"other": [other, one, again], "msti": 3}, None)])):
            settling = Settling(1e6)
            for it in changes:
                settling.add(Told(Event("changed", "", 0, 2), "changed", "e", "", [it]))
            self.assertEqual([it for told in settling.release() for it in told.changes], wanted, changes)

    def test_settling_of_vlans(self):
        """VLANs that come, go and turn meanwhile are told as they are then, VLAN by VLAN, in ranges."""
        def change(at, old, new):
            return Change(f"af-spec.vlan-tunnel-info[vid={at}", old, new)

        def tunnels(first, last=None, ahead=1000, flags=()):
            ends = {} if last is None else {"id-end": last + ahead, "vid-end": last}
            return {"id": first + ahead, "flags": [*flags], "vid": first, **ends}

        came, went = change("10-20]", None, tunnels(10, 20)), change("15]", tunnels(15), None)
        joins, turned = change("21]", None, tunnels(21)), change("10-12].id", 1010, 2010)
        back, flags = change("10-12].id", 2010, 1010), change("12-20].flags", [], ["pvid"])
        mtu_turned = Change("mtu", 1, 2)
        halves = [change("10-14]", None, tunnels(10, 14)), change("16-20]", None, tunnels(16, 20))]
        plain = [Change(f"af-spec.vlan-info[vid={at}]", *it) for at, *it in (
            (1, None, {"flags": [], "vid": 1}), (2, None, {"flags": [], "vid": 2}),
            ("1-3", None, {"flags": [], "vid": 1, "vid-end": 3}), (3, None, {"flags": [], "vid": 3}))]
        for changes, wanted in (
                ([came], [came]), ([came, went], halves), ([*halves, change("15]", None, tunnels(15))], [came]),
                ([came, joins], [change("10-21]", None, tunnels(10, 21))]), ([turned], [turned]), ([turned, back], []),
                ([came, change("10-20]", tunnels(10, 20), None)], []),
                ([came, *(change(f"{it}]", tunnels(it), None) for it in range(10, 21))], []),
                ([came, turned], [change("10-12]", None, tunnels(10, 12, 2000)),
                                  change("13-20]", None, tunnels(13, 20))]),
                ([came, flags], [change("10-11]", None, tunnels(10, 11)), change("12-20]", None, tunnels(
                    12, 20, flags=["pvid"]))]),
                ([turned, flags], [change("10-11].id", 1010, 2010), change("12].id", 1012, 2012), change(
                    "12].flags", [], ["pvid"]), change("13-20].flags", [], ["pvid"])]),
                ([went, mtu_turned, joins], [went, joins, mtu_turned]), ([plain[0], plain[1], plain[3]], [plain[2]]),
                ([plain[3], plain[0]], [plain[0], plain[3]])):
            settling = Settling(1e6)
            for it in changes:
                settling.add(Told(Event("changed", "", 7, 2), "changed", "e", "", [it]))
            self.assertEqual([it for told in settling.release() for it in told.changes], wanted, changes)

    def test_vlans(self):
        for entries, wanted in (([], set()), ([(0, 5)], {(5, "")}), ([(2, 1), (4, 2)], {(1, "pvid"), (2, "untagged")}),
                                ([(8, 3), (16, 5)], {(3, ""), (4, ""), (5, "")}), ([(16, 5)], {(5, "")}),
                                ([(8, 6), (16, 5)], {(5, "")}), ([(8, 3)], set()),
                                ([(8, 3), (8, 5), (16, 6)], {(5, ""), (6, "")}),
                                ([(8, 3), (0, 4), (16, 6)], {(4, ""), (6, "")}),
                                ([(8, 3), (16, 4), (16, 6)], {(3, ""), (4, ""), (6, "")}),
                                ([(12, 3), (20, 4), (6, 1)], {(3, "untagged"), (4, "untagged"), (1, "pvid,untagged")}),
                                ([(8, 1), (16, 4094)], {(at, "") for at in range(1, 4095)})):
            self.assertEqual(vlans(link(2, "e", vlan(*entries), family=7)), wanted)
        self.assertEqual(vlans(link(2, "e") + b"\5\0"), set())

    def test_damaged_vlans(self):
        """Elements of another size are passed over, and end a range; a list of attributes may be damaged itself."""
        one, begin, end = ((2, it) for it in (b"\6\0\1\0", b"\x08\0\5\0", b"\x10\0\7\0"))
        for payload, wanted in (([(2, b"")], set()), ([(2, b"ab"), one, (2, bytes(8))], {(1, "pvid,untagged")}),
                                ([begin, (2, b"abc"), end], {(7, "")}), ([begin, end, (2, b"abc")], {5, 6, 7}),
                                ([(0, b"\2\0"), one, (3, [(1, u32(5))]), (0, b"\1\0")], {(1, "pvid,untagged")}),
                                (b"abc", set()), (b"", set())):
            wanted = {it if isinstance(it, tuple) else (it, "") for it in wanted}
            self.assertEqual(vlans(link(2, "e", (n.IFLA_AF_SPEC, payload), family=7)), wanted)
        self.assertEqual(vlans(link(2, "e", vlan((6, 1)))), set())  # a message of family 0 has none

    def test_flat(self):
        self.assertEqual(flat({"a": {"b": 1, "c": {"d": [1]}}, "e": {}, "f": None}),
                         {"a.b": 1, "a.c.d": [1], "f": None})


if __name__ == "__main__":
    unittest.main()
