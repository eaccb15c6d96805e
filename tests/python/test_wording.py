"""`Words`: each form of a value, and that no character gets through which a terminal must not see."""

import sys
import unicodedata
import unittest

from linkwire import Change, Event, Fault, Told, Words, escaped, width

ROWS = [
    ("mtu", 1500, 9000, "mtu 1500 → 9000"),
    ("master", None, "br0", "master none → br0"),
    ("master", "br0", None, "master br0 → none"),
    ("ifname", "veth1", "core", "name veth1 → core"),
    ("operstate", "down", "up", "state down → up"),
    ("txqlen", 1000, 7, "qlen 1000 → 7"),
    ("port.cost", 2, 77, "cost 2 → 77"),
    ("data.ageing-time", 30000, 1000, "data.ageing-time 30000 → 1000"),
    ("ifalias", None, "none", 'alias none → "none"'),
    ("ifalias", None, "", 'alias none → ""'),
    ("ifalias", "a b", 'say "x"', 'alias "a b" → "say \\"x\\""'),
    ("ifalias", "a\\b", "é", "alias a\\\\b → é"),
    ("ifalias", "a→b", "[x]", 'alias "a→b" → "[x]"'),
    ("ifalias", "a,b", "a;b", 'alias "a,b" → "a;b"'),
    ("ifalias", "(x)", "\x1b[2J", 'alias "(x)" → "\\u001b[2J"'),
    ("ifalias", "x" * 64, "x" * 65, f"alias {'x' * 64} → {'x' * 60}...65"),
    ("list", [1, 2], ["a", "b c"], 'list [1 2] → [a "b c"]'),
    ("ifi-flags", ["up"], ["up", "running"], "flags +running"),
    ("ifi-flags", ["up", "promisc"], ["up"], "flags -promisc"),
    ("ifi-flags", None, ["up"], "flags +up"),
    ("prop-list.alt-ifname", ["a", "b c"], ["a", "d"], 'altname -"b c" +d'),
    ("prop-list.alt-ifname", ["a", "b c"], ["b c", "a"], 'altname [a "b c"] → ["b c" a]'),
    ("prop-list.alt-ifname[]", None, "b c", 'altname +"b c"'),
    ("prop-list.alt-ifname[]", "\x1b", None, "altname -\\u001b"),
    ("data.arp-ip-target[]", None, "10.0.0.1", "data.arp-ip-target +10.0.0.1"),
    ("data.arp-ip-target", None, [], "data.arp-ip-target none → []"),
    ("data.arp-ip-target", ["10.0.0.1"], "0102", "data.arp-ip-target [10.0.0.1] → 0102"),
    ("other", [{"number": 70, "payload": ""}, {"number": 71}], [{"number": 71}, {"number": 70, "payload": ""}],
     'other [(number 70,payload "") (number 71)] → [(number 71) (number 70,payload "")]'),
    ("port.vlan", frozenset({(1, "pvid")}), frozenset({(1, "")}), "vlan -1(pvid) +1"),
    ("port.vlan", frozenset({(1, "a"), (2, "a"), (3, ""), (5, "")}), frozenset(), "vlan -1-2(a) -3 -5"),
    ("port.vlan", frozenset(), frozenset((it, "untagged") for it in (10, 11, 12, 20)),
     "vlan +10-12(untagged) +20(untagged)"),
    ("af-spec", None, {}, "af-spec none → {}"),
    ("af-spec.mst.entry[msti=2]", None, {"msti": 2}, "af-spec.mst.entry +msti=2"),
    ("data.egress-qos.mapping[from=3]", {"from": 3, "to": 4}, None, "data.egress-qos.mapping -from=3(to 4)"),
    ("vfinfo-list.info[vf=1#1]", None, {"mac": {"vf": 1, "mac": "a b"}, "trust": {"vf": 2, "setting": 1}},
     'vfinfo-list.info +vf=1#1(mac.mac "a b",trust.vf 2,trust.setting 1)'),
    ("vfinfo-list.info[vf#0]", None, {}, "vfinfo-list.info +vf#0"),
    ("vfinfo-list.info[vf#0]", {"vlan-list": {"info": [{"vf": 1}, "\x1b"]}}, None,
     'vfinfo-list.info -vf#0(vlan-list.info [(vf 1) \\u001b])'),
    ("other[number=70]", None, {"number": 70, "flags": [], "payload": "00"}, "other +number=70(flags [],payload 00)"),
    ("data.other[number=68#1]", {"number": 68, "name": "headroom", "flags": ["nested"], "payload": ""}, None,
     'data.other -number=68#1(name headroom,flags [nested],payload "")'),
    ("other[number=70].payload", "00", "01", "other[number=70].payload 00 → 01"),
    ("af-spec.mst.entry[msti#0]", "61", "62", "af-spec.mst.entry[msti#0] 61 → 62"),
    ("af-spec.mst.entry[msti#0]", None, "61", "af-spec.mst.entry[msti#0] none → 61"),
    ("af-spec.vlan-info[vid=10]", None, {"flags": [], "vid": 10}, "af-spec.vlan-info +vid=10(flags [])"),
    ("af-spec.vlan-info[vid=10-20]", None, {"flags": ["pvid"], "vid": 10, "vid-end": 20},
     "af-spec.vlan-info +vid=10-20(flags [pvid])"),
    ("af-spec.vlan-info[vid=10-20].flags", [], ["untagged"], "af-spec.vlan-info[vid=10-20].flags [] → [untagged]"),
    ("af-spec.vlan-tunnel-info[vid=20]", {"id": 20, "flags": [], "vid": 20}, None,
     "af-spec.vlan-tunnel-info -vid=20(id 20,flags [])"),
    ("af-spec.vlan-tunnel-info[vid=10-20]", {"id": 10, "flags": [], "vid": 10, "id-end": 20, "vid-end": 20}, None,
     "af-spec.vlan-tunnel-info -vid=10-20(id 10,flags [],id-end 20)"),
    ("af-spec.vlan-tunnel-info[vid=10-20].id", 1010, 2010, "af-spec.vlan-tunnel-info[vid=10-20].id 1010 → 2010"),
]
MTU, ALIAS = Change("mtu", 1500, 9000), Change("ifalias", None, "\x1b")
# what is told, and how that is said
TOLD = [
    (("new", "e"), (), ""),
    (("new", "e"), (MTU, ALIAS), 'mtu 9000|alias \\u001b'),
    (("gone", "e"), (), ""),
    (("changed", "e"), (MTU, ALIAS), "mtu 1500 → 9000|alias none → \\u001b"),
    (("changed", "e", "b r"), (MTU,), "port of b\\u0020r: mtu 1500 → 9000"),
    (("changed", "e"), (*(Change(f"list[vf={it}]", None, {"vf": it, "to": 7}) for it in (1, 2)), MTU,
                        Change("list[vf=3]", {"vf": 3}, None), Change("other[vf=3]", {"vf": 3}, None)),
     "list +vf=1(to 7) +vf=2(to 7)|mtu 1500 → 9000|list -vf=3|other -vf=3"),
    (("changed", "e"), (*(Change("prop-list.alt-ifname[]", it, None) for it in "aab"), MTU,
                        *(Change(f"{it}[]", None, "c") for it in ("prop-list.alt-ifname", "data.arp-ip-target"))),
     "altname -a -a -b|mtu 1500 → 9000|altname +c|data.arp-ip-target +c"),
    (("changed", "e", "br0"), (Change("port.list[]", None, "c"),), "port of br0: list +c"),
    (("lost", ""), (), "messages of the kernel: all links are asked for again"),
    (("again", ""), (), "all is known: what changed meanwhile is told above"),
    (("fault", "e"), (), "too few bytes for the header of an attribute, at byte 36"),
]
WIDTHS = [("abc", 3), ("日本", 4), ("e\u0301", 1), ("ü", 1), ("", 0), ("\x1b[1;31m日本\x1b[0m", 4),
          ("\x1b[36me\x1b[0m", 1)]
BIDIRECTIONAL = [0x61c, *range(0x200e, 0x2010), *range(0x202a, 0x202f), *range(0x2066, 0x206a)]


class Wording(unittest.TestCase):
    def test_rows(self):
        words = Words()
        for path, old, new, wanted in ROWS:
            self.assertEqual(words.change(Change(path, old, new)), wanted)

    def test_marked(self):
        """What stands behind an arrow is marked, and nothing else."""
        words = Words(mark="<{}>".format)
        self.assertEqual([words.change(MTU), words.change(MTU, True), words.change(Change("ifi-flags", [], ["up"]))],
                         ["mtu 1500 → <9000>", "mtu 9000", "flags +up"])

    def test_whole(self):
        self.assertEqual(Words("utf-8", True).value("x" * 99), "x" * 99)

    def test_other_encodings(self):
        for encoding, wanted in (("ascii", "alias \\u00fc -> \\u65e5"), ("latin-1", "alias ü -> \\u65e5"),
                                 ("utf-8", "alias ü → 日")):
            self.assertEqual(Words(encoding).change(Change("ifalias", "ü", "日")), wanted)
        self.assertEqual(Words("ascii").value("a->b"), '"a->b"')

    def test_told(self):
        event = Event("fault", "", fault=Fault("frame-short", 36, (), b""))
        for (what, *of), changes, wanted in TOLD:
            told = Told(event, what, *of)._replace(changes=changes)
            self.assertEqual("|".join(Words().told(told)), wanted)

    def test_names(self):
        self.assertEqual(Words().name("a b\n"), "a\\u0020b\\u000a")

    def test_widths(self):
        for text, columns in WIDTHS:
            self.assertEqual(width(text), columns)

    def test_every_code_point(self):
        """None of the categories C and Z but the blank, nor a control of writing direction, gets through."""
        wrong = []
        for code in range(sys.maxunicode + 1):
            it = chr(code)
            wanted = it
            if unicodedata.category(it)[0] in "CZ" and it != " " or code in BIDIRECTIONAL:
                wanted = f"\\u{code:04x}" if code < 0x10000 else f"\\U{code:08x}"
            if escaped(it) != wanted and it != "\\":
                wrong.append(code)
        self.assertEqual(wrong, [])


if __name__ == "__main__":
    unittest.main()
