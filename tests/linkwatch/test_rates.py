"""The table of --rates, of made messages."""

import io
import json
import struct
import unittest

from linkwatch.options import Options
from linkwatch.printing import Output
from linkwatch.rates import Link, counted, json_lines, rates, short, table
from linkwire import build
from linkwire import numbers as n
from made import altname, name

SHORT = [(0, "0"), (0.5, "0.5"), (7, "7"), (999.4, "999"), (999.6, "1k"), (1500, "1.5k"), (123456, "123k"),
         (999600, "1M"), (2.5e9, "2.5G"), (1e13, "10T"), (1e16, "10P"), (2.0 ** 64, "18.4E")]
OPTIONS = [(["--rates"], 1, []), (["--rates", "5", "eth0"], 5, ["eth0"]), (["--rates", "eth0"], 1, ["eth0"]),
           (["--rates", ".5"], .5, []), (["--", "--rates"], 0, ["--rates"]), (["--rates", "--json"], 1, [])]


def stats(*values):
    return n.IFLA_STATS64, struct.pack("<24Q", *values, *[0] * (24 - len(values)))


def link(index, called, *values):
    return build([(n.IFLA_IFNAME, called), stats(*values), altname("also")], index=index)


OLD = [link(1, "lo", 10, 20, 1000, 2000), link(2, "eth0", 5, 5, 5, 5), link(3, "set-back", 9), link(5, "went")]
NEW = [link(1, "lo", 12, 24, 4000, 2000, 1, 2), link(2, "eth\x1b0", 5, 5, 5, 5), link(3, "set-back", 8),
       link(4, "came"), build([(n.IFLA_IFNAME, b"\xe9")], index=6)]


class Rates(unittest.TestCase):
    def test_short(self):
        for value, wanted in SHORT:
            self.assertEqual(short(value), wanted)

    def test_options(self):
        for words, seconds, names in OPTIONS:
            it = Options(words)
            self.assertEqual((it.rates, it.names), (seconds, names), words)

    def test_counted(self):
        self.assertEqual(counted([NEW[0], NEW[4]]), {1: (["lo", "also"], (12, 24, 4000, 2000, 1, 2))})
        latin = build([name(b"caf\xe9\0"), stats()], index=7)
        self.assertEqual(counted([latin])[7].names, ["caf\udce9"])

    def test_rates(self):
        self.assertEqual(rates(counted(OLD), counted(NEW), 2.0), {
            1: Link(["lo", "also"], (1, 2, 1500, 0, .5, 1)), 2: Link(["eth\x1b0", "also"], (0,) * 6)})

    def test_table(self):
        found = rates(counted(OLD), counted(NEW), 2.0)
        output = Output(Options([]), io.StringIO())
        self.assertEqual(table(found, output, None), [
            "NAME           IN B/s    OUT B/s   IN pkt/s  OUT pkt/s   IN err/s  OUT err/s",
            "lo               1.5k          0          1          2        0.5          1",
            "eth\\u001b0          0          0          0          0          0          0"])
        self.assertEqual(table(found, output, 1)[1:], [
            "lo         1.5k          0          1          2        0.5          1", "and 1 more"])

    def test_json(self):
        one, two = json_lines(rates(counted(OLD), counted(NEW), 2.0), "t", 2.0)
        self.assertEqual(json.loads(one), {"time": "t", "seconds": 2.0, "ifi-index": 1, "ifname": "lo", "rx-packets": 1,
                                           "tx-packets": 2, "rx-bytes": 1500, "tx-bytes": 0, "rx-errors": .5,
                                           "tx-errors": 1})
        self.assertIn('"ifname":"eth\\u001b0"', two)


if __name__ == "__main__":
    unittest.main()
