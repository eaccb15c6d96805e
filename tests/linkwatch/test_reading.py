"""Reading: arguments, times, encodings, what settles, and JSON beside linkdiff."""

import json
import os
import subprocess
import time
import unittest

from linkwatch.options import Options
from made import LINKDIFF, PATIENCE, chance_lines, inside, line, mtu, name, state, stream

FIRST = [line(2, name("veth0"), mtu(1500)), line(3, name("br0"), mtu(1500))]
# arguments and what is said of them
MISUSED = [
    (["--every", "nan"], "--every: a number of seconds above 0, not nan"),
    (["--every", "inf"], "--every: a number of seconds above 0, not inf"),
    (["--for", "0"], "--for: a number of seconds above 0, not 0"),
    (["--settle", "-1"], "--settle: a number of seconds above 0, not -1"),
    (["--count", "1.5"], "--count: a number from 1 on, not 1.5"),
    (["--time", "local"], "--time: clock, utc or none, not local"),
    (["--color", ""], "--color: auto, always or never, not "),
    (["--read"], "--read: a file is missing"),
    (["--diff", "a"], "--diff: two files is missing"),
    (["--diff", "-", "-"], "--diff: only one of the files can be standard input"),
    (["--once", "--read", "x"], "only one of --once, --read, --diff and --rates"),
    (["--x\x1b"], "there is no option --x\x1b"),
]
# a word time=, and the time as clock, in UTC
TIMES = [
    ("2026-11-28T10:00:00.123456789Z", "10:00:00.123", "2026-11-28T10:00:00.123456Z"),
    ("2026-11-28T10:00:00Z", "-" * 12, "-" * 12),
    ("", "-" * 12, "-" * 12),
    ("2026-13-28T10:00:00.123456789Z", "-" * 12, "-" * 12),
]


class Reading(unittest.TestCase):
    maxDiff = None

    def setUp(self):
        os.environ["TZ"] = "UTC"
        time.tzset()

    def test_misused(self):
        for words, wanted in MISUSED:
            with self.assertRaises(ValueError, msg=words) as raised:
                Options(words)
            self.assertEqual(str(raised.exception), wanted)

    def test_options(self):
        it = Options(["a", "--count", "2", "--every", ".5", "b", "-", "--", "--json", "-x"])
        self.assertEqual((it.names, it.count, it.every, it.json), (["a", "b", "-", "--json", "-x"], 2, .5, False))
        self.assertEqual(Options([]).every, 60)

    def test_times(self):
        for when, clock, utc in TIMES:
            lines = stream(FIRST, line(2, name("veth0"), mtu(9000), at=when))
            for form, wanted in ("clock", clock), ("utc", utc):
                self.assertEqual(inside(["--time", form], lines)[0], f"{wanted}  veth0            mtu 1500 → 9000\n")

    def test_encodings(self):
        lines = stream(FIRST, line(2, name("ü日"), mtu(9000)))
        for encoding, wanted in (("ascii", "\\u00fc\\u65e5     name veth0 -> \\u00fc\\u65e5, mtu 1500 -> 9000\n"),
                                 ("latin-1", "ü\\u65e5          name veth0 -> ü\\u65e5, mtu 1500 -> 9000\n"),
                                 ("utf-8", "ü日              name veth0 → ü日, mtu 1500 → 9000\n")):
            self.assertEqual(inside(["--time", "none"], lines, encoding)[0], wanted)

    def test_json_beside_linkdiff(self):
        """Each line is linkdiff's, but for escapes: linkdiff leaves what is not ASCII as it is."""
        for seed in range(3):
            lines = list(chance_lines(seed, 400))
            text = "".join(f"{it}\n" for it in lines)
            ran = subprocess.run([LINKDIFF, "--changes-only", "--lenient"], input=text, capture_output=True, text=True,
                                 check=True, timeout=PATIENCE)
            found, _ = inside(["--json"], lines)
            self.assertTrue(found.isascii())
            self.assertEqual([list(json.loads(it).items()) for it in found.splitlines()],
                             [list(json.loads(it).items()) for it in ran.stdout.splitlines()])
            self.assertGreater(len(found.splitlines()), 50)

    def test_json_of_names(self):
        lines = stream(FIRST, line(2, name("veth0"), mtu(9000)), line(3, name("br0"), mtu(9000)))
        found = [json.loads(it) for it in inside(["--json", "br0"], lines)[0].splitlines()]
        self.assertEqual([(it["change"], it["ifname"]) for it in found], [("changed", "br0")])

    def test_settled(self):
        """The changes of a link in one line, of the time of the first, and none where it is as it was."""
        lines = stream(FIRST, *(line(2, name("veth0"), mtu(it), state(up), at=f"2026-11-28T10:00:0{at}.000000000Z")
                                for at, (it, up) in enumerate(((1400, 2), (1300, 6), (1200, 6)), 1)),
                       line(3, name("br0"), mtu(1400)), line(3, name("br0"), mtu(1500)), line(4, name("x"), what="del"))
        self.assertEqual(inside(["--settle", "1"], lines)[0],
                         "10:00:01.000  veth0            mtu 1500 → 1200, state none → up\n"
                         "10:00:00.000  x                gone\n")
        self.assertEqual(inside(["--settle", "1", "--time", "none"], lines[:-1])[0],
                         "veth0            mtu 1500 → 1200, state none → up\n")


if __name__ == "__main__":
    unittest.main()
