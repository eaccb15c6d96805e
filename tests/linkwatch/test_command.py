"""The command: statuses, errors in one line, output that fails, two files compared, the table of --once."""

import json
import subprocess
import tempfile
import unittest

from made import BEGIN, COMMAND, ENVIRONMENT, PATIENCE, line, linkwatch, mtu, name, stream

FIRST = [line(2, name("veth0"), mtu(1500)), line(3, name("br0"), mtu(1500))]
CHANGED = stream(FIRST, line(2, name("veth0"), mtu(9000)))


def diffed(old, new, *words):
    """What `linkwatch --diff` writes of two recordings, what it says, and its status."""
    with tempfile.TemporaryDirectory() as folder:
        for file, content in ("OLD", old), ("NEW", new):
            with open(f"{folder}/{file}", "w", encoding="utf-8") as it:
                it.write("".join(f"{one}\n" for one in content))
        ran = subprocess.run([*COMMAND, "--diff", "OLD", "NEW", *words], cwd=folder, capture_output=True, text=True,
                             check=False, timeout=PATIENCE, env=ENVIRONMENT)
    return ran.stdout.splitlines(), ran.stderr, ran.returncode


class Command(unittest.TestCase):
    maxDiff = None

    def test_zone(self):
        self.assertEqual(linkwatch(["--read", "-"], CHANGED, TZ="CET-1")[0].decode()[:8], "11:00:00")

    def test_statuses(self):
        for words, wanted, said in (
                (["--nothing"], 2, "linkwatch: there is no option --nothing\n"),
                (["--read", "/no/such\x1b"], 2, "linkwatch: /no/such\\u001b: No such file or directory\n"),
                (["--read", "/"], 2, "linkwatch: /: Is a directory\n"),
                (["--netns", "no-such"], 2, "linkwatch: /var/run/netns/no-such: No such file or directory\n"),
                (["--once", "no-such\x1b"], 1, "linkwatch: no link no-such\\u001b\n"),
                (["--read", "-", "--time", "none", "x\x1b", "veth0", "y*"], 1,
                 "linkwatch: no link x\\u001b\nlinkwatch: no link y*\n"),
                (["--read", "-", "--json", "x"], 1, "linkwatch: no link x\n"), (["--read", "-", "br0", "v*"], 0, ""),
                (["--read", "-", "--count", "1"], 0, ""), (["--version"], 0, ""), (["--help"], 0, "")):
            found = linkwatch(words, CHANGED + CHANGED)
            self.assertEqual(found[1:], (said, wanted), words)
        _, said, status = linkwatch([], [], LINKWIRE="/no/such")
        self.assertRegex(said, r"\Alinkwatch: linkwire: .* does not load: .*\n\Z")
        self.assertEqual(status, 2)

    def test_lines_that_are_none(self):
        found, said, status = linkwatch(["--read", "-", "--time", "none"], ["x\x1b", *CHANGED])
        self.assertEqual((found.decode(), status), ("veth0            mtu 1500 → 9000\n", 0))
        self.assertRegex(said, r"\Alinkwatch: line 1: [ -~]*\n\Z")

    def test_output_that_fails(self):
        for redirection, status, said in ((">/dev/full", 2, "linkwatch: No space left on device\n"),
                                          (">&-", 2, "linkwatch: standard output is closed\n"),
                                          ("2>&- >/dev/full", 2, ""), ("<&-", 2, "linkwatch: Bad file descriptor\n")):
            ran = subprocess.run(["sh", "-c", f'"$@" {redirection}', "sh", *COMMAND, "--read", "-"], check=False,
                                 input="\n".join(CHANGED), text=True, stderr=subprocess.PIPE, env=ENVIRONMENT,
                                 timeout=PATIENCE)
            self.assertEqual((ran.returncode, ran.stderr), (status, said), redirection)

    def test_at_once(self):
        """A line is written before more is read."""
        with subprocess.Popen([*COMMAND, "--read", "-", "--time", "none"], stdin=subprocess.PIPE,
                              stdout=subprocess.PIPE, text=True, env=ENVIRONMENT) as ran:
            for mtu_now, mtu_before in (9000, 1500), (1400, 9000):
                lines = CHANGED if mtu_now == 9000 else [line(2, name("veth0"), mtu(1400))]
                ran.stdin.write("".join(f"{it}\n" for it in lines))
                ran.stdin.flush()
                self.assertEqual(ran.stdout.readline(), f"veth0            mtu {mtu_before} → {mtu_now}\n")

    def test_diff(self):
        """Pairs of recordings, the lines, what is said, and the status."""
        whole, other = stream(FIRST), stream([line(2, name("veth0"), mtu(9000)), line(4, name("x"))])
        hosted = [[f"host=a {it}" for it in lines] for lines in (whole, other)]
        cut = [BEGIN, *FIRST]
        told = ["veth0            mtu 1500 → 9000", "x                new", "br0              gone"]
        for old, new, lines, said, wanted in (
                (whole, whole, [], "", 0), (whole, other, told, "", 1),
                (hosted[0], hosted[1],
                 ["a/veth0          mtu 1500 → 9000", "a/x              new", "a/br0            gone"], "", 1),
                (FIRST, other[1:-1], told, "", 1),
                (cut, other, told[:1] + told[2:], "OLD: no whole dump: what came is not told", 2),
                (whole, [BEGIN, other[1]], told[:1], "NEW: no whole dump: what went is not told", 2),
                (whole, [*whole, "zz"], [], "NEW: line 5: neither words alone nor hexadecimal digits: 'zz'", 2)):
            for more in [], ["--settle", "9", "--time", "utc"]:  # which change nothing
                self.assertEqual(diffed(old, new, *more), (lines, said and f"linkwatch: {said}\n", wanted))

    def test_diff_of_names(self):
        """A name that no link of either file has is trouble; one that a link had is none."""
        other, named = stream([line(2, name("x"), mtu(1500))]), [*CHANGED, line(2, name("y"), mtu(9000))]
        cut = "linkwatch: OLD: no whole dump: what came is not told\n"
        for old, new, names, lines, said, wanted in (
                (CHANGED, CHANGED, ["veth0", "b*"], [], "", 0),
                (CHANGED, CHANGED, ["no", "veth0", "n*"], [], "linkwatch: no link no\nlinkwatch: no link n*\n", 2),
                (CHANGED, other, ["br0", "no"], ["br0              gone"], "linkwatch: no link no\n", 2),
                (CHANGED, other, ["br0", "x"],
                 ["x                name veth0 → x, mtu 9000 → 1500", "br0              gone"], "", 1),
                (CHANGED, named, ["veth0"], ["y                name veth0 → y"], "", 1),
                ([BEGIN], other, ["x"], [], cut, 2), ([BEGIN], other, ["no"], [], f"{cut}linkwatch: no link no\n", 2)):
            self.assertEqual(diffed(old, new, *names), (lines, said, wanted))

    def test_once(self):
        rows = linkwatch(["--once"], [])[0].decode().splitlines()
        self.assertEqual(rows[0].split(), ["NAME", "INDEX", "KIND", "MASTER", "STATE", "MTU", "ADDRESS"])
        self.assertEqual(rows[1].split()[:2], ["lo", "1"])
        (one,) = linkwatch(["--once", "--json", "l[o]"], [])[0].splitlines()
        self.assertEqual(json.loads(one)["ifname"], "lo")


if __name__ == "__main__":
    unittest.main()
