#!/usr/bin/env python3
"""Holds what linkdiff tells of linkdump's lines to what was done to links, in a network namespace.

    python3 tests/linkdiff/live.py LINKDUMP LINKDIFF

Of each case the lines are known: what is told, the family, the name, and the paths of what changed. Links go between
two dumps, and others come at their indices; news and dumps are followed; a link has an alias that is no UTF-8; and
linkdump stands still while thousands of changes are announced. What needs a right or a kind of link that is not there
is 'skipped'. The last line is 'linkdiff live passed', or what is skipped.
"""

import json
import os
import queue
import shutil
import signal
import subprocess
import sys
import tempfile
import threading
import time

TOP = os.path.dirname(os.path.dirname(os.path.dirname(os.path.abspath(__file__))))
sys.path.append(TOP + "/tests/linkdump")
from churn import batch, links, run

LATIN_1 = b"link set %s alias caf\xe9"
VETH = "link add %s0 index %d address 02:00:00:00:00:%02x type veth peer name %s1 index %d address 02:00:00:00:01:%02x"


def fails(what):
    sys.exit(f"linkdiff live: {what}")


def compares(case, found, wanted):
    if found != wanted:
        fails(f"{case}: told is\n  " + "\n  ".join(found[:40]) + "\nand not\n  " + "\n  ".join(wanted))


def veth(name, index):
    """Returns the words of ip for a pair, of which each has its index and its address from run to run."""
    return VETH % (name, index, index % 256, name, index + 1, index % 256)


def told(line):
    """Returns of a line of linkdiff what is told, without times and values."""
    it = json.loads(line)
    if "fault" in it:
        return f"{it['fault']} {it['at']} {it['before'].get('ifname')}"
    if it["change"] == "lost":
        return "lost"
    paths = [change["path"] for change in it.get("changes", [])]
    return " ".join([it["change"], str(it["ifi-family"]), it["ifname"], *paths])


def without_repeats(lines):
    """Returns each line that is another than the one before: how often the kernel announces is not known."""
    return [it for at, it in enumerate(lines) if at == 0 or it != lines[at - 1]]


def left(lines):
    """Returns the name of each interface that there is by these lines of linkdiff, by its index."""
    names = {}
    for it in map(json.loads, lines):
        if it.get("ifi-family") == 0 and it.get("change") == "gone":
            del names[it["ifi-index"]]
        elif it.get("ifi-family") == 0 and "change" in it:
            names[it["ifi-index"]] = it["ifname"]
    return names


class Between:
    """Two dumps, and what is done between them."""

    def __init__(self, programs):
        self.linkdump, self.linkdiff = programs

    def dump(self, *words):
        return subprocess.run([self.linkdump, *words], capture_output=True, check=True, timeout=60).stdout

    def told(self, lines, *words):
        ran = subprocess.run([self.linkdiff, *words], input=lines, capture_output=True, check=True, timeout=60)
        return [told(it) for it in ran.stdout.splitlines()]

    def case(self, case, families, commands, wanted):
        """Holds { linkdump; commands; linkdump; } | linkdiff --changes-only to the lines that are wanted."""
        text = '{ "$0" --family "$2" && ip -batch - && "$0" --family "$2"; } | "$1" --changes-only'
        ran = run("sh", "-c", text, self.linkdump, self.linkdiff, families, input="".join(it + "\n" for it in commands))
        if ran.returncode or ran.stderr:
            fails(f"{case}: {ran.stderr}")
        compares(case, [told(it) for it in ran.stdout.splitlines()], wanted)

    def cases(self):
        batch([veth("veth", 100)])
        self.case("a link goes", "unspec", ["link del veth0"], ["gone 0 veth0", "gone 0 veth1"])
        batch([veth("veth", 100)])
        self.case("a bridge comes at its index", "unspec",
                  ["link del veth0", "link add bridge0 index 100 type bridge"],
                  ["gone 0 veth0", "new 0 bridge0", "gone 0 veth1"])
        batch(["link del bridge0", veth("veth", 100)])
        self.case("a link of the same kind comes at its index", "unspec", ["link del veth0", veth("again", 100)],
                  ["changed 0 again0 ifname", "changed 0 again1 ifname"])
        batch(["link add bridge0 index 50 address 02:00:00:00:00:50 type bridge", "link set again0 master bridge0"])
        self.case("a bridge comes at the index of a port", "unspec,bridge",
                  ["link del again0", "link add other0 index 100 type bridge"],
                  ["gone 0 again0", "gone 7 again0", "new 0 other0", "gone 0 again1", "new 7 other0"])
        batch(["link del other0", "link del bridge0"])
        print("linkdiff live: links that go between two dumps, and indices that are used again")

    def files(self):
        """A bridge at the index of another link in one of two files: that one went, and the bridge came."""
        batch([veth("veth", 110)])
        before = self.dump()
        batch(["link del veth0", "link add bridge0 index 110 type bridge"])
        after = self.dump()
        batch(["link del bridge0"])
        self.beside("a bridge at its index", before, after, ["gone 0 veth0", "new 0 bridge0", "gone 0 veth1"])
        self.beside("a veth at the index of a bridge", after, before,
                    ["gone 0 bridge0", "new 0 veth0", "new 0 veth1"])

    def beside(self, case, old, new, wanted, *words):
        with tempfile.NamedTemporaryFile() as file:
            file.write(old)
            file.flush()
            compares(f"two files: {case}", self.told(new, *words, file.name, "-"), wanted)

    def refusals(self):
        """An alias that is no UTF-8 in one of two files: the link neither went nor came."""
        batch([veth("alias", 120)])
        before = self.dump()
        alias("alias0")
        after = self.dump()
        fault = "not-utf8 IFLA_IFALIAS alias0"
        for case, old, new in ("new", before, after), ("old", after, before):
            self.beside(f"an alias that is no UTF-8 in the {case} one", old, new, [fault])
            self.beside("the same with --lenient", old, new, ["changed 0 alias0 refused.ifla_ifalias"], "--lenient")
        batch(["link del alias0"])


class Watched:
    """linkdump --monitor | linkdiff, where the lines of both are seen."""

    def __init__(self, programs, of_linkdump=(), of_linkdiff=()):
        linkdump, linkdiff = programs
        self.errors = tempfile.TemporaryFile()
        self.dump = subprocess.Popen([linkdump, "--monitor", *of_linkdump], stdout=subprocess.PIPE, stderr=self.errors)
        self.diff = subprocess.Popen([linkdiff, *of_linkdiff], stdin=subprocess.PIPE, stdout=subprocess.PIPE)
        self.lines, self.told, self.all = queue.Queue(), queue.Queue(), []
        self.threads = [threading.Thread(target=it, daemon=True) for it in (self.passes, self.takes)]
        for it in self.threads:
            it.start()
        self.until(self.lines, b" family=7 links=")

    def passes(self):
        for line in self.dump.stdout:
            self.diff.stdin.write(line)
            self.diff.stdin.flush()
            self.lines.put(line)
        self.diff.stdin.close()

    def takes(self):
        for line in self.diff.stdout:
            self.told.put(line)

    def until(self, lines, text):
        """Returns the lines up to one with a text."""
        found = [b""]
        while text not in found[-1]:
            try:
                found.append(lines.get(timeout=60))
            except queue.Empty:
                fails(f"no line with {text} after {found[-1][:200]}")
        return found[1:]

    def settle(self):
        """Returns what is told up to a change that is made now."""
        len_ = links("marker0")[0]["txqlen"] + 1
        batch([f"link set marker0 txqueuelen {len_}"])
        found = self.until(self.told, b'"ifname":"marker0","changes":[{"path":"txqlen","old":%d,' % (len_ - 1))
        self.all += found
        return [told(it) for it in found[:-1]]

    def is_dropped(self):
        """Whether the kernel had to drop messages for linkdump."""
        with open("/proc/net/netlink", encoding="utf-8") as it:
            rows = [row.split() for row in it.readlines()[1:]]
        return any(row[1] == "0" and row[2] == str(self.dump.pid) and row[8] != "0" for row in rows)

    def stops(self):
        """Ends linkdump, and with its lines linkdiff."""
        self.dump.terminate()
        if self.dump.wait(60) != -signal.SIGTERM or self.diff.wait(60):
            fails(f"status {self.dump.returncode} and {self.diff.returncode}")
        for it in self.threads:
            it.join()
        for it in self.dump.stdout, self.diff.stdout, self.errors:
            it.close()


def alias(name):
    subprocess.run(["ip", "-batch", "-"], input=LATIN_1 % name.encode() + b"\n", check=True, timeout=60)


def follows(programs):
    """What is there at first has no line, and what the kernel does not announce has one with the next dump."""
    batch([veth("follow", 180)])
    watched = Watched(programs, ["--every", "0.3"], ["--changes-only"])
    compares("at first", watched.settle(), [])
    batch(["link set follow0 alias quiet"])
    found = watched.until(watched.told, b'"new":"quiet"')
    compares("an alias of a link that is down", [told(it) for it in found], ["changed 0 follow0 ifalias"])
    batch(["link set follow0 txqueuelen 7", "link del follow0"])
    compares("a link goes", watched.settle(), ["changed 0 follow0 txqlen", "gone 0 follow0", "gone 0 follow1"])
    batch(["link add follow0 type bridge"])
    watched.until(watched.told, b'"change":"new","ifi-family":7')
    compares("a bridge comes", watched.settle(), [])
    batch(["link del follow0"])
    compares("a bridge goes", watched.settle(), ["gone 0 follow0", "gone 7 follow0"])
    watched.stops()
    print("linkdiff live: what changes from now on, with --every and --changes-only")


def aliases(programs):
    """An alias that is no UTF-8 comes, goes and comes again, and then its link goes."""
    batch([veth("alias", 120), veth("only", 130), "link set alias0 up", "link set only0 up"])
    for it in "alias0", "only0":  # the kernel tells later that the peer is down
        for _ in range(100):
            if links(it)[0]["operstate"] == "LOWERLAYERDOWN":
                break
            time.sleep(0.1)
    alias("only0")
    watched = Watched(programs)
    fault, only = "not-utf8 IFLA_IFALIAS alias0", "not-utf8 IFLA_IFALIAS only0"
    start = [*(f"new 0 {it}" for it in ("lo", "marker0", "marker1", "alias0", "alias1", "only1")), only]
    compares("what is there", sorted(watched.settle()), sorted(start))
    alias("alias0")
    batch(["link set alias0 txqueuelen 1400"])
    compares("an alias that is no UTF-8", without_repeats(watched.settle()), [fault])
    run("ip", "link", "set", "alias0", "alias", "")
    compares("no alias", watched.settle(), ["changed 0 alias0 txqlen"])
    alias("alias0")
    batch(["link del alias0"])
    found = watched.settle()
    compares("its link goes", [it for it in without_repeats(found) if not it.startswith("changed 0 alias1 ")],
             [fault, "gone 0 alias0", "gone 0 alias1"])
    batch(["link del only0"])
    found = watched.settle()
    compares("a link of refusals alone", [it for it in without_repeats(found) if not it.startswith("changed 0 only1 ")],
             [only, "gone 0 only1"])
    watched.stops()
    print("linkdiff live: an alias that is no UTF-8, that is taken away, and whose link goes")


def paths(lines, name):
    """Returns the paths that changed of an interface alone, by what is told."""
    found = [it.split()[3:] for it in lines if it.startswith(f"changed 0 {name} ")]
    return {path for line in found for path in line}


def leniently(programs):
    """With --lenient a link whose alias is no UTF-8 has news as any other, and as the port of a bridge too."""
    batch([veth("odd", 190), "link add bridge0 index 195 address 02:00:00:00:00:95 type bridge", "link set odd0 up"])
    watched = Watched(programs, of_linkdiff=["--lenient"])
    watched.settle()
    alias("odd0")
    batch(["link set odd0 txqueuelen 1400"])
    compares("an alias that is no UTF-8", sorted(paths(watched.settle(), "odd0") - {"operstate"}),
             ["refused.ifla_ifalias", "txqlen"])
    batch(["link set odd0 master bridge0"])
    found = watched.settle()
    if "master" not in paths(found, "odd0") or "new 7 odd0" not in found:
        fails(f"a port whose alias is no UTF-8: told is {found}")
    run("ip", "link", "set", "odd0", "alias", "")
    batch(["link set odd0 txqueuelen 1401"])
    if not {"refused.ifla_ifalias", "txqlen"} <= paths(watched.settle(), "odd0"):
        fails(f"an alias that is taken away: told is {found}")
    alias("odd0")
    batch(["link del odd0"])
    found = watched.settle()
    if not {"gone 0 odd0", "gone 7 odd0"} <= set(found):
        fails(f"its link goes: told is {found}")
    batch(["link del bridge0"])
    watched.stops()
    if any("fault" in json.loads(it) for it in watched.all):
        fails("a fault is told")
    print("linkdiff live: with --lenient a link, and a port, whose alias is no UTF-8")


def stands_still(programs):
    """linkdump is stopped, and more is announced than its queue holds."""
    batch([veth("early", 140), veth("other", 150), veth("busy", 160)])
    watched = Watched(programs)
    watched.settle()
    os.kill(watched.dump.pid, signal.SIGSTOP)
    try:
        batch(["link set early0 txqueuelen 1301", "link set other0 txqueuelen 1302"])
        for _ in range(100):
            batch([f"link set busy0 txqueuelen {1000 + it}" for it in range(400)])
            if watched.is_dropped():
                break
        else:
            fails("a queue does not run over")
        batch(["link del early0", "link del other0", "link add other0 index 150 type bridge", veth("late", 170),
               "link set busy0 txqueuelen 1303"])
    finally:
        os.kill(watched.dump.pid, signal.SIGCONT)
    watched.until(watched.lines, b" type=lost ")
    watched.until(watched.lines, b" family=7 links=")
    found = watched.settle()
    lost = found.index("lost")
    compares("what was queued", without_repeats(found[:lost]),
             [f"changed 0 {it} txqlen" for it in ("early0", "other0", "busy0")])
    gone = [f"gone 0 {it}" for it in ("early0", "early1", "other0", "other1")]
    came = [*(f"new 0 {it}" for it in ("late0", "late1", "other0")), "new 7 other0"]
    compares("after messages were lost", sorted(found[lost + 1:]), sorted([*gone, *came, "changed 0 busy0 txqlen"]))
    there = {it["ifindex"]: it["ifname"] for it in links()}
    watched.stops()
    if left(watched.all) != there:
        fails(f"told is {left(watched.all)}\nand there is {there}")
    print(f"linkdiff live: a queue that ran over, after {lost} changes: what went, and another kind at an index")


def inside(programs):
    for it in "all", "default":
        try:
            with open(f"/proc/sys/net/ipv6/conf/{it}/disable_ipv6", "w", encoding="utf-8") as file:
                file.write("1")
        except OSError:
            pass  # no IPv6
    batch(["link set lo up", veth("marker", 10), "link add bridge0 type bridge"])
    if not {"marker0", "bridge0"} <= {it["ifname"] for it in links()}:
        print("linkdiff live: skipped: the kernel knows no bridge, or no veth")
        return
    batch(["link del bridge0"])
    between = Between(programs)
    between.cases()
    between.files()
    between.refusals()
    follows(programs)
    aliases(programs)
    leniently(programs)
    stands_still(programs)
    print("linkdiff live passed")


def main():
    arguments = [it for it in sys.argv[1:] if it != "--inside"]
    if len(arguments) < len(sys.argv) - 1:
        inside([os.path.abspath(it) for it in arguments])
        return
    for command in ("ip", "unshare"):
        if not shutil.which(command):
            print(f"linkdiff live: skipped: no command {command}")
            return
    for flags in ("-n", "-rn"):
        if run("unshare", flags, "true").returncode == 0:
            os.execvp("unshare", ["unshare", flags, sys.executable, os.path.abspath(__file__), "--inside", *arguments])
    print("linkdiff live: skipped: a namespace: no right to make one")


if __name__ == "__main__":
    main()
