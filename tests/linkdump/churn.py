#!/usr/bin/env python3
"""Makes, changes, moves and deletes links while linkdump runs, and holds the model of model.py to what is there.

    python3 tests/linkdump/churn.py [--linkdiff LINKDIFF] LINKDUMP [RUNS]

In each of the runs, 15 without RUNS, three loops do so at once for a third of a second, while linkdump --monitor runs,
in every second run with --every 0.02, and in every fourth a third of what is announced is left out. At each line `done`
the model has what the lines since `begin` say, and after each run what `ip -j link` says. Then 250 of 550 ports of a
bridge are deleted one by one while they are dumped: none of the others may go. Where nothing is left out no dump has an
interface again that the one before it ended, but for one that was announced. With --linkdiff the lines `new` and `gone`
of linkdiff are the model's for each line, and after each run the names that it told are those of `ip -j link` too. What
needs a right or a kind of link that is not there is 'skipped'; the last lines say how much was seen.
"""

import json
import os
import random
import signal
import subprocess
import sys
import tempfile
import threading
import time

from beside import index_of
from model import BRIDGE, PARTS, UNSPEC, Model, split
from told import Told

INDEXES, NAMES, LOOPS = range(600, 606), range(8), 3
GONE, STAY = 250, 300


def run(*words, **options):
    return subprocess.run(words, capture_output=True, text=True, timeout=300, check=False, **options)


def batch(commands):
    """Gives ip its commands, of which some may fail."""
    return run("ip", "-force", "-batch", "-", input="".join(it + "\n" for it in commands))


def links(*words):
    return json.loads(run("ip", "-d", "-j", "link", "show", *words).stdout)


class Followed:
    """The model over lines, what linkdiff tells of them, and beside it what each dump and the news among it say."""

    def __init__(self, linkdiff, lost):
        self.model, self.wrong = Model(), []
        self.own, self.lost, self.chance = linkdiff and Told(linkdiff), lost, random.Random(7)
        self.span, self.ended, self.gone, self.port = None, set(), set(), None
        self.count = dict.fromkeys(("lines", "whole dumps", "deletions", "losses", "ended by a dump"), 0)

    def take(self, line):
        words, digits = split(line)
        if digits and words["port"] != self.port and self.chance.random() < self.lost:
            return
        told = self.model.take(line)
        if self.own:
            self.own.take(line, told)
        self.count["lines"] += 1
        self.gone |= {key for change, key in told if change == "gone"}
        if digits:
            self.take_message(words, bytes.fromhex(digits))
        elif words["type"] == "begin":
            self.span, self.port = set(), words["port"]
        elif words["type"] == "lost":
            self.ended.clear()
            self.count["losses"] += 1
        else:
            self.take_done(int(words["family"]), {key for _, key in told})

    def take_message(self, words, bytes_):
        key = "", bytes_[0], index_of(bytes_)
        if words["type"] == "del":
            self.count["deletions"] += key[1] == UNSPEC
            self.span = self.span and {it for it in self.span if it[2] != key[2] or key[1] not in (UNSPEC, it[1])}
        elif self.span is not None:
            self.span.add(key)
        if key in self.ended and words["port"] == self.port and not self.lost:
            self.wrong.append(f"{key} went, and is back without news")
        self.ended.discard(key)

    def take_done(self, family, ended):
        self.count["whole dumps"] += 1
        self.count["ended by a dump"] += len(ended)
        self.ended |= ended
        known = {key for key in self.model.known if key[1] == family}
        if known != {key for key in self.span if key[1] == family}:
            self.wrong.append(f"at done of the family {family}: {sorted(known)}\nand not\n{sorted(self.span)}")
        parts = [key for key in self.model.known if family == UNSPEC and key[1] in PARTS and not self.lost]
        if any(("", UNSPEC, key[2]) not in known for key in parts):
            self.wrong.append(f"a part without its interface: {sorted(self.model.known)}")


class Running:
    """linkdump --monitor, whose lines are followed as they come."""

    def __init__(self, programs, words, lost=0):
        linkdump, linkdiff = programs
        self.followed, self.wanted, self.left, self.found = Followed(linkdiff, lost), "", 0, threading.Event()
        self.errors = tempfile.TemporaryFile("w+", encoding="utf-8")
        self.process = subprocess.Popen([linkdump, "--monitor", *words], stdout=subprocess.PIPE, stderr=self.errors,
                                        text=True)
        self.wants(f" family={BRIDGE} links=")
        self.thread = threading.Thread(target=self.follow, daemon=True)
        self.thread.start()

    def follow(self):
        for line in self.process.stdout:
            self.followed.take(line.rstrip("\n"))
            self.left -= self.wanted in line
            if self.left <= 0:
                self.found.set()

    def wants(self, text, count=1):
        """Begins to look for lines with a text."""
        self.found.clear()
        self.wanted, self.left = text, count

    def waits(self):
        """Waits until that many were written."""
        if not self.found.wait(120):
            self.process.kill()
            self.fails(f"has not written {self.wanted}")

    def stops(self):
        """Ends it, and returns what was followed."""
        self.process.terminate()
        if self.process.wait(60) != -signal.SIGTERM:
            self.fails(f"status {self.process.returncode}")
        self.thread.join()
        self.process.stdout.close()
        self.errors.close()
        if self.followed.own:
            self.followed.wrong += self.followed.own.ends()
            self.followed.count["told as gone"] = len(self.followed.own.gone)
        return self.followed

    def fails(self, what):
        self.errors.seek(0)
        sys.exit(f"churn: linkdump: {what}: {self.errors.read()}")


def churns(seed, until, other):
    """Changes links at random until a time."""
    chance = random.Random(seed)
    while time.monotonic() < until:
        commands = []
        for _ in range(12):
            index, name = chance.choice(INDEXES), f"n{chance.choice(NAMES)}"
            commands.append(chance.choice((
                f"link add index {index} {name} type veth peer name q{seed % 1000}x{chance.randrange(99)}",
                f"link add index {index} {name} type bridge",
                f"link add index {index} {name} type vxlan id {chance.randrange(1000)} dev lower0 dstport 4789",
                f"link del {name}", f"link del {name}", f"link set {name} master br{chance.randrange(2)}",
                f"link set {name} nomaster", f"link set {name} up", f"link set {name} down",
                f"link set {name} mtu {chance.randrange(1280, 1500)}", f"link set {name} name n{chance.choice(NAMES)}",
                f"link set {name} netns {other}", f"link set {name} alias x{chance.randrange(9)}")))
        batch(commands)


def one_run(programs, number, other):
    """Returns what was followed, and what is wrong of it."""
    is_dumped = number % 2 == 0
    running = Running(programs, ["--every", "0.02"] if is_dumped else [], 1 / 3 if number % 4 == 2 else 0)
    running.waits()
    until = time.monotonic() + 0.35
    loops = [threading.Thread(target=churns, args=(LOOPS * number + it, until, other)) for it in range(LOOPS)]
    for it in loops:
        it.start()
    for it in loops:
        it.join()
    marker = 2000 + number % 2000
    running.wants("08000400" + marker.to_bytes(4, "little").hex())
    batch([f"link set lower0 mtu {marker + 1}", f"link set lower0 mtu {marker}"])
    running.waits()
    if is_dumped:  # a dump that was asked for after all of that
        running.wants(f" family={BRIDGE} links=", 2)
        running.waits()
    followed = running.stops()
    there = {it["ifindex"]: it for it in links()}
    names = {index: it["ifname"] for index, it in there.items()}
    of_bridge = {index for index, it in there.items() if "bridge" in
                 (it.get("linkinfo", {}).get("info_kind"), it.get("linkinfo", {}).get("info_slave_kind"))}
    found = followed.model.names("", UNSPEC), set(followed.model.names("", BRIDGE))
    if found[0] != names:
        followed.wrong.append(f"after all: {found[0]}\nand not\n{names}")
    own = followed.own and {index: name for (_, family, index), name in followed.own.names.items() if family == UNSPEC}
    if own not in (None, names):
        followed.wrong.append(f"after all linkdiff has told: {own}\nand not\n{names}")
    if not is_dumped:  # a bridge is not announced as such
        found[1].update(index for index in of_bridge if there[index]["linkinfo"].get("info_kind") == "bridge")
    if found[1] != of_bridge:
        followed.wrong.append(f"after all, of the family {BRIDGE}: {sorted(found[1])}\nand not\n{sorted(of_bridge)}")
    return followed


def deletes_ports(programs):
    """Returns what was followed while ports were deleted."""
    commands = ["link add big0 type bridge"]
    for kind, count in (("a", GONE), ("b", STAY)):
        commands += [f"link add {kind}{it} type veth peer name {kind}peer{it}" for it in range(count)]
        commands += [f"link set {kind}{it} master big0" for it in range(count)]
    batch(commands)
    stay = {it["ifindex"] for it in links() if it["ifname"] == "big0" or
            (it.get("master") == "big0" and it["ifname"].startswith("b"))}
    running = Running(programs, ["--family", "bridge", "--every", "0.004"])
    running.waits()
    for it in range(GONE):
        batch([f"link del a{it}"])
    running.wants(f" family={BRIDGE} links=", 2)
    running.waits()
    followed = running.stops()
    false = {key for key in {*followed.gone, *(followed.own.gone if followed.own else [])} if key[2] in stay}
    if false:
        followed.wrong.append(f"{len(false)} links are said to have gone, and are there: {sorted(false)}")
    if followed.own and sum(key[1] == BRIDGE for key in followed.own.gone) != GONE:
        followed.wrong.append(f"linkdiff tells that other ports than these {GONE} went: {followed.own.gone}")
    if not stay <= followed.model.names("", BRIDGE).keys():
        followed.wrong.append("ports are missing")
    batch(["link del big0", *(f"link del b{it}" for it in range(STAY))])
    return followed


def says(what, all_):
    """Prints what was counted in all of them, and ends where something is wrong."""
    counts = [f"{sum(it.count[name] for it in all_)} {name}" for name in all_[0].count]
    wrong = [it for followed in all_ for it in followed.wrong]
    print(f"churn: {what}: {', '.join(counts)}, {len(wrong)} differ", flush=True)
    if wrong:
        sys.exit("churn: " + "\n".join(it[:2000] for it in wrong[:5]))


def inside(programs, runs):
    batch(["link add br0 type bridge", "link add br1 type bridge", "link add lower0 type veth peer name lower1"])
    if not {"br0", "lower0"} <= {it["ifname"] for it in links()}:
        print("churn: skipped: the kernel knows no bridge, or no veth")
        return
    with subprocess.Popen(["unshare", "-n", "sleep", "100000"]) as other:
        time.sleep(0.3)
        all_ = [one_run(programs, number, other.pid) for number in range(runs)]
        other.kill()
    says(f"{runs} runs", all_)
    batch([f"link del n{it}" for it in NAMES])
    says(f"{GONE} of {GONE + STAY} ports deleted", [deletes_ports(programs)])


def main():
    arguments = [it for it in sys.argv[1:] if it != "--inside"]
    if len(arguments) < len(sys.argv) - 1:
        linkdiff = None
        if arguments[0] == "--linkdiff":
            _, linkdiff, *arguments = arguments
        linkdump, runs = arguments[0], int(arguments[1]) if arguments[1:] else 15
        inside((os.path.abspath(linkdump), linkdiff and os.path.abspath(linkdiff)), runs)
        return
    for flags in ("-n", "-rn"):
        if run("unshare", flags, "true").returncode == 0:
            os.execvp("unshare", ["unshare", flags, sys.executable, os.path.abspath(__file__), "--inside", *arguments])
    print("churn: skipped: a namespace: no right to make one")


if __name__ == "__main__":
    main()
