#!/usr/bin/env python3
"""Holds what linkwatch shows to what is done to links, in a network namespace of its own.

    unshare -n python3 tests/linkwatch/live.py LINKDUMP LINKDIFF

What was shown live is what a recording replayed shows, and --json is linkdiff's lines; of 2,500 random operations each
old value is the last that was told, and the end is what is there; 10,000 changes are shown while they come; a watch
that stood still is right again; --rates counts what is sent. What the kernel lacks is 'skipped'. The last line is
'linkwatch live passed'.
"""

import atexit
import json
import os
import random
import signal
import socket
import subprocess
import sys
import tempfile
import time

from linkwire import Links, View, Watch, flat, show

LINKDUMP, LINKDIFF = map(os.path.realpath, sys.argv[1:3])
COMMAND = [sys.executable, "-m", "linkwatch"]
PATIENCE = 600  # seconds after which a program is taken to hang, on whatever machine
STEPS = ["link set veth0 mtu 9000", "link set veth0 up", "link set veth1 up", "link set br0 up",
         "link set veth0 master br0", "link set veth0 type bridge_slave cost 77 learning off", "link set veth1 down",
         "link set veth1 name core", "link set core address 02:00:00:00:00:01",
         "link property add dev core altname thecore", "link set core alias \x1b[2J", "link set core up",
         "link set veth0 nomaster", "link set br0 type bridge ageing_time 1000", "link del veth0"]
# parts of lines that have to stand there, in turn; times, addresses and what the kernel does by itself are left out
TOLD = ["veth0            mtu 1500 → 9000", "veth0            flags +up", "veth0            master none → br0",
        "veth0            port of br0: state disabled → forwarding",
        "veth0            port of br0: cost 2 → 77, learning 1 → 0", "core             name veth1 → core",
        "→ 02:00:00:00:00:01", 'alias none → "\\u001b[2J", altname +thecore', "veth0            master br0 → none",
        "br0              data.ageing-time 30000 → 1000", "veth0            gone"]


def fails(what):
    sys.exit(f"linkwatch live: {what}")


def ip(*lines):
    subprocess.run(["ip", "-force", "-batch", "-"], input="".join(f"{it}\n" for it in lines).encode(), check=False,
                   stderr=subprocess.DEVNULL, timeout=PATIENCE)


class Watching:
    """A program that writes to a file while links change."""

    def __init__(self, folder, name, words):
        self.path = f"{folder}/{name}"
        with open(self.path, "wb") as out:
            self.process = subprocess.Popen(words, stdout=out)
        atexit.register(self.process.kill)

    def text(self):
        with open(self.path, encoding="utf-8") as it:
            return it.read()

    def waits(self, text):
        """Until the file has this text."""
        end = time.monotonic() + PATIENCE
        while text not in self.text():
            if time.monotonic() > end:
                fails(f"{self.path} has no {text}: {self.text()[-300:]}")
            time.sleep(.02)

    def ends(self):
        self.process.terminate()
        self.process.wait(PATIENCE)
        return self.text().splitlines()


def marked(running, mark):
    """Gives the loopback an alias, which is announced as it goes up, and waits until each program has told it."""
    ip("link set lo down", f"link set lo alias {mark}", "link set lo up")
    for name, it in running.items():
        it.waits(mark.encode().hex() if name == "record" else mark)


def begin(folder, *names):
    """The programs, once each has asked for what is there: each tells of a change that is made again and again. None
    asks again, since the lines would depend on when it does."""
    words = {"record": [LINKDUMP, "--monitor", "--family", "unspec,bridge"],
             "shown": [*COMMAND, "--time", "none", "--every", "1000000"],
             "json": [*COMMAND, "--json", "--every", "1000000"]}
    running = {it: Watching(folder, it, words[it]) for it in names}
    running["record"].waits("family=7 links=")
    time.sleep(.5)
    for it in names[1:]:
        turn = 0
        while not running[it].text():
            turn += 1
            ip(f"link set lo alias begin{turn}", "link set lo down", "link set lo up")
            time.sleep(.1)
    return running


def end(running):
    marked(running, "the-end")
    found = {name: it.ends() for name, it in running.items()}
    subprocess.run(["ip", "link", "set", "lo", "alias", ""], check=True, timeout=PATIENCE)  # for the next one
    return found


def between(lines):
    """What stands behind the last change that `begin` made, for programs that did not all see the first of them, up to
    that which `end` made: what follows it may come too late."""
    last = max(at for at, it in enumerate(lines) if "begin" in it and "lo" in it)
    return lines[last + 1:next(at for at, it in enumerate(lines) if "the-end" in it) + 1]


def replayed(folder, *words):
    ran = subprocess.run([*COMMAND, "--read", f"{folder}/record", *words], capture_output=True, check=True,
                         timeout=PATIENCE)
    return ran.stdout.decode().splitlines()


def plain(line):
    """A line of JSON without the words of the line that was read."""
    return [(name, it) for name, it in json.loads(line).items() if name not in ("type", "time")]


def is_same(what, found, wanted):
    if found != wanted:
        at = next((at for at, (a, b) in enumerate(zip(found, wanted)) if a != b), min(len(found), len(wanted)))
        fails(f"{what}: line {at} is {found[at:at + 2]} and not {wanted[at:at + 2]}")


def linkdiff(folder):
    with open(f"{folder}/record", "rb") as record:
        ran = subprocess.run([LINKDIFF, "--changes-only", "--lenient"], stdin=record, capture_output=True, check=True,
                             timeout=PATIENCE)
    return ran.stdout.decode().splitlines()


def steps():
    """Steps of which the lines are known; what is shown live, replayed, and as JSON."""
    with tempfile.TemporaryDirectory() as folder:
        ip("link add veth0 type veth peer name veth1", "link add br0 type bridge")
        running = begin(folder, "record", "shown", "json")
        for it in STEPS:
            ip(it)
            time.sleep(.03)
        found = end(running)
        is_same("replayed", between(replayed(folder, "--time", "none")), between(found["shown"]))
        differ = linkdiff(folder)
        is_same("JSON", list(map(plain, between(found["json"]))), list(map(plain, between(differ))))
        is_same("JSON replayed", list(map(json.loads, replayed(folder, "--json"))), list(map(json.loads, differ)))
        rest = iter(found["shown"])
        for wanted in TOLD:
            if not any(wanted in it for it in rest):
                fails(f"nothing tells '{wanted}' in its turn:\n" + "\n".join(found["shown"]))
        print(f"linkwatch live: {len(STEPS)} steps: {len(found['shown'])} lines, as replayed, and as linkdiff: ok")
    ip("link del br0")


def random_steps(chance, count):
    for _ in range(count):
        at = f"r{chance.randrange(6)}"
        yield chance.choice((
            f"link add {at} type veth peer name p{at}", f"link add {at} type bridge", f"link del {at}",
            f"link set {at} up", f"link set {at} down", f"link set p{at} up",
                             f"link set {at} mtu {chance.randrange(1000, 1500)}",
            f"link set p{at} master r{chance.randrange(6)}", f"link set p{at} nomaster",
                             f"link set {at} alias a{chance.randrange(9)}",
            f"link set p{at} type bridge_slave cost {chance.randrange(1, 99)}",
                             f"link set p{at} type bridge_slave learning off",
            f"link set {at} name n{at}", f"link set n{at} name {at}",
                             f"link set {at} type bridge ageing_time {chance.randrange(1000, 9000)}",
            f"link property add dev {at} altname alt{at}", f"link set {at} txqueuelen {chance.randrange(1, 99)}"))


def chains(folder):
    """Holds each old value to the last that was told, and the end to the last dump; returns how many values."""
    view, watch, last, count = View(details=True), Watch(lenient=True), {}, 0
    with open(f"{folder}/record", encoding="utf-8") as record:
        for event in (event for line in record for event in watch.line(line)):
            if event.change == "gone":
                ends = "" if event.family == 0 else "port."
                last = {key: it for key, it in last.items() if key[0] != event.ifindex or not key[1].startswith(ends)}
            for it in (it for told in view.told(event._replace(is_first=False)) for it in told.changes):
                key = event.ifindex, it.path, it.path.endswith("[]") and (it.old or it.new)
                if it.old == it.new:
                    fails(f"{key}: {it} is no change")
                if last.get(key, it.old) != it.old and it.path not in ("master", "link"):
                    fails(f"{key}: {it} after {last[key]}")
                last[key], count = it.new, count + 1
    for (family, index), message in watch.links().items():
        shown, it = show(message, lenient=True), view._links["", index]
        port = flat(shown.get("linkinfo", {}).get("slave-data", {}), "port.") if "master" in shown else {}
        if family == 0 and ((view.name(index), it.get("master") or 0) != (shown["ifname"], shown.get("master", 0))
                            or any(it.get(path) != value for path, value in port.items() if path != "port.")):
            fails(f"at the end {shown['ifname']} is another")
    return count


def random_operations():
    with tempfile.TemporaryDirectory() as folder:
        running = begin(folder, "record", "shown", "json")
        done = list(random_steps(random.Random(75), 2500))
        for at in range(0, len(done), 100):
            ip(*done[at:at + 100])
            marked(running, f"mark{at}-")  # a program that is far behind would lose messages
        found = end(running)
        is_same("replayed", between(replayed(folder, "--time", "none")), between(found["shown"]))
        is_same("JSON", list(map(plain, between(found["json"]))), list(map(plain, between(linkdiff(folder)))))
        print(f"linkwatch live: {len(done)} random operations: {len(found['shown'])} lines, as replayed and as "
              f"linkdiff, {chains(folder)} values without a gap or a repeat: ok")
    with Links() as links:
        names = [show(it)["ifname"] for it in links.dump()]
    ip(*(f"link del {it}" for it in names if it[0] in "rn"))


def flood():
    """10,000 changes: the first is shown before the last is made; and after a stop all is right again."""
    with tempfile.TemporaryDirectory() as folder:
        ip(*(f"link add f{it} type veth peer name g{it}" for it in range(5)))
        shown = begin(folder, "record", "shown")["shown"]
        with open(f"{folder}/batch", "w", encoding="utf-8") as file:
            file.writelines(f"link set f{it % 5} txqueuelen {it + 1}\n" for it in range(10000))
        start = time.monotonic()
        batch = subprocess.Popen(["ip", "-batch", f"{folder}/batch"])
        shown.waits("qlen")
        first = time.monotonic() - start
        batch.wait(PATIENCE)
        made = time.monotonic() - start
        shown.waits("→ 10000\n")
        print(f"linkwatch live: 10,000 changes in {made:.2f} s: the first is shown after {first:.2f} s, the last after "
              f"{time.monotonic() - start:.2f} s")
        shown.process.send_signal(signal.SIGSTOP)
        ip(*(f"link set f{it % 5} txqueuelen {it + 1}" for it in range(8000)), "link del f4", "link set f0 mtu 1400")
        shown.process.send_signal(signal.SIGCONT)
        shown.waits("mtu 1500 → 1400")
        shown.waits("f4               gone")
        ip("link set f1 mtu 1300")
        shown.waits("f1               mtu 1500 → 1300")
        lost = shown.text().count(" lost ")
        shown.ends()
        print(f"linkwatch live: a watch that stood still: lost is told {lost} times, and all is right again: ok")
    ip(*(f"link del f{it}" for it in range(4)))


def tables():
    """What is there, of a name and an alias that a terminal would obey."""
    ip("link add t0 type veth peer name t1", "link set t0 name t\x1b[2J", "link set t\x1b[2J alias a\u202e\u009b",
       "link add t2 type bridge")
    found = {words: subprocess.run([*COMMAND, "--once", *words], capture_output=True, check=True,
                                   timeout=PATIENCE).stdout.decode()
             for words in (("--json",), ("t*",))}
    aliases = {it["ifname"]: it.get("ifalias") for it in map(json.loads, found["--json",].splitlines())}
    if not found["--json",].isascii() or aliases.get("t\x1b[2J") != "a\u202e\u009b":
        fails(f"--once --json: {found['--json',]}")
    names = sorted(it.split()[0] for it in found["t*",].splitlines())
    if names != ["NAME", "t1@t\\u001b[2J", "t2", "t\\u001b[2J@t1"] or not found["t*",].replace("\n", "").isprintable():
        fails(f"--once: {found['t*',]}")
    print("linkwatch live: --once: ok")
    ip("link del t1", "link del t2")


def traffic():
    """What --rates counts is what is sent: 100 datagrams of 1,000 bytes, and 42 of headers each."""
    with subprocess.Popen([*COMMAND, "--rates", ".2", "--json", "lo"], stdout=subprocess.PIPE, text=True) as shown:
        atexit.register(shown.kill)
        found = [json.loads(shown.stdout.readline())]
        with socket.socket(socket.AF_INET, socket.SOCK_DGRAM) as it:
            for _ in range(100):
                it.sendto(bytes(1000), ("127.0.0.1", 9))
        while sum(it["tx-packets"] for it in found[-2:]) or not any(it["tx-packets"] for it in found):
            found.append(json.loads(shown.stdout.readline()))
        shown.terminate()
    sent = round(sum(it["tx-bytes"] * it["seconds"] for it in found))
    if not 104200 <= sent < 250000 or {it["ifname"] for it in found} != {"lo"}:  # each may be refused by one of ICMP
        fails(f"--rates counts {sent} bytes")
    print(f"linkwatch live: --rates counts {sent:,} bytes of 104,200 and what refuses them: ok")


def main():
    ip("link set lo up", "link add try0 type veth peer name try1")
    if not os.path.exists("/proc/self/net/dev") or "try0" not in open("/proc/self/net/dev", encoding="utf-8").read():
        print("linkwatch live: skipped: the kernel knows no veth")
        return
    ip("link del try0")
    steps()
    random_operations()
    flood()
    tables()
    traffic()
    print("linkwatch live passed")


main()
