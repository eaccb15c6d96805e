#!/usr/bin/env python3
"""Times the package in python/ beside Debian's pyroute2, by turns, on the links of a network namespace.

    PYTHONPATH=python LINKWIRE=out/liblinkwire.so.0 unshare -n /usr/bin/python3 bench/python_links.py [LINKS [TURNS]]

It runs as root, by the Python that has pyroute2. It makes pairs of veth until there are LINKS (1000), of each one as a
port of a bridge, and prints of each way the processor's milliseconds of the best of TURNS (9), of this process alone.
The ways of pyroute2: `get_links`, which decodes a message when it is looked at; three attributes of each; all of each.
Those of the package: the bytes; checked; keys; three attributes; JSON; dicts. `ip -d -s -j link` and json.loads are
timed by the clock, and so are dicts then.
"""

import gc
import json
import subprocess
import sys
import time

import linkwire
from linkwire.numbers import IFLA_IFNAME, IFLA_MTU, IFLA_OPERSTATE
from pyroute2 import IPRoute

WANTED = IFLA_IFNAME, IFLA_MTU, IFLA_OPERSTATE


def plain(value):
    """What a message of pyroute2 has, as dicts."""
    if hasattr(value, "get") and "attrs" in value:
        return {it[0]: plain(it[1]) for it in value["attrs"]}
    return value


def ways(links, route):
    def checked():
        for it in links.dump():
            linkwire.check(it)

    return {
        "pyroute2: get_links": lambda: list(route.get_links()),
        "pyroute2: three attributes": lambda: [(it.get_attr("IFLA_IFNAME"), it.get_attr("IFLA_MTU"),
                                                it.get_attr("IFLA_OPERSTATE")) for it in route.get_links()],
        "pyroute2: all, as dicts": lambda: [plain(it) for it in route.get_links()],
        "linkwire: bytes": links.dump,
        "linkwire: checked": checked,
        "linkwire: keys": lambda: [linkwire.key(it) for it in links.dump()],
        "linkwire: all attributes": lambda: [list(linkwire.attributes(it)) for it in links.dump()],
        "linkwire: three attributes": lambda: [linkwire.pick(it, *WANTED) for it in links.dump()],
        "linkwire: JSON": lambda: [linkwire.show_json(it, "running") for it in links.dump()],
        "linkwire: dicts": lambda: list(linkwire.show_all(links.dump(), "running")),
        "linkwire: dicts, one by one": lambda: [linkwire.show(it, "running") for it in links.dump()],
    }


def by_the_clock(links):
    def ip():
        return json.loads(subprocess.run(["ip", "-d", "-s", "-j", "link"], capture_output=True, check=True,
                                         timeout=60).stdout)

    return {"by the clock: ip -d -s -j link, json.loads": ip,
            "by the clock: linkwire: dicts": lambda: list(linkwire.show_all(links.dump(), "running"))}


def measure(jobs, turns, clock):
    best = dict.fromkeys(jobs, float("inf"))
    for _ in range(turns):
        for name, job in jobs.items():
            gc.collect()
            start = clock()
            job()
            best[name] = min(best[name], clock() - start)
    return best


def main(count="1000", turns="9"):
    pairs = range(int(count) // 2)
    lines = ["link add br0 type bridge\n", *(f"link add v{it} type veth peer name p{it}\n" for it in pairs),
             *(f"link set v{it} master br0\n" for it in pairs)]
    subprocess.run(["ip", "-batch", "-"], input="".join(lines), text=True, check=True, timeout=600)
    with linkwire.Links() as links, IPRoute() as route:
        print(len(links.dump()), "links")
        best = measure(ways(links, route), int(turns), time.process_time)
        for name, seconds in best.items():
            print(f"{name}: {1000 * seconds:.1f} ms", flush=True)
        for name, own, other in (("checked bytes", "checked", "get_links"), ("keys", "keys", "get_links"),
                                 ("three attributes", "three attributes", "three attributes"),
                                 ("dicts, where pyroute2 decodes nothing", "dicts", "get_links"),
                                 ("dicts, where it decodes all", "dicts", "all, as dicts")):
            print(f"{name}: {best[f'pyroute2: {other}'] / best[f'linkwire: {own}']:.1f} times")
        for name, seconds in measure(by_the_clock(links), int(turns), time.perf_counter).items():
            print(f"{name}: {1000 * seconds:.1f} ms")


main(*sys.argv[1:])
