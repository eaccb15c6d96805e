"""Lines of linkdump(1) that the tests make, and linkwatch over them."""

import contextlib
import io
import os
import random
import subprocess
import sys
import tempfile

import linkwire
from linkwatch.command import run
from linkwire import numbers as n
from linkwire import u8, u32

TOP = os.path.dirname(os.path.dirname(os.path.dirname(os.path.abspath(__file__))))
LINKDIFF = os.environ.get("LINKDIFF", f"{TOP}/out/linkdiff")
COMMAND = [sys.executable, "-m", "linkwatch"]
PATIENCE = 600  # seconds after which the command is taken to hang, on whatever machine
BEGIN = "type=begin seq=1 port=7"
DONE, DONE_BRIDGE = (f"type=done seq=1 port=7 family={it}" for it in (0, 7))
ENVIRONMENT = {**{it: os.environ[it] for it in os.environ if it not in ("COLUMNS", "NO_COLOR", "TERM")},
               "TERM": "xterm", "LC_ALL": "C.UTF-8", "TZ": "UTC", "PYTHONPATH": f"{TOP}/python"}


def line(index, *attributes, what="new", family=0, flags=0, at="2026-11-28T10:00:00.000000001Z", host=""):
    """A line of a message."""
    message = linkwire.build(attributes, index=index, family=family, flags=flags)
    return f"{f'host={host} ' if host else ''}time={at} type={what} {message.hex()}"


def name(it):
    return n.IFLA_IFNAME, it


def mtu(it):
    return n.IFLA_MTU, u32(it)


def master(it):
    return n.IFLA_MASTER, u32(it)


def state(it):
    return n.IFLA_OPERSTATE, u8(it)


def kind(it, *data):
    return n.IFLA_LINKINFO, [(1, it), *([(2, list(data))] if data else [])]


def port(*settings):
    """What family 0 has of a port of a bridge."""
    return n.IFLA_LINKINFO, [(4, "bridge"), (5, list(settings))]


def port_too(*settings):
    """What family 7 has of it."""
    return n.IFLA_PROTINFO | 0x8000, list(settings)


def altname(*names):
    return n.IFLA_PROP_LIST | 0x8000, [(n.IFLA_ALT_IFNAME, it) for it in names]


def vlans(*entries):
    """The VLANs of a port: pairs of flags and a number."""
    return n.IFLA_AF_SPEC, [(2, flags.to_bytes(2, "little") + vid.to_bytes(2, "little")) for flags, vid in entries]


def tunnels(*entries):
    """The tunnels of a port: of each flags, the VLAN and the id."""
    return n.IFLA_AF_SPEC, [(3, [(1, u32(it)), (2, vid.to_bytes(2, "little")), (3, flags.to_bytes(2, "little"))])
                            for flags, vid, it in entries]


def stream(first, *lines):
    """A dump of these lines, and others after it."""
    return [BEGIN, *first, DONE, *lines]


def linkwatch(words, lines, **environment):
    """What the command writes, as bytes, what it says on standard error, and its status."""
    text = "".join(f"{it}\n" for it in lines).encode("utf-8", "surrogateescape")
    ran = subprocess.run([*COMMAND, *words], input=text, capture_output=True, check=False, timeout=PATIENCE,
                         env={**ENVIRONMENT, **environment})
    return ran.stdout, ran.stderr.decode(), ran.returncode


def inside(words, lines, encoding="utf-8"):
    """What `linkwatch --read` writes, in this process."""
    out = io.TextIOWrapper(io.BytesIO(), encoding)
    with tempfile.NamedTemporaryFile("w", encoding="utf-8", errors="surrogateescape") as file:
        file.write("".join(f"{it}\n" for it in lines))
        file.flush()
        with contextlib.redirect_stdout(out):
            status = run(["--read", file.name, *words])
    return out.buffer.getvalue().decode(encoding), status


def chance_lines(seed, count):
    """Lines of three hosts: links that come, change, are refused, go, and dumps of which some are not whole."""
    chance, turn = random.Random(seed), 0
    for _ in range(count):
        host = chance.choice(("", "a", "b"))
        words = f"host={host} " if host else ""
        if chance.random() < .1:
            turn += chance.random() < .5
            yield f"{words}type={chance.choice(('begin', 'done family=0', 'done family=7', 'lost'))} seq={turn} port=3"
            continue
        parts = [name(chance.choice(("eth0", "eth1", "é"))), mtu(chance.choice((1500, 9000))),
                 state(chance.choice((2, 6))),
                 master(chance.choice((0, 3))), (n.IFLA_IFALIAS, chance.choice((b"x\0", b"\xe9\0", b"\xe8\0")))]
        family = chance.choice((0, 0, 0, 7, 10))
        parts = [it for it in parts if chance.random() < .8]
        if family == 7:
            last = chance.randrange(2, 5)
            parts += [port_too((1, u8(chance.choice((0, 3))))),
                      vlans(*chance.choice((((0, it) for it in range(1, last)), ((8, 1), (16, last)))))]
        it = line(chance.randrange(1, 4), *parts, what=chance.choice(("new",) * 8 + ("del", "get")), family=family,
                  host=host, flags=chance.choice((0, 1)))
        yield it if chance.random() < .98 else it[:-2] + "0500"
