#!/usr/bin/env python3
"""Compares what linkdump writes of the kernel's links with `ip -d -j link` and /sys/class/net.

    python3 tests/linkdump/beside.py LINKDUMP [OPTION..]

The options are given to linkdump; with --netns NAME ip is asked there too, and no files are read. Where something
changed in between, all are asked again.
"""

import calendar
import json
import os
import re
import socket
import struct
import subprocess
import sys
import time

WORDS = r"time=([-0-9]{10}T[:0-9]{8}\.[0-9]{9}Z) type=%s kernel=(\S+) seq=([0-9]+) port=([0-9]+)"
LINE = re.compile(WORDS % "new" + r" ((?:[0-9a-f]{2}){16,})\Z")
BEGIN, DONE = re.compile(WORDS % "begin" + r"\Z"), re.compile(WORDS % "done" + r" family=0 links=([0-9]+)\Z")
UP, NUMBER = 1, 0x3FFF  # a flag, and an attribute's number without its flags
HEADER = 16
ADDRESS, NAME, MTU, LINK, MASTER, QLEN, INFO, GROUP, KIND = 1, 3, 4, 5, 10, 13, 18, 27, 1
FILES = {"mtu": "mtu", "address": "address", "txqlen": "tx_queue_len", "index": "ifindex"}


def attributes(bytes_):
    found = {}
    while len(bytes_) >= 4:
        len_, kind = struct.unpack_from("<HH", bytes_)
        if len_ < 4 or len_ > len(bytes_):
            raise ValueError("an attribute's length is wrong")
        found[kind & NUMBER] = bytes_[4:len_]
        bytes_ = bytes_[len_ + -len_ % 4:]
    return found


def text(bytes_):
    return bytes_.rstrip(b"\0").decode("utf-8", "replace")


def number(bytes_):
    return struct.unpack("<I", bytes_)[0]


def index_of(bytes_):
    return struct.unpack_from("<i", bytes_, 4)[0]


def of_message(bytes_):
    index, flags = struct.unpack_from("<iI", bytes_, 4)
    it = attributes(bytes_[HEADER:])
    info = attributes(it.get(INFO, b""))
    return {"index": index, "name": text(it[NAME]), "up": bool(flags & UP), "mtu": number(it[MTU]),
            "address": it.get(ADDRESS, b"").hex(":"), "txqlen": number(it[QLEN]), "group": number(it[GROUP]),
            "kind": text(info.get(KIND, b"")), "link": number(it[LINK]) if LINK in it else None,
            "master": number(it[MASTER]) if MASTER in it else None}


def of_program(words):
    """Returns the links of the lines, of which each has its words, and those of one dump the same."""
    ran = subprocess.run(words, capture_output=True, check=True, text=True, timeout=60)
    begin, *lines, done, end = ran.stdout.split("\n")
    found = [BEGIN.match(begin), *map(LINE.match, lines), DONE.match(done)]
    if end != "" or not all(found) or int(found[-1][5]) != len(lines):
        sys.exit(f"beside: no lines as they are to be: {begin} {lines} {done}")
    whens, kernels, seqs, ports = zip(*(it.groups()[:4] for it in found))
    first = calendar.timegm(time.strptime(whens[0][:19], "%Y-%m-%dT%H:%M:%S"))
    if set(kernels) != {os.uname().release} or set(seqs) != {"1"} or len(set(ports)) != 1 or list(whens) != \
            sorted(whens) or abs(first - time.time()) > 30:
        sys.exit(f"beside: words: {begin} {lines[0][:200]} {done}")
    return [of_message(bytes.fromhex(it[5])) for it in found[1:-1]]


def address(link):
    """A tunnel's address ip writes in another form than the files do."""
    text_ = link.get("address", "")
    return socket.inet_aton(text_).hex(":") if re.fullmatch(r"[0-9]+(\.[0-9]+){3}", text_) else text_


def of_ip(netns):
    words = ["ip", *(["-n", netns] if netns else []), "-N", "-d", "-j", "link", "show"]
    links = json.loads(subprocess.run(words, capture_output=True, check=True, timeout=60).stdout)
    by_name = {it["ifname"]: it["ifindex"] for it in links}
    return [{"index": it["ifindex"], "name": it["ifname"], "up": "UP" in it["flags"], "mtu": it["mtu"],
             "address": address(it), "txqlen": it.get("txqlen", 0),
             "group": int(it["group"]),
             "kind": it.get("linkinfo", {}).get("info_kind", ""),
             "link": by_name.get(it["link"]) if "link" in it else it.get("link_index"),
             "master": by_name[it["master"]] if "master" in it else None} for it in links]


def of_files():
    found = []
    for name in os.listdir("/sys/class/net"):
        link = {"name": name}
        for key, file in FILES.items():
            try:
                with open(f"/sys/class/net/{name}/{file}", encoding="utf-8") as it:
                    link[key] = it.read().strip()
            except (NotADirectoryError, FileNotFoundError, OSError):
                link[key] = ""
        if link["index"]:
            found.append(link)
    return found


def ordered(links):
    return sorted(links, key=lambda it: int(it["index"]))


def compare(words, netns):
    """Returns what differs, or nothing."""
    own = ordered(of_program(words))
    ip = ordered(of_ip(netns))
    if own != ip:
        return f"{own}\nand of ip\n{ip}"
    files = [] if netns else ordered(of_files())
    told = [] if netns else [{key: str(it[key]) for key in ("name", *FILES)} for it in own]
    return "" if files == told else f"{told}\nand in files\n{files}"


def main():
    words = sys.argv[1:]
    netns = words[words.index("--netns") + 1] if "--netns" in words else None
    for _ in range(5):
        differs = compare(words, netns)
        if not differs:
            beside = "ip" if netns else "ip and /sys/class/net"
            print(f"beside: {' '.join(['linkdump', *words[1:]])}: {len(of_program(words))} links as of {beside}")
            return
        time.sleep(0.3)
    sys.exit(f"beside: linkdump: {differs}")


if __name__ == "__main__":
    main()
