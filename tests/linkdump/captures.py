#!/usr/bin/env python3
"""Makes captures of link messages, and looks at what linkdump reads from them.

    python3 tests/linkdump/captures.py LINKDUMP [LINES..]

LINES are files of lines as linkdump writes them, words and hexadecimal, or hexadecimal alone; else the messages are
those that the programs linkshow and linkwire are run on, those of tests/kernels, and where KERNELS in the environment
names a folder of archives, as scripts/test/kernel_truth.py reads one, each twentieth message of these. The last line of
what is printed says how many there were.
"""

import glob
import gzip
import os
import re
import signal
import struct
import subprocess
import sys
import tempfile
import time

TOP = os.path.dirname(os.path.dirname(os.path.dirname(os.path.abspath(__file__))))
STORED = [f"{TOP}/{it}" for it in ("crates/linkshow/stdin", "crates/linkwire/stdin", "tests/kernels/messages.txt")]
ARCHIVED = [f"out/{name}.txt" for name in ("requests", "events", "msgs")]
TYPES = {"new": 16, "del": 17, "get": 18, "set": 19}
NETLINK, ETHERNET = 253, 1  # link types
ROUTE, GENERIC = 0, 16  # families of netlink
ERROR, DONE, NEWADDR = 2, 3, 20  # types of other messages
LINE = re.compile(r"(?:[a-z]+=\S+ )*((?:[0-9a-fA-F]{2})*)\Z")


def align(bytes_):
    return bytes_ + bytes(-len(bytes_) % 4)


def message(type_, payload, seq=0, port=0, flags=0, order="<"):
    return struct.pack(order + "IHHII", 16 + len(payload), type_, flags, seq, port) + payload


def cooked(messages, family=ROUTE):
    """A packet of an nlmon device: its header, and messages, each aligned but the last."""
    return struct.pack(">HH10xH", 4, 824, family) + b"".join(map(align, messages[:-1])) + messages[-1]


def pcap(packets, link=NETLINK, order="<", is_nano=True, limit=262144):
    """Packets are pairs of a time in nanoseconds and bytes, or of these and the length before they were cut."""
    made = [struct.pack(order + "IHHiIII", 0xA1B23C4D if is_nano else 0xA1B2C3D4, 2, 4, 0, 0, limit, link)]
    for when, bytes_, *whole in packets:
        part = when % 10**9 if is_nano else when % 10**9 // 1000
        made += [struct.pack(order + "IIII", when // 10**9, part, len(bytes_), *(whole or [len(bytes_)])), bytes_]
    return b"".join(made)


def block(type_, body, order):
    body = align(body)
    return struct.pack(order + "II", type_, 12 + len(body)) + body + struct.pack(order + "I", 12 + len(body))


def pcapng(packets, link=NETLINK, order="<", limit=262144, digits=9):
    """As pcap; times are in the unit of so many digits after the point of a second."""
    made = [block(0x0A0D0D0A, struct.pack(order + "IHHq", 0x1A2B3C4D, 1, 0, -1), order)]
    made.append(block(1, struct.pack(order + "HHIHHB3xHH", link, 0, limit, 9, 1, digits, 0, 0), order))
    for when, bytes_, *whole in packets:
        lens = struct.pack(order + "II", len(bytes_), *(whole or [len(bytes_)]))
        made.append(block(6, struct.pack(order + "III", 0, when >> 32, when & 0xFFFFFFFF) + lens + bytes_, order))
    return b"".join(made)


FORMS = {"pcap": pcap, "pcapng": pcapng}


def written_time(when):
    seconds, part = divmod(when, 10**9)
    return time.strftime("%Y-%m-%dT%H:%M:%S", time.gmtime(seconds)) + f".{part:09}Z"


class Told:
    """A message of a capture, and the line that has to be written of it."""

    def __init__(self, number, line, types=tuple(TYPES)):
        words = dict(it.split("=", 1) for it in line.split(" ")[:-1])
        self.payload = bytes.fromhex(line.split(" ")[-1])
        self.type = words.get("type", types[number % len(types)])
        self.seq, self.port = int(words.get("seq", 3 * number)), int(words.get("port", 4294967295 - number))
        self.when = 1764000000 * 10**9 + 987654321 * number

    def message(self):
        return message(TYPES[self.type], self.payload, self.seq, self.port, 2)

    def line(self, when=None, is_plain=False):
        words = f"time={written_time(self.when if when is None else when)} type={self.type} seq={self.seq} " \
                f"port={self.port} "
        return ("" if is_plain else words) + self.payload.hex()


def read_lines(files, folder=None):
    found = []
    for file in files:
        with open(file, encoding="utf-8", errors="replace", newline="") as it:
            found += [line for line in it.read().split("\n") if LINE.match(line)]
    for archive in sorted(glob.glob(f"{folder}/*.tar.xz")) if folder else []:
        ran = subprocess.run(["tar", "-xJOf", archive, *ARCHIVED], capture_output=True, check=True, timeout=60)
        digits = [line.rpartition(" ")[2] for line in ran.stdout.decode().split("\n") if not line.startswith("#")]
        found += [it for it in digits if it and LINE.match(it)][::20]
    return [Told(number, line) for number, line in enumerate(found)]


class Tests:
    def __init__(self, program, folder):
        self.program, self.file = program, f"{folder}/capture"

    def run(self, capture, *options, file=None):
        """Returns the status, the lines and the messages on standard error for a capture, which is read from a file."""
        if capture is not None:
            with open(self.file, "wb") as it:
                it.write(capture)
        ran = subprocess.run([self.program, "--read", file or self.file, *options], capture_output=True, timeout=60)
        told = ran.stderr.decode().replace(self.file, "FILE").split("\n")[:-1]
        return ran.returncode, ran.stdout.decode().split("\n")[:-1], told

    def wants(self, what, found, *wanted):
        if found != wanted:
            sys.exit(f"captures: {what}:\n  {str(found)[:1500]}\nand not\n  {str(wanted)[:1500]}")

    def whole(self, all_):
        """Each message in a packet of its own, in every form of a capture; a few in one packet, and others around."""
        lines, plain = [it.line() for it in all_], [it.line(is_plain=True) for it in all_]
        packets = [(it.when, cooked([it.message()])) for it in all_]
        for name, form in FORMS.items():
            self.wants(name, self.run(form(packets)), 0, lines, [])
            self.wants(f"{name} --plain", self.run(None, "--plain"), 0, plain, [])
            hosted = [f"host=h1 {line}" for line in lines]
            self.wants(f"{name} --host", self.run(None, "--host", "h1"), 0, hosted, [])
            with open(self.file, "rb") as it:
                ran = subprocess.run([self.program, "--read", "-"], stdin=it, capture_output=True, timeout=60)
            self.wants(f"{name} from standard input", (ran.returncode, ran.stdout.decode(), ran.stderr),
                       0, "".join(line + "\n" for line in lines), b"")
        micro = [it.line(it.when // 1000 * 1000) for it in all_]
        self.wants("a pcap of microseconds", self.run(pcap(packets, is_nano=False)), 0, micro, [])
        acknowledged = message(ERROR, struct.pack("<i", 0) + message(19, b"")[:16])
        several, wanted = [], []
        for at in range(0, len(all_), 7):
            some = all_[at:at + 7]
            others = [message(NEWADDR, bytes(8)), acknowledged, message(DONE, bytes(4))]
            several += [(some[0].when, cooked([it.message() for it in some] + others)),
                        (0, cooked([message(16, bytes(16))], GENERIC))]
            wanted += [it.line(some[0].when) for it in some]
        for name, form in FORMS.items():
            self.wants(f"{name}: several in a packet, and others", self.run(form(several)), 0, wanted, [])

    def left_out(self, all_):
        """What is told and left out, between two messages that are not."""
        first, last = all_[0], all_[1]
        quoted = message(19, bytes(16), 5, 6)
        one = message(16, bytes(32))
        for what, bytes_, whole, told in [
            ("a packet that was cut", cooked([one])[:50], 64, "cut by the capture, 50 of 64 bytes: left out"),
            ("a packet that was cut in its header", cooked([one])[:9], 64,
             "cut by the capture, 9 of 64 bytes: left out"),
            ("a packet that was cut, of another family", cooked([one], GENERIC)[:50], 64, None),
            ("a packet without a header", b"123456789", 9, "9 bytes, too few for its header: left out"),
            ("an error that quotes a message", cooked([message(ERROR, struct.pack("<i", -1) + quoted)]), None,
             "the message of type set that an error quotes is left out: Operation not permitted"),
            ("an error of no link message", cooked([message(ERROR, struct.pack("<i", -1) + message(20, bytes(8)))]),
             None, None),
            ("an error of no errno", cooked([message(ERROR, struct.pack("<i", -2**31) + quoted)]), None,
             "the message of type set that an error quotes is left out: Bad message"),
            ("a short error", cooked([message(ERROR, bytes(4))]), None, None),
            ("a length that passes the packet", cooked([one[:-4]]), None,
             "a message has the length 48, and 44 bytes are left: left out"),
            ("a length below the header's", cooked([struct.pack("<IHHII", 15, 16, 0, 0, 0)]), None,
             "a message has the length 15, and 16 bytes are left: left out"),
            ("stray bytes", cooked([message(DONE, bytes(4)), b"stray bytes"]), None, None),
            ("nothing after the header", cooked([b""]), None, None),
        ]:
            packets = [(first.when, cooked([first.message()])), (0, bytes_, whole or len(bytes_)),
                       (last.when, cooked([last.message()]))]
            wanted = [] if told is None else [f"linkdump: FILE: packet 2: {told}"]
            for name, form in FORMS.items():
                self.wants(f"{name}: {what}", self.run(form(packets)), 0, [first.line(), last.line()], wanted)

    def refused(self, all_):
        one = all_[0]
        packets = [(one.when, cooked([one.message()]))]
        turned = [(one.when, cooked([message(16, one.payload, order=">")]))]
        for name, form in FORMS.items():
            ethernet = form(packets, link=ETHERNET)
            for what, capture, lines, told in [
                ("of a big-endian machine", form(turned, order=">"), [], "a capture of a big-endian machine"),
                ("of a big-endian machine, written anew", form(packets + turned), [one.line()],
                 "packet 2: of a big-endian machine"),
                ("of a big-endian machine, without packets", form([], order=">"), [],
                 "a capture of a big-endian machine"),
                ("another link type", ethernet, [], "a capture of link type 1 EN10MB, not of NETLINK"),
            ]:
                self.wants(f"{name}: {what}", self.run(capture), 1, lines, [f"linkdump: FILE: {told}"])
            self.wants(f"{name}: by gzip", self.run(gzip.compress(form(packets))), 1, [],
                       ["linkdump: FILE: compressed by gzip: zcat FILE | linkdump --read -"])
            with open(self.file, "rb") as it:
                ran = subprocess.run([self.program, "--read", "-"], stdin=it, capture_output=True, timeout=60)
            self.wants(f"{name}: by gzip, from standard input", (ran.returncode, ran.stdout, ran.stderr),
                       1, b"", b"linkdump: -: compressed by gzip: zcat - | linkdump --read -\n")
            status, lines, told = self.run(form(packets * 2)[:-9])
            self.wants(f"{name}: a file that was cut", (status, lines, len(told)), 1, [one.line()], 1)
        for what, capture in [("a text", b"no capture at all\n" * 9), ("an empty file", b""), ("zeros", bytes(999)),
                              ("gzip's first byte", b"\x1f"), ("and another", b"\x1f" + pcap(packets))]:
            status, lines, told = self.run(capture)
            self.wants(what, (status, lines, len(told), told[0][:28]), 1, [], 1, "linkdump: FILE: no capture: ")
        for file, told in [("/nowhere/x", "No such file or directory"), (os.path.dirname(self.file), None)]:
            status, lines, said = self.run(None, file=file)
            wanted = [f"linkdump: {file}: {told}"] if told else said[:1]
            self.wants(file, (status, lines, said), 1, [], wanted)

    def times(self, all_):
        """Those that RFC 3339 has no form for are left out."""
        message_ = cooked([all_[0].message()])
        none = all_[0].line().split(" ", 1)[1]
        for seconds, text in [(0, "1970-01-01T00:00:00"), (951782400, "2000-02-29T00:00:00"),
                              (4102444799, "2099-12-31T23:59:59"), (253402300799, "9999-12-31T23:59:59"),
                              (253402300800, None), (2**63 - 1, None)]:
            wanted = none if text is None else f"time={text}.000000000Z {none}"
            capture = pcapng([(seconds, message_)], digits=0)
            self.wants(f"{seconds} seconds", self.run(capture), 0, [wanted], [])
        broken = bytearray(pcap([(0, message_)]))
        broken[28:32] = struct.pack("<I", 10**9)
        self.wants("a thousand million nanoseconds", self.run(bytes(broken)), 0, [none], [])

    def at_once(self, all_):
        """Each line is there before the next packet is given; an interrupt then ends the program."""
        few = all_[:5]
        with subprocess.Popen([self.program, "--read", "-"], stdin=subprocess.PIPE, stdout=subprocess.PIPE,
                              stderr=subprocess.PIPE) as it:
            it.stdin.write(pcap([]))
            for one in few:
                it.stdin.write(pcap([(one.when, cooked([one.message()]))])[24:])
                it.stdin.flush()
                self.wants("a line at once", (it.stdout.readline().decode(),), one.line() + "\n")
            it.send_signal(signal.SIGINT)
            self.wants("an interrupt", (it.wait(10), it.stdout.read(), it.stderr.read()), -signal.SIGINT, b"", b"")
            it.stdin.close()

    def closed(self, all_):
        many = pcap([(it.when, cooked([it.message()])) for it in all_] * (9 + 9999 // len(all_)))
        with open(self.file, "wb") as it:
            it.write(many)
        with subprocess.Popen([self.program, "--read", self.file], stdout=subprocess.PIPE,
                              stderr=subprocess.PIPE) as it:
            first = it.stdout.readline().decode()
            it.stdout.close()
            self.wants("a closed pipe", (first, it.wait(10), it.stderr.read()), all_[0].line() + "\n", 0, b"")


def main():
    all_ = read_lines(sys.argv[2:]) if sys.argv[2:] else read_lines(STORED, os.environ.get("KERNELS"))
    with tempfile.TemporaryDirectory() as folder:
        tests = Tests(os.path.abspath(sys.argv[1]), folder)
        for test in (tests.whole, tests.left_out, tests.refused, tests.times, tests.at_once, tests.closed):
            test(all_)
    print(f"captures: {len(all_)} messages as pcap and pcapng, what is left out, and what is refused")


if __name__ == "__main__":
    main()
